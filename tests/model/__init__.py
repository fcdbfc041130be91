"""A model of reading and valuing in Python, written from the papers and not from the code.

    refusals   the numbers and names of the refusals
    fields     the one table of the block's fields, and a case by their names
    blocks     the bytes of a case, its check, the bytes that no field names
    calendar   real days, moving on by years, age, years ahead
    factors    the tables of figures/factors.txt
    sums       what a case is worth
    rules      refusals 3 to 17 in the order in which they are tested
    answers    what reading a block and valuing a case give
    examples   the worked examples of 001 and 003

tests/reading, tests/valuing, tests/calendar, tests/lines, examples/make.py and bench/make_blocks.py share it. tests/second, in
Rust, and bench/plain.c tell the same rules apart from it.

What shows a mistake in it: each vector of tests/reading and tests/valuing states its answer beside it, by hand but for whole
tables, and the script stops where the model gives another; the library answers the same vectors and pairs of dates
(crates/blocks_check, valuing_check and calendar_check). It needs Python 3.9 or later and its standard library.
"""
