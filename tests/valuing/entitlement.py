"""Refusals 6, 17, 7 to 9, 11 and 10 in kinds 1 and 2, with ages, years ahead and 29 February."""

from cases import KIND_1_FAULTS, KIND_2_FAULTS, P25, P25_PAID, P4, P4_PAID, P54, P54_PAID, lines_up_to
from making import group, only, vector


def dates():
    group("6 dates")
    vector("kind 1, leaving on the day of birth", 6, P54, {"leaving": (1967, 6, 1)})
    vector("kind 1, leaving the day after birth", P54_PAID, P54, {"leaving": (1967, 6, 2)})
    vector("kind 1, leaving the day before birth", 6, P54, {"leaving": (1967, 5, 31)})
    vector("kind 1, leaving on the guarantee date", P54_PAID, P54, {"leaving": (2021, 6, 1)})
    vector("kind 1, leaving the day after the guarantee date", 6, P54, {"leaving": (2021, 6, 2)})
    vector("kind 2, leaving on the day of birth", 6, P25, {"leaving": (1980, 5, 10)})
    vector("kind 2, leaving the day after birth", P25_PAID, P25, {"leaving": (1980, 5, 11)})
    vector("kind 2, leaving on the guarantee date", P25_PAID, P25, {"leaving": (2020, 5, 10)})
    vector("kind 2, leaving the day after the guarantee date", 6, P25, {"leaving": (2020, 5, 11)})
    vector("line 1 on the 65th birthday", P25_PAID, P25)
    vector("line 1 the day before the 65th birthday", 6, P25, {"line 1 date": (2045, 5, 9)})
    vector("born a day later", 6, P25, {"birth": (1980, 5, 11)})
    vector("born a day earlier", P25_PAID, P25, {"birth": (1980, 5, 9)})
    # line 2 is then 25 years ahead too; lines 3 and 4 are then later than the line before
    before = {2: only("3,852.00"), 3: 17, 4: 17}
    for i in (2, 3, 4):
        vector(f"line {i} on the date of line 1", 6, P4, {f"line {i} date": (2045, 5, 10)})
        vector(f"line {i} the day before line 1", before[i], P4, {f"line {i} date": (2045, 5, 9)})
        vector(f"line {i} a year after line 1", 6, P4, {f"line {i} date": (2046, 5, 10)})
    leap = P25 | {"birth": (1980, 2, 29), "guarantee": (2020, 3, 1)}
    vector("born 29 February 1980, line 1 on 27 February 2045", 6, leap, {"line 1 date": (2045, 2, 27)})
    vector("born 29 February 1980, line 1 on 28 February 2045", P25_PAID, leap, {"line 1 date": (2045, 2, 28)})
    vector("born 29 February 1980, line 1 on 1 March 2045", P25_PAID, leap, {"line 1 date": (2045, 3, 1)})
    leap = P25 | {"birth": (1956, 2, 29)}
    vector("born 29 February 1956, line 1 on 27 February 2021", 6, leap, {"line 1 date": (2021, 2, 27)})
    vector("born 29 February 1956, line 1 on 28 February 2021", only("1,708.00"), leap, {"line 1 date": (2021, 2, 28)})


def entitlement():
    group("7 status, 8 receiver, 9 service, 10 refer")
    for label, base in (("kind 1", P54), ("kind 2", P4)):
        accepted = P54_PAID if base == P54 else P4_PAID
        for status in (2, 3, 4):
            vector(f"{label}, status {status}", 7, base, {"status": status})
        vector(f"{label}, status 1 and receiving scheme 1", accepted, base)
        for receiver in (2, 3):
            vector(f"{label}, receiving scheme {receiver}", 8, base, {"receiving scheme": receiver})
        for months in (0, 1, 2):
            vector(f"{label}, {months} months", 9, base, {"months": months})
        for months in (3, 4, 65535):
            vector(f"{label}, {months} months", accepted, base, {"months": months})
        for date in ((2016, 4, 5), (2016, 3, 31), (2015, 12, 31)):
            vector(f"{label}, state pension date {date}", 10, base, {"flags": 2, "state pension date": date})
        for date in ((2016, 4, 6), (2016, 5, 1), (2017, 1, 1)):
            vector(f"{label}, state pension date {date}", accepted, base, {"flags": 2, "state pension date": date})
        vector(f"{label}, no GMP", accepted, base, {"flags": 0})


def ages():
    group("11 age, 12 factor")
    vector("kind 1, age 21", 12, P54, {"guarantee": (1989, 5, 31)})
    vector("kind 1, age 22", only("893.00"), P54, {"guarantee": (1989, 6, 1)})
    vector("kind 1, age 59", only("2,034.00"), P54, {"guarantee": (2027, 5, 31)})
    vector("kind 1, age 60", 11, P54, {"guarantee": (2027, 6, 1)})
    vector("kind 1, age 61", 11, P54, {"guarantee": (2028, 6, 1)})
    vector("kind 1, age 0", 12, P54, {"leaving": (1967, 6, 2), "guarantee": (1967, 6, 2)})
    older = P25 | {"birth": (1950, 1, 1)}
    vector("kind 2, line 1 the day before the guarantee date", 11, older, {"line 1 date": (2020, 5, 9)})
    vector("kind 2, line 1 on the guarantee date", 11, older, {"line 1 date": (2020, 5, 10)})
    vector("kind 2, line 1 a day ahead", only("1,708.00"), older, {"line 1 date": (2020, 5, 11)})
    vector("kind 2, line 1 a year ahead", only("1,708.00"), older, {"line 1 date": (2021, 5, 10)})
    vector("kind 2, line 1 a year and a day ahead", only("1,665.00"), older, {"line 1 date": (2021, 5, 11)})
    vector("kind 2, line 1 50 years ahead", only("553.00"), older, {"line 1 date": (2070, 5, 10)})
    vector("kind 2, line 1 50 years and a day ahead", 12, older, {"line 1 date": (2070, 5, 11)})
    vector("kind 2, line 1 51 years ahead", 12, older, {"line 1 date": (2071, 5, 10)})
    vector("kind 2, line 1 on 31 December 2199", 12, older, {"line 1 date": (2199, 12, 31)})
    vector("kind 2, line 1 of four 51 years ahead", 12, P4, {"line 1 date": (2071, 5, 10)})
    vector("kind 2, line 1 of four 50 years ahead", only("3,506.00"), P4, {"line 1 date": (2070, 5, 10)})
    # the last line at 17.08
    a_day_ahead = {2: "2,635.00", 3: "3,590.00", 4: "4,574.00"}
    for i in (2, 3, 4):
        vector(f"kind 2, line {i}, the last, on the guarantee date", 11, lines_up_to(i), {f"line {i} date": (2020, 5, 10)})
        vector(f"kind 2, line {i}, the last, before the guarantee date", 11, lines_up_to(i), {f"line {i} date": (2019, 5, 10)})
        vector(f"kind 2, line {i}, the last, a day ahead", only(a_day_ahead[i]), lines_up_to(i), {f"line {i} date": (2020, 5, 11)})


def leap_days():
    group("29 February")
    born = P54 | {"birth": (1968, 2, 29)}
    vector("on 28 February 2020: 51", only("1,685.00"), born, {"guarantee": (2020, 2, 28)})
    vector("on 29 February 2020: 52", only("1,724.00"), born, {"guarantee": (2020, 2, 29)})
    vector("on 27 February 2021: 52", only("1,724.00"), born, {"guarantee": (2021, 2, 27)})
    vector("on 28 February 2021: 53", only("1,764.00"), born, {"guarantee": (2021, 2, 28)})
    vector("on 27 February 2022: 53", only("1,764.00"), born, {"guarantee": (2022, 2, 27)})
    vector("on 28 February 2022: 54", only("1,805.00"), born, {"guarantee": (2022, 2, 28)})
    vector("on 1 March 2022: 54", only("1,805.00"), born, {"guarantee": (2022, 3, 1)})
    vector("on 28 February 2024: 55", only("1,848.00"), born, {"guarantee": (2024, 2, 28)})
    vector("on 29 February 2024: 56", only("1,892.00"), born, {"guarantee": (2024, 2, 29)})
    vector("on 27 February 1990: 21", 12, born, {"guarantee": (1990, 2, 27)})
    vector("on 28 February 1990: 22", only("893.00"), born, {"guarantee": (1990, 2, 28)})
    vector("on 1 March 1990: 22", only("893.00"), born, {"guarantee": (1990, 3, 1)})
    vector("on 28 February 2028: 59", only("2,034.00"), born, {"guarantee": (2028, 2, 28)})
    vector("on 29 February 2028: 60", 11, born, {"guarantee": (2028, 2, 29)})
    born = P54 | {"birth": (2040, 2, 29), "leaving": (2090, 1, 1)}
    vector("on 27 February 2100: 59", only("2,034.00"), born, {"guarantee": (2100, 2, 27)})
    vector("on 28 February 2100: 60", 11, born, {"guarantee": (2100, 2, 28)})
    guarantee = P25 | {"birth": (1970, 1, 1), "guarantee": (2020, 2, 29)}
    vector("to 29 February 2044: 24", only("955.00"), guarantee, {"line 1 date": (2044, 2, 29)})
    vector("to 1 March 2044: 25", only("927.00"), guarantee, {"line 1 date": (2044, 3, 1)})
    vector("to 28 February 2045: 25", only("927.00"), guarantee, {"line 1 date": (2045, 2, 28)})
    vector("to 1 March 2045: 26", only("908.00"), guarantee, {"line 1 date": (2045, 3, 1)})
    vector("to 2 March 2045: 26", only("908.00"), guarantee, {"line 1 date": (2045, 3, 2)})
    guarantee = P25 | {"birth": (2030, 1, 1), "leaving": (2090, 1, 1), "guarantee": (2096, 2, 29)}
    vector("to 28 February 2100: 4", only("1,572.00"), guarantee, {"line 1 date": (2100, 2, 28)})
    vector("to 1 March 2100: 5", only("1,522.00"), guarantee, {"line 1 date": (2100, 3, 1)})
    to_leap_day = P25 | {"birth": (1970, 1, 1), "line 1 date": (2044, 2, 29)}
    vector("28 February 2019 to 29 February 2044: 26", only("908.00"), to_leap_day, {"guarantee": (2019, 2, 28)})
    vector("1 March 2019 to 29 February 2044: 25", only("927.00"), to_leap_day, {"guarantee": (2019, 3, 1)})


def too_old_or_refer():
    group("11 age before 10 refer")
    refer = KIND_1_FAULTS[10]
    meets_10 = P54 | refer
    vector("kind 1, age 59", 10, meets_10, {"guarantee": (2027, 5, 31)})
    vector("kind 1, age 60", 11, meets_10, {"guarantee": (2027, 6, 1)})
    vector("kind 1, age 61", 11, meets_10, {"guarantee": (2028, 6, 1)})
    misses_10 = P54 | {"flags": 2, "state pension date": (2016, 4, 6)}
    vector("kind 1, state pension date 6 April 2016, age 59", only("2,034.00"), misses_10, {"guarantee": (2027, 5, 31)})
    vector("kind 1, state pension date 6 April 2016, age 60", 11, misses_10, {"guarantee": (2027, 6, 1)})
    for number in (7, 8, 9):
        vector(f"kind 1, {number} with both", number, meets_10, {"guarantee": (2027, 6, 1)} | KIND_1_FAULTS[number])
    older = P25 | {"birth": (1950, 1, 1)} | refer
    vector("kind 2, line 1 on the guarantee date", 11, older, {"line 1 date": (2020, 5, 10)})
    vector("kind 2, line 1 a day after", 10, older, {"line 1 date": (2020, 5, 11)})
    for i in (2, 3, 4):
        vector(f"kind 2, line {i}, the last, on the guarantee date", 11, lines_up_to(i) | refer, {f"line {i} date": (2020, 5, 10)})
        vector(f"kind 2, line {i}, the last, a day after", 10, lines_up_to(i) | refer, {f"line {i} date": (2020, 5, 11)})
    for number in (7, 8, 9):
        vector(f"kind 2, {number} with both", number, P4 | refer, {"line 4 date": (2020, 5, 10)} | KIND_2_FAULTS[number])
    vector("kind 2, 12 with both", 11, P4 | refer, {"line 4 date": (2020, 5, 10), "line 1 date": (2070, 5, 11)})


def order_of_lines():
    group("17 order")
    # 25, 24, 23 and 22 years ahead are 9.27, 9.55, 9.84 and 10.14. A line dated up to a year later than in P4 is a year further
    # ahead, as the line above it is there.
    vector("two lines a day apart", only("1,854.00"), lines_up_to(2), {"line 2 date": (2045, 5, 9)})
    three = lines_up_to(3)
    vector("three lines, line 3 a day before line 2", only("2,837.00"), three, {"line 3 date": (2044, 5, 9)})
    vector("three lines, line 3 on the date of line 2", 17, three, {"line 3 date": (2044, 5, 10)})
    vector("three lines, line 3 a day after line 2", 17, three, {"line 3 date": (2044, 5, 11)})
    vector("three lines, line 2 a day after line 3", only("2,866.00"), three, {"line 2 date": (2043, 5, 11)})
    vector("three lines, line 2 on the date of line 3", 17, three, {"line 2 date": (2043, 5, 10)})
    vector("three lines, line 2 a day before line 3", 17, three, {"line 2 date": (2043, 5, 9)})
    vector("four lines, line 3 a day before line 2", only("3,851.00"), P4, {"line 3 date": (2044, 5, 9)})
    vector("four lines, line 3 on the date of line 2", 17, P4, {"line 3 date": (2044, 5, 10)})
    vector("four lines, line 3 a day after line 2", 17, P4, {"line 3 date": (2044, 5, 11)})
    vector("four lines, line 4 a day before line 3", only("3,850.00"), P4, {"line 4 date": (2043, 5, 9)})
    vector("four lines, line 4 on the date of line 3", 17, P4, {"line 4 date": (2043, 5, 10)})
    vector("four lines, line 4 a day after line 3", 17, P4, {"line 4 date": (2043, 5, 11)})
    vector("four lines, line 4 on the date of line 2", 17, P4, {"line 4 date": (2044, 5, 10)})
    vector("four lines, line 3 a day before line 4", 17, P4, {"line 3 date": (2042, 5, 9)})
    vector("four lines, from the earliest to the latest", 17, P4, {"line 2 date": (2042, 5, 10), "line 4 date": (2044, 5, 10)})
    vector("four lines a day apart", only("3,708.00"), P4, {f"line {i} date": (2045, 5, 11 - i) for i in (2, 3, 4)})
    # The year decides, then the month, then the day.
    vector("line 3 a month before line 2, its day later", only("3,851.00"), P4, {"line 3 date": (2044, 4, 11)})
    vector("line 3 a month after line 2, its day earlier", 17, P4, {"line 3 date": (2044, 6, 9)})
    vector("line 4 a year before line 3, its month later", only("3,850.00"), P4, {"line 4 date": (2042, 12, 31)})
    vector("line 4 a year after line 3, its month earlier", 17, P4, {"line 4 date": (2044, 1, 1)})
    leap = P4 | {"line 2 date": (2044, 3, 1)}
    vector("line 2 on 1 March, line 3 on 29 February", only("3,851.00"), leap, {"line 3 date": (2044, 2, 29)})
    vector("line 2 on 29 February, line 3 on 1 March", 17, leap, {"line 2 date": (2044, 2, 29), "line 3 date": (2044, 3, 1)})
    alike = P4 | {"line 3 date": (2044, 5, 10)}
    vector("lines 2 and 3 alike, line 4 on the date of line 1", 6, alike, {"line 4 date": (2045, 5, 10)})
    vector("lines 2 and 3 alike, line 1 before the 65th birthday", 6, alike, {"line 1 date": (2045, 5, 9)})
    vector("lines 1, 2 and 3 alike", 6, alike, {"birth": (1970, 1, 1), "line 1 date": (2044, 5, 10)})
    for status in (2, 3, 4):
        vector(f"lines 2 and 3 alike, status {status}", 17, alike, {"status": status})
    vector("line 2 on the guarantee date", 17, P4, {"line 2 date": (2020, 5, 10)})
