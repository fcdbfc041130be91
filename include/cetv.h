/* Cash equivalents (transfer values) of the Scottish health service pension
 * scheme, by the guidance notes of 22 August 2019. Link with libcetv.a; nothing
 * else is needed.
 *
 * A case is a block of bytes, laid out below. cetv_value_block reads it, values
 * it and forms a line of text: a payment with its items, or the first refusal
 * that applies. Every rule that refuses a block stands at its refusal.
 */
#ifndef CETV_H
#define CETV_H

#include <stddef.h>
#include <stdint.h>

#ifdef __cplusplus
extern "C" {
#endif

/* The version of this header: 10000 * major + 100 * minor + patch. That of the
 * library is cetv_version(); a program should check that the two are equal. */
#define CETV_VERSION 10000
#define CETV_VERSION_TEXT "1.0.0"

/* The size of a block, and the least number of bytes to lend for a line of
 * text. No such line is longer. */
#define CETV_BLOCK_SIZE 512
#define CETV_LINE_SIZE 256

/* ---- Codes ---- */

enum cetv_kind {
    CETV_KIND_1995 = 1, /* the 1995 section with pension age 60 */
    CETV_KIND_2015 = 2, /* the 2015 scheme */
    CETV_KIND_2008 = 3  /* the 2008 section, pension age 65 */
};

enum cetv_status {
    CETV_STATUS_DEFERRED = 1,
    CETV_STATUS_ACTIVE = 2,
    CETV_STATUS_PENSIONER = 3,
    CETV_STATUS_PENSION_CREDIT = 4
};

enum cetv_receiving_scheme {
    CETV_RECEIVING_DEFINED_BENEFIT = 1,
    CETV_RECEIVING_DEFINED_CONTRIBUTION = 2,
    CETV_RECEIVING_OVERSEAS = 3
};

/* Flags are added up. */
enum cetv_flag {
    CETV_FLAG_TRANSFER_IN = 1,  /* the member transferred benefits in */
    CETV_FLAG_GMP = 2,          /* has a guaranteed minimum pension */
    CETV_FLAG_CHOICE_OPTANT = 4 /* is a Choice Optant of the 2008 section */
};

enum cetv_sex {
    CETV_SEX_MALE = 1,
    CETV_SEX_FEMALE = 2
};

/* ---- The block ---- */

/* The position at which each field starts, counted from 0; the comment starts
 * with its width in bytes. A number is unsigned, low byte first. A date is a
 * year of 2 bytes, a month of 1 and a day of 1. Amounts are whole pence. */
#define CETV_AT_KIND 0             /* 2 */
#define CETV_AT_CASE_NUMBER 4      /* 4 */
#define CETV_AT_STATUS 8           /* 1 */
#define CETV_AT_RECEIVING_SCHEME 9 /* 1 */
#define CETV_AT_FLAGS 10           /* 1 */
#define CETV_AT_COUNT 11           /* 1: how many lines of benefits */
#define CETV_AT_SERVICE 12         /* 2: qualifying service, complete months */
#define CETV_AT_SEX 14             /* 1 */
#define CETV_AT_BIRTH 16           /* 4: date of birth */
#define CETV_AT_LEAVING 20         /* 4: date of leaving */
#define CETV_AT_GUARANTEE 24       /* 4: guarantee date */
#define CETV_AT_STATE_PENSION 28   /* 4: state pension date */
#define CETV_AT_REVALUATION 32     /* 4: the factor in ten-thousandths */
#define CETV_AT_AVC 40             /* 8: voluntary fund */
#define CETV_AT_TRANSFER_IN 48     /* 8: transfer-in payment */
#define CETV_AT_CONTRIBUTIONS 56   /* 8: own contributions */

/* Line n of the benefits, n from 1 to 4. In kind 2, line 1 is for service
 * without an early retirement buy-out and has the date of the prospective
 * normal pension age; lines 2 to 4 are for a buy-out period each and have the
 * date of its reduced age. Kinds 1 and 3 have line 1 alone, without a date. */
#define CETV_AT_LINE(n) (64 + 72 * ((n) - 1))
#define CETV_AT_PENSION_DATE(n) (CETV_AT_LINE(n) + 0)                  /* 4 */
#define CETV_AT_PENSION(n) (CETV_AT_LINE(n) + 8)                       /* 8 */
#define CETV_AT_ADDITIONAL_PENSION(n) (CETV_AT_LINE(n) + 16)           /* 8 */
#define CETV_AT_SURVIVORS_PENSION(n) (CETV_AT_LINE(n) + 24)            /* 8 */
#define CETV_AT_DEPENDANTS_ADDITIONAL_PENSION(n) (CETV_AT_LINE(n) + 32) /* 8 */
#define CETV_AT_LUMP_SUM(n) (CETV_AT_LINE(n) + 40)                     /* 8 */
#define CETV_AT_MODIFICATION(n) (CETV_AT_LINE(n) + 48)                 /* 8 */
#define CETV_AT_SCHEME_PAYS_PENSION(n) (CETV_AT_LINE(n) + 56)          /* 8 */
#define CETV_AT_SCHEME_PAYS_LUMP_SUM(n) (CETV_AT_LINE(n) + 64)         /* 8 */

/* The divorce debit of line n. */
#define CETV_AT_DIVORCE(n) (352 + 24 * ((n) - 1))
#define CETV_AT_DEBIT_PENSION(n) (CETV_AT_DIVORCE(n) + 0)              /* 8 */
#define CETV_AT_DEBIT_SURVIVORS_PENSION(n) (CETV_AT_DIVORCE(n) + 8)    /* 8 */
#define CETV_AT_DEBIT_LUMP_SUM(n) (CETV_AT_DIVORCE(n) + 16)            /* 8 */

/* The check: each byte before it times its position counted from 1, summed. */
#define CETV_AT_CHECK 508 /* 4 */

/* What the amounts are:
 *   - benefits and divorce debits are entered as at leaving, and revalued
 *   - insurance modification and both Scheme Pays debits are entered as at the
 *     guarantee date, and not revalued
 *   - AVC, transfer-in payment and own contributions are not revalued
 *   - pensions, modification and debits on a pension are yearly amounts, lump
 *     sums are paid once
 *   - the benefits are those before Scheme Pays and before the divorce debit
 *   - a debit pension is of the pension and the additional pension together,
 *     a debit survivor's pension likewise
 *   - for a Choice Optant the lump sum is the mandatory one, and the pension is
 *     what commutation leaves. */

/* ---- Limits ---- */

#define CETV_MAX_AMOUNT 1000000000 /* pence, each amount by itself */
#define CETV_MIN_REVALUATION 10000
#define CETV_MAX_REVALUATION 100000
#define CETV_MIN_YEAR 1900 /* dates: 1 January of this year */
#define CETV_MAX_YEAR 2199 /* to 31 December of this year */
#define CETV_MAX_LINES 4   /* kind 2; kinds 1 and 3 have one line */
#define CETV_MIN_SERVICE 3 /* complete months */

/* Age is how many birthdays have come by the guarantee date, that day included.
 * The years ahead of a line are the least number of years that takes the
 * guarantee date to the line's date or past it, so a part of a year counts as
 * one. A birthday or guarantee date of 29 February falls on 28 February in a
 * common year. */
#define CETV_MIN_AGE_1995 22     /* kind 1: youngest age in the table */
#define CETV_PENSION_AGE_1995 60 /* refused from this age on */
#define CETV_MIN_AGE_2008 18     /* kind 3: the same two */
#define CETV_PENSION_AGE_2008 65
#define CETV_MIN_AGE_LINE_1 65   /* kind 2: line 1 is dated on this birthday or
                                  * later */
#define CETV_MAX_YEARS_AHEAD 50  /* last row in the table of kind 2 */

/* ---- The sum ---- */

/* To revalue is to multiply by the revaluation factor and round to the penny.
 * Pension and additional pension are added first and revalued together, and so
 * are the survivor's pension and the dependant's additional pension. Halves of
 * a penny go up, here and below. The factors are those of the notes' tables, by
 * age in kinds 1 and 3 and by the years ahead of each line in kind 2.
 *
 *   pension      over all lines, what the Scheme Pays debit leaves of the
 *                revalued pension, times its factor
 *   lump sum     the same of the lump sum
 *   survivor     the revalued survivor's pension, times its factor
 *   deduction    the modification, times its factor
 *   total        pension + lump sum + survivor - deduction, not rounded
 *   first value  the total, rounded to the penny
 *   debit value  over all lines, each amount of the divorce debit revalued and
 *                multiplied by its benefit's factor; the sum rounded to the
 *                penny
 *   gross value  first value - debit value
 *   underpin     with flag 1, transfer-in payment + own contributions; else 0
 *   payment      the larger of gross value and underpin, + AVC
 */

/* ---- The refusals ---- */

/* By number, each with its name on the line of text and what it is given for.
 * The first that applies is given, in this order: 15, 1 to 6, 17, 7 to 9, 11,
 * 10, 12 to 14, 16. What is said of lines is said of those within the count. */
enum cetv_refusal {
    /* length: block_len is not CETV_BLOCK_SIZE. */
    CETV_REFUSAL_LENGTH = 1,

    /* check: the check differs. */
    CETV_REFUSAL_CHECK = 2,

    /* kind: the kind is not listed, or the count of lines is 0 or more than the
     * kind may have. */
    CETV_REFUSAL_KIND = 3,

    /* reserved: something that must be zero is not. These must be zero, a date
     * with all its bytes:
     *   - positions of no field: 2, 3, 15, 36 to 39, 68 to 71, 140 to 143,
     *     212 to 215, 284 to 287, 448 to 507
     *   - lines past the count: all of the line and of its divorce debit
     *   - every kind: flags not listed
     *   - without flag 1: transfer-in payment
     *   - without flag 2: state pension date
     *   - kinds 1 and 3: flag 1, own contributions, pension date
     *   - kinds 1 and 2: flag 4, sex
     *   - kind 2: modification
     *   - kind 2, and kind 3 without flag 4: lump sum, Scheme Pays on the lump
     *     sum, debit lump sum
     *   - lines 2 to 4: additional pension, dependant's additional pension */
    CETV_REFUSAL_RESERVED = 4,

    /* range: a number, code or date is out of its range:
     *   - case number 0
     *   - a status, a receiving scheme or in kind 3 a sex that is not listed
     *   - a revaluation factor or an amount outside its limits
     *   - one of these dates that is zero or no real day within the limits:
     *     birth, leaving, guarantee; with flag 2, state pension; in kind 2, the
     *     pension date of each line. */
    CETV_REFUSAL_RANGE = 5,

    /* dates: dates contradict each other:
     *   - the member left on or before the day of birth
     *   - the member left after the guarantee date
     *   - kind 2: line 1 is dated before the 65th birthday
     *   - kind 2: another line is dated on or after the date of line 1. */
    CETV_REFUSAL_DATES = 6,

    /* status: the member is not deferred. */
    CETV_REFUSAL_STATUS = 7,

    /* receiver: the receiving scheme is not a defined benefit scheme. */
    CETV_REFUSAL_RECEIVER = 8,

    /* service: fewer months than CETV_MIN_SERVICE. */
    CETV_REFUSAL_SERVICE = 9,

    /* refer: flag 2, and a state pension date before 6 April 2016. */
    CETV_REFUSAL_REFER = 10,

    /* age: pension age is reached: in kinds 1 and 3 the member's age is the
     * pension age or more; in kind 2 a line is dated on or before the guarantee
     * date. */
    CETV_REFUSAL_AGE = 11,

    /* factor: the table has no row: in kinds 1 and 3 the age is below its first
     * row; in kind 2 the years ahead of a line are above its last. */
    CETV_REFUSAL_FACTOR = 12,

    /* debit: on a line, a Scheme Pays debit is above the revalued pension or
     * the revalued lump sum that it reduces; the same amount passes. */
    CETV_REFUSAL_DEBIT = 13,

    /* negative: the total is below zero. */
    CETV_REFUSAL_NEGATIVE = 14,

    /* buffer: fewer than CETV_LINE_SIZE bytes are lent. It shows on no line:
     * cetv_value_block gives 0. */
    CETV_REFUSAL_BUFFER = 15,

    /* award: the debit value is above the first value. */
    CETV_REFUSAL_AWARD = 16,

    /* order: in kind 2, line 3 is dated on or after the date of line 2, or line
     * 4 on or after that of line 3. */
    CETV_REFUSAL_ORDER = 17
};

/* ---- The functions ---- */

/* Values one block and forms its line of text at the start of out.
 *
 *   block, block_len  the block; any bytes of any length
 *   place             the number that the line starts with, printed as given
 *   out, out_len      the result buffer
 *
 * The answer is the line's length, its line feed included; bytes of out past
 * it keep their contents. The line is not ended by a zero byte. The answer is
 * 0 where out_len is below CETV_LINE_SIZE (refusal 15), and then no byte of out
 * changes. The line is one of
 *
 *   PLACE CASE pay P pension A lump B survivor C deduct D underpin U avc V\n
 *   PLACE CASE refused NUMBER NAME\n
 *
 * P, U and V are pounds with two decimals: payment, underpin and AVC. A to D
 * are pounds with four: pension, lump sum, survivor and deduction of the sum.
 * Counted in pence, an amount may need more than 32 bits. A divorce debit has
 * no item of its own; it shows in P. CASE is the case number, and 0 where the
 * block could not be read (refusals 1 to 5). Numbers have no sign, no padding
 * and no leading zeros, but for the one before the point of an amount below a
 * pound.
 *
 * A length of 0 with any pointer, NULL too, is an empty block or buffer. With
 * any other length the pointer must be good for so many bytes: block for
 * reading, out for writing. The two must not overlap, and nothing else may
 * write to either during the call. No more is asked of the caller; nothing is
 * kept between calls, and calls from several threads at once are safe. */
size_t cetv_value_block(const uint8_t *block, size_t block_len, uint32_t place,
                        uint8_t *out, size_t out_len);

/* The version of the library, to be compared with CETV_VERSION. */
uint32_t cetv_version(void);

#ifdef __cplusplus
}
#endif

#endif
