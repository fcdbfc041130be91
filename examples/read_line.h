/* Reads the line that cetv_value_block forms, so that a program has numbers and
 * not text. To be taken into a C or C++ program beside cetv.h; read_line, at
 * the end, is the function to call. It copies no text and allocates nothing. */
#ifndef READ_LINE_H
#define READ_LINE_H

#include <stddef.h>
#include <stdint.h>
#include <string.h>

#include "cetv.h"

enum line_form {
    LINE_UNREADABLE, /* not a line of the library's; *answer is all zeros */
    LINE_PAYMENT,
    LINE_REFUSAL
};

struct line_answer {
    uint32_t place;
    uint32_t case_number; /* 0 where the block could not be read */
    int refusal;          /* of enum cetv_refusal; 0 for a payment */
    const char *name;     /* the refusal's name; NULL for a payment */
    /* Amounts of a payment in pence, */
    uint64_t pay, underpin, avc;
    /* and in hundredths of a penny. */
    uint64_t pension, lump, survivor, deduct;
};

/* What is left of the line. After a part that is not as it should be, ok is 0
 * and stays so. */
struct line_rest {
    const uint8_t *at;
    size_t left;
    int ok;
};

static inline const char *line_refusal_name(int refusal)
{
    switch (refusal) {
    case CETV_REFUSAL_LENGTH: return "length";
    case CETV_REFUSAL_CHECK: return "check";
    case CETV_REFUSAL_KIND: return "kind";
    case CETV_REFUSAL_RESERVED: return "reserved";
    case CETV_REFUSAL_RANGE: return "range";
    case CETV_REFUSAL_DATES: return "dates";
    case CETV_REFUSAL_STATUS: return "status";
    case CETV_REFUSAL_RECEIVER: return "receiver";
    case CETV_REFUSAL_SERVICE: return "service";
    case CETV_REFUSAL_REFER: return "refer";
    case CETV_REFUSAL_AGE: return "age";
    case CETV_REFUSAL_FACTOR: return "factor";
    case CETV_REFUSAL_DEBIT: return "debit";
    case CETV_REFUSAL_NEGATIVE: return "negative";
    case CETV_REFUSAL_BUFFER: return "buffer";
    case CETV_REFUSAL_AWARD: return "award";
    case CETV_REFUSAL_ORDER: return "order";
    default: return NULL;
    }
}

static inline int line_take(struct line_rest *r, const char *text)
{
    size_t length = strlen(text);
    if (!r->ok || r->left < length || memcmp(r->at, text, length) != 0)
        return 0;
    r->at += length;
    r->left -= length;
    return 1;
}

static inline void line_want(struct line_rest *r, const char *text)
{
    if (!line_take(r, text))
        r->ok = 0;
}

static inline int line_digit_next(const struct line_rest *r)
{
    return r->ok && r->left != 0 && *r->at >= '0' && *r->at <= '9';
}

/* number * 10 and the next digit; not ok where there is no digit, or that is
 * above largest, which is 9 or more. */
static inline uint64_t line_digit(struct line_rest *r, uint64_t number, uint64_t largest)
{
    uint64_t digit = line_digit_next(r) ? (uint64_t)(*r->at - '0') : 0;
    if (!line_digit_next(r) || number > (largest - digit) / 10) {
        r->ok = 0;
        return 0;
    }
    r->at++;
    r->left--;
    return 10 * number + digit;
}

/* A whole number without zeros in front of it. */
static inline uint64_t line_number(struct line_rest *r, uint64_t largest)
{
    uint64_t number = line_digit(r, 0, largest);
    if (number == 0 && line_digit_next(r))
        r->ok = 0;
    while (line_digit_next(r))
        number = line_digit(r, number, largest);
    return number;
}

/* A word and an amount in pounds, in units of the last of its decimals. */
static inline uint64_t line_amount(struct line_rest *r, const char *word, int decimals)
{
    line_want(r, word);
    uint64_t number = line_number(r, UINT64_MAX);
    line_want(r, ".");
    for (int i = 0; i < decimals; i++)
        number = line_digit(r, number, UINT64_MAX);
    return number;
}

static inline void line_payment(struct line_rest *r, struct line_answer *a)
{
    a->pay = line_amount(r, " pay ", 2);
    a->pension = line_amount(r, " pension ", 4);
    a->lump = line_amount(r, " lump ", 4);
    a->survivor = line_amount(r, " survivor ", 4);
    a->deduct = line_amount(r, " deduct ", 4);
    a->underpin = line_amount(r, " underpin ", 2);
    a->avc = line_amount(r, " avc ", 2);
    if (a->case_number == 0)
        r->ok = 0;
}

/* Refusals 1 to 5 have no case number and the others have one; 15 has no line. */
static inline void line_refusal(struct line_rest *r, struct line_answer *a)
{
    a->refusal = (int)line_number(r, CETV_REFUSAL_ORDER);
    a->name = line_refusal_name(a->refusal);
    if (!a->name || a->refusal == CETV_REFUSAL_BUFFER || (a->refusal <= CETV_REFUSAL_RANGE) != (a->case_number == 0)) {
        r->ok = 0;
        return;
    }
    line_want(r, " ");
    line_want(r, a->name);
}

/* line and length are the buffer and what cetv_value_block answered; a length
 * of 0 is refusal 15, with no place and no case number. Any bytes and any
 * length may be handed over, and only the whole of a line is taken: no byte
 * before it, after it or missing, no number written otherwise than the library
 * writes it, no refusal under another's name. */
static inline enum line_form read_line(const uint8_t *line, size_t length, struct line_answer *answer)
{
    struct line_rest r = {line, length, 1};
    memset(answer, 0, sizeof *answer);
    if (length == 0) {
        answer->refusal = CETV_REFUSAL_BUFFER;
        answer->name = line_refusal_name(CETV_REFUSAL_BUFFER);
        return LINE_REFUSAL;
    }
    answer->place = (uint32_t)line_number(&r, UINT32_MAX);
    line_want(&r, " ");
    answer->case_number = (uint32_t)line_number(&r, UINT32_MAX);
    int refused = line_take(&r, " refused ");
    if (refused)
        line_refusal(&r, answer);
    else
        line_payment(&r, answer);
    line_want(&r, "\n");
    if (!r.ok || r.left != 0) {
        memset(answer, 0, sizeof *answer);
        return LINE_UNREADABLE;
    }
    return refused ? LINE_REFUSAL : LINE_PAYMENT;
}

#endif
