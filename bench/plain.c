/* The same work as the program `values`, in plain C: reads a case file on
 * standard input, prints the header, a line for each block and the end line.
 * It is what the proved program is timed against, and its output must be the
 * same. */
#include <stdint.h>
#include <stdio.h>
#include <stdlib.h>
#include <string.h>
#include <unistd.h>

static const uint16_t section_1995[38][4] = {
    {893, 41, 84, 518}, {913, 42, 86, 532}, {933, 43, 88, 546}, {953, 44, 91, 561},
    {974, 45, 93, 577}, {995, 46, 95, 592}, {1016, 47, 97, 608}, {1038, 49, 99, 625},
    {1061, 50, 101, 642}, {1084, 51, 104, 660}, {1108, 52, 106, 678}, {1132, 53, 108, 696},
    {1157, 55, 110, 715}, {1182, 56, 113, 735}, {1208, 57, 115, 755}, {1234, 59, 117, 776},
    {1262, 60, 119, 797}, {1290, 62, 121, 819}, {1318, 63, 124, 842}, {1347, 64, 126, 865},
    {1377, 66, 128, 890}, {1408, 68, 130, 914}, {1440, 69, 132, 940}, {1472, 71, 134, 966},
    {1505, 73, 136, 993}, {1539, 74, 138, 1021}, {1574, 76, 140, 1049}, {1610, 78, 141, 1079},
    {1647, 80, 143, 1109}, {1685, 82, 145, 1141}, {1724, 84, 147, 1173}, {1764, 86, 148, 1207},
    {1805, 88, 150, 1242}, {1848, 90, 151, 1278}, {1892, 92, 152, 1316}, {1938, 94, 153, 1354},
    {1985, 97, 154, 1395}, {2034, 99, 154, 1437}};
/* TV3 and TV4 print the same figures, so one table serves men and women: its
 * last column is TV3E, TV4E and, from 60, TV4F. */
static const uint16_t section_2008[47][4] = {
    {650, 33, 76, 465}, {664, 34, 80, 478}, {678, 35, 82, 491}, {693, 36, 84, 504},
    {707, 36, 86, 518}, {722, 37, 88, 532}, {738, 38, 90, 546}, {753, 39, 92, 561},
    {769, 40, 94, 577}, {785, 41, 96, 592}, {802, 42, 99, 608}, {819, 43, 101, 625},
    {836, 44, 103, 642}, {854, 45, 105, 660}, {872, 46, 108, 678}, {891, 47, 110, 696},
    {910, 49, 112, 715}, {929, 50, 115, 735}, {949, 51, 117, 755}, {970, 52, 119, 776},
    {990, 53, 121, 797}, {1012, 55, 124, 819}, {1034, 56, 126, 842}, {1056, 57, 128, 865},
    {1079, 59, 130, 890}, {1102, 60, 132, 914}, {1126, 62, 134, 940}, {1151, 63, 137, 966},
    {1176, 64, 139, 993}, {1202, 66, 141, 1021}, {1229, 68, 143, 1049}, {1256, 69, 145, 1079},
    {1284, 71, 146, 1109}, {1313, 73, 148, 1141}, {1342, 74, 150, 1173}, {1373, 76, 152, 1207},
    {1404, 78, 153, 1242}, {1437, 80, 154, 1278}, {1470, 82, 156, 1316}, {1504, 84, 157, 1354},
    {1540, 86, 158, 1395}, {1577, 88, 158, 1437}, {1615, 90, 159, 1480}, {1655, 92, 159, 1526},
    {1696, 94, 159, 1573}, {1739, 97, 159, 1623}, {1783, 99, 159, 1674}};
static const uint16_t scheme_2015[50][2] = {
    {1708, 160}, {1665, 160}, {1624, 160}, {1572, 161}, {1522, 161}, {1474, 161}, {1427, 161},
    {1394, 160}, {1362, 159}, {1331, 158}, {1301, 157}, {1272, 156}, {1244, 154}, {1217, 152},
    {1190, 151}, {1164, 149}, {1139, 147}, {1115, 145}, {1091, 143}, {1068, 141}, {1045, 139},
    {1014, 138}, {984, 136}, {955, 135}, {927, 133}, {908, 131}, {889, 129}, {871, 127},
    {853, 125}, {835, 122}, {818, 120}, {801, 118}, {785, 115}, {769, 113}, {753, 110},
    {737, 108}, {722, 106}, {708, 103}, {693, 101}, {679, 99}, {665, 97}, {652, 94},
    {639, 92}, {626, 90}, {613, 88}, {600, 86}, {588, 84}, {576, 82}, {564, 80},
    {553, 75}};

struct date { unsigned year, month, day; };
struct line {
    struct date date;
    uint64_t pension, additional, survivor, dependant, lump, modification, scheme_pays, scheme_pays_lump;
    uint64_t debit_pension, debit_survivor, debit_lump;
};
struct record {
    unsigned kind, status, receiver, flags, count, service, sex;
    uint32_t number, revaluation;
    struct date birth, leaving, guarantee, state_pension;
    uint64_t avc, transfer, contributions;
    struct line lines[4];
};
struct items { uint64_t payment, pension, lump, survivor, deduction, underpin, avc; };

static const char *const names[18] = {"", "length", "check", "kind", "reserved", "range", "dates", "status",
    "receiver", "service", "refer", "age", "factor", "debit", "negative", "buffer", "award", "order"};

static uint16_t u16(const uint8_t *b) { uint16_t x; memcpy(&x, b, 2); return x; }
static uint32_t u32(const uint8_t *b) { uint32_t x; memcpy(&x, b, 4); return x; }
static uint64_t u64(const uint8_t *b) { uint64_t x; memcpy(&x, b, 8); return x; }
static struct date date_at(const uint8_t *b) { return (struct date){u16(b), b[2], b[3]}; }

static int is_leap(unsigned y) { return y % 400 == 0 || (y % 100 != 0 && y % 4 == 0); }
static int is_zero(struct date d) { return d.year == 0 && d.month == 0 && d.day == 0; }
static unsigned rank(struct date d) { return d.year * 65536 + d.month * 256 + d.day; }
static int before(struct date a, struct date b) { return rank(a) < rank(b); }

static int is_real(struct date d)
{
    static const uint8_t days[13] = {0, 31, 28, 31, 30, 31, 30, 31, 31, 30, 31, 30, 31};
    if (d.year < 1900 || d.year > 2199 || d.month < 1 || d.month > 12 || d.day < 1)
        return 0;
    return d.day <= days[d.month] + (unsigned)(d.month == 2 && is_leap(d.year));
}

static struct date in_year(unsigned year, struct date d)
{
    if (d.month == 2 && d.day == 29 && !is_leap(year))
        return (struct date){year, 2, 28};
    return (struct date){year, d.month, d.day};
}

static unsigned age(struct date birth, struct date on)
{
    if (on.year <= birth.year)
        return 0;
    return on.year - birth.year - (unsigned)before(on, in_year(on.year, birth));
}

static unsigned years_ahead(struct date from, struct date to)
{
    if (to.year < from.year)
        return 0;
    return to.year - from.year + (unsigned)before(in_year(to.year, from), to);
}

static int nonzero(const uint8_t *b, size_t from, size_t n)
{
    uint8_t any = 0;
    for (size_t i = 0; i < n; i++)
        any |= b[from + i];
    return any != 0;
}

#define MOST 1000000000u

static int line_is_zero(const struct line *l)
{
    return is_zero(l->date) && !(l->pension | l->additional | l->survivor | l->dependant | l->lump | l->modification | l->scheme_pays | l->scheme_pays_lump
        | l->debit_pension | l->debit_survivor | l->debit_lump);
}

static int read_block(const uint8_t *b, size_t n, struct record *c)
{
    if (n != 512)
        return 1;
    uint32_t sum = 0;
    for (uint32_t i = 0; i < 508; i++)
        sum += (i + 1) * b[i];
    if (sum != u32(b + 508))
        return 2;
    c->kind = u16(b); c->number = u32(b + 4);
    c->status = b[8]; c->receiver = b[9]; c->flags = b[10]; c->count = b[11]; c->service = u16(b + 12); c->sex = b[14];
    c->birth = date_at(b + 16); c->leaving = date_at(b + 20); c->guarantee = date_at(b + 24); c->state_pension = date_at(b + 28);
    c->revaluation = u32(b + 32);
    c->avc = u64(b + 40); c->transfer = u64(b + 48); c->contributions = u64(b + 56);
    for (int k = 0; k < 4; k++) {
        const uint8_t *p = b + 64 + 72 * k, *q = b + 352 + 24 * k;
        c->lines[k] = (struct line){date_at(p), u64(p + 8), u64(p + 16), u64(p + 24), u64(p + 32), u64(p + 40), u64(p + 48), u64(p + 56), u64(p + 64),
            u64(q), u64(q + 8), u64(q + 16)};
    }
    if (c->kind < 1 || c->kind > 3 || c->count < 1 || c->count > (c->kind == 2 ? 4 : 1))
        return 3;
    if (nonzero(b, 2, 2) || b[15] || nonzero(b, 36, 4) || nonzero(b, 68, 4) || nonzero(b, 140, 4) || nonzero(b, 212, 4) || nonzero(b, 284, 4) || nonzero(b, 448, 60))
        return 4;
    int transferred = c->flags & 1, gmp = c->flags >> 1 & 1, optant = c->flags >> 2 & 1;
    if (c->flags >> 3 || (!gmp && !is_zero(c->state_pension)) || (!transferred && c->transfer) || (c->kind != 2 && (transferred || c->contributions)) || (c->kind != 3 && (optant || c->sex)))
        return 4;
    int dated = c->kind == 2, lump_sum = c->kind == 1 || optant;
    for (unsigned k = 0; k < 4; k++) {
        const struct line *l = &c->lines[k];
        if (k >= c->count && !line_is_zero(l))
            return 4;
        if (dated ? l->modification != 0 : !is_zero(l->date))
            return 4;
        if (!lump_sum && (l->lump | l->scheme_pays_lump | l->debit_lump))
            return 4;
        if (k >= 1 && (l->additional | l->dependant))
            return 4;
    }
    if (c->number == 0 || c->status < 1 || c->status > 4 || c->receiver < 1 || c->receiver > 3 || c->revaluation < 10000 || c->revaluation > 100000)
        return 5;
    if (c->kind == 3 && c->sex != 1 && c->sex != 2)
        return 5;
    if (c->avc > MOST || c->transfer > MOST || c->contributions > MOST)
        return 5;
    if (!is_real(c->birth) || !is_real(c->leaving) || !is_real(c->guarantee) || (gmp && !is_real(c->state_pension)))
        return 5;
    for (unsigned k = 0; k < c->count; k++) {
        const struct line *l = &c->lines[k];
        if (l->pension > MOST || l->additional > MOST || l->survivor > MOST || l->dependant > MOST || l->lump > MOST || l->modification > MOST || l->scheme_pays > MOST || l->scheme_pays_lump > MOST
            || l->debit_pension > MOST || l->debit_survivor > MOST || l->debit_lump > MOST)
            return 5;
        if (dated && !is_real(l->date))
            return 5;
    }
    return 0;
}

static uint64_t revalued(uint64_t x, uint32_t v) { return (x * v + 5000) / 10000; }

static int value(const struct record *c, struct items *m)
{
    if (!before(c->birth, c->leaving) || before(c->guarantee, c->leaving))
        return 6;
    if (c->kind == 2) {
        if (before(c->lines[0].date, in_year(c->birth.year + 65, c->birth)))
            return 6;
        for (unsigned k = 1; k < c->count; k++)
            if (!before(c->lines[k].date, c->lines[0].date))
                return 6;
        for (unsigned k = 2; k < c->count; k++)
            if (!before(c->lines[k].date, c->lines[k - 1].date))
                return 17;
    }
    if (c->status != 1)
        return 7;
    if (c->receiver != 1)
        return 8;
    if (c->service < 3)
        return 9;
    unsigned years = 0;
    if (c->kind == 2) {
        for (unsigned k = 0; k < c->count; k++)
            if (!before(c->guarantee, c->lines[k].date))
                return 11;
    } else {
        years = age(c->birth, c->guarantee);
        if (years >= (c->kind == 1 ? 60 : 65))
            return 11;
    }
    if ((c->flags & 2) && before(c->state_pension, (struct date){2016, 4, 6}))
        return 10;
    const uint16_t *by_age = NULL;
    if (c->kind == 2) {
        for (unsigned k = 0; k < c->count; k++)
            if (years_ahead(c->guarantee, c->lines[k].date) > 50)
                return 12;
    } else {
        unsigned first = c->kind == 1 ? 22 : 18;
        if (years < first)
            return 12;
        by_age = (c->kind == 1 ? section_1995 : section_2008)[years - first];
    }
    uint64_t pension = 0, lump = 0, survivor = 0, deduction = 0, debit = 0;
    for (unsigned k = 0; k < c->count; k++) {
        const struct line *l = &c->lines[k];
        uint64_t a, b = 0, s, e = 0;
        if (by_age) {
            a = by_age[0]; b = by_age[1]; s = by_age[2]; e = by_age[3];
        } else {
            const uint16_t *row = scheme_2015[years_ahead(c->guarantee, l->date) - 1];
            a = row[0]; s = row[1];
        }
        uint64_t p = revalued(l->pension + l->additional, c->revaluation), q = revalued(l->lump, c->revaluation);
        if (p < l->scheme_pays || q < l->scheme_pays_lump)
            return 13;
        pension += (p - l->scheme_pays) * a;
        lump += (q - l->scheme_pays_lump) * b;
        survivor += revalued(l->survivor + l->dependant, c->revaluation) * s;
        deduction += l->modification * e;
        if (l->debit_pension | l->debit_survivor | l->debit_lump)
            debit += revalued(l->debit_pension, c->revaluation) * a + revalued(l->debit_survivor, c->revaluation) * s + revalued(l->debit_lump, c->revaluation) * b;
    }
    if (pension + lump + survivor < deduction)
        return 14;
    uint64_t first_value = (pension + lump + survivor - deduction + 50) / 100, debit_value = (debit + 50) / 100;
    if (debit_value > first_value)
        return 16;
    uint64_t gross = first_value - debit_value;
    uint64_t underpin = c->flags & 1 ? c->transfer + c->contributions : 0;
    uint64_t paid = gross > underpin ? gross : underpin;
    *m = (struct items){paid + c->avc, pension, lump, survivor, deduction, underpin, c->avc};
    return 0;
}

static char *text(char *to, const char *word) { size_t n = strlen(word); memcpy(to, word, n); return to + n; }

static char *decimal(char *to, uint64_t n)
{
    char digits[20];
    int k = 20;
    do { digits[--k] = (char)('0' + n % 10); n /= 10; } while (n);
    memcpy(to, digits + k, (size_t)(20 - k));
    return to + 20 - k;
}

static char *amount(char *to, const char *word, uint64_t n, int decimals)
{
    uint64_t unit = decimals == 2 ? 100 : 10000;
    to = decimal(text(to, word), n / unit);
    *to++ = '.';
    n %= unit;
    for (int i = decimals - 1; i >= 0; i--) { to[i] = (char)('0' + n % 10); n /= 10; }
    return to + decimals;
}

static char *form(char *to, uint32_t place, uint32_t number, int refusal, const struct items *m)
{
    to = decimal(to, place);
    *to++ = ' ';
    to = decimal(to, number);
    if (refusal) {
        to = decimal(text(to, " refused "), (uint64_t)refusal);
        *to++ = ' ';
        to = text(to, names[refusal]);
    } else {
        to = amount(to, " pay ", m->payment, 2);
        to = amount(to, " pension ", m->pension, 4);
        to = amount(to, " lump ", m->lump, 4);
        to = amount(to, " survivor ", m->survivor, 4);
        to = amount(to, " deduct ", m->deduction, 4);
        to = amount(to, " underpin ", m->underpin, 2);
        to = amount(to, " avc ", m->avc, 2);
    }
    *to++ = '\n';
    return to;
}

#define CHUNK 128
static uint8_t input[CHUNK * 512];
static char output[CHUNK * 256];

static void put_all(const char *from, size_t n)
{
    while (n) {
        ssize_t done = write(1, from, n);
        if (done <= 0)
            exit(1);
        from += done;
        n -= (size_t)done;
    }
}

int main(void)
{
    uint32_t blocks = 0, paid = 0;
    put_all("transfer values\n", 16);
    while (blocks < 1000000) {
        size_t want = sizeof input, n = 0;
        if ((1000000 - blocks) * (size_t)512 < want)
            want = (1000000 - blocks) * (size_t)512;
        while (n < want) {
            ssize_t got = read(0, input + n, want - n);
            if (got < 0)
                return 1;
            if (got == 0)
                break;
            n += (size_t)got;
        }
        if (n == 0)
            break;
        char *to = output;
        for (size_t at = 0; at < n; at += 512) {
            struct record c;
            struct items m = {0};
            int refusal = read_block(input + at, n - at < 512 ? n - at : 512, &c);
            uint32_t number = refusal ? 0 : c.number;
            if (!refusal)
                refusal = value(&c, &m);
            blocks++;
            paid += refusal == 0;
            to = form(to, blocks, number, refusal, &m);
        }
        put_all(output, (size_t)(to - output));
        if (n < want)
            break;
    }
    char end[64];
    int n = snprintf(end, sizeof end, "end %u blocks %u paid\n", blocks, paid);
    put_all(end, (size_t)n);
    return 0;
}
