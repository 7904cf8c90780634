/* Calls every function; what is due is worked out by hand from documents 01 and 02. */
#include <stdarg.h>
#include <stdio.h>
#include <string.h>

#include <vaxembro.h>

enum { BYTES = 1536, DC = VAXEMBRO_USE_INTRA_DC_VLC, RVLC = VAXEMBRO_REVERSIBLE_VLC, SPELLINGS = 5, MOST = 1048576 };

/* The worked events: last, each of another spelling. */
#define P3 "01111"
#define P4 "0000011 0 01110"
#define P5 "0000011 10 01110"
#define P6 "0000011 11 1 000000 1 100000000001 1"

/* Not last: run 0, level 1; run 0, level 1 + 27; run 14 + 1, level 1; run 0, level 5. */
#define PLAIN "10 0"
#define TYPE1 "0000011 0 10 0"
#define TYPE2 "0000011 10 10 0"
#define TYPE3 "0000011 11 0 000000 1 000000000101 1"

/* Reversible: run 0, level 1, not last and last. */
#define CODE "110 0"
#define LAST_CODE "1011 0"
#define ESCAPE "00001 0 000000 1 00000000001 1 0000 0"
#define LAST_ESCAPE "00001 1 000000 1 00000000001 1 0000 0"

/* Difference 0 six times, no block coded. */
#define DC_PARTS "011 011 011 011 11 11"

#define STUFFING "000000001"

/* What is lent: no pointer where the length is 0. */
#define LENT(pointer, length) ((length) == 0 ? NULL : (pointer)), (length)

static const uint8_t default_matrix[VAXEMBRO_MATRIX] = {
    8,  17, 18, 19, 21, 23, 25, 27, 17, 18, 19, 21, 23, 25, 27, 28, 20, 21, 22, 23, 24, 26, 28, 30, 21, 22, 23, 24, 26, 28, 30, 32,
    22, 23, 24, 26, 28, 30, 32, 35, 23, 24, 26, 28, 30, 32, 35, 38, 25, 26, 28, 30, 32, 35, 38, 41, 27, 28, 30, 32, 35, 38, 41, 45,
};

/* mcbpc: intra and intra with a quantiser change, by cbpc; cbpy by its value; dquant, and what it changes the quantiser by. Each header is
 * tried without dquant and with each. */
static const char *const mcbpc[2][4] = {{"1", "001", "010", "011"}, {"0001", "000001", "000010", "000011"}};
static const char *const cbpy[16] = {"0011",  "00101",  "00100", "1001", "00011", "0111", "000010", "1011",
                                     "00010", "000011", "0101",  "1010", "0100",  "1000", "0110",   "11"};
static const struct {
    const char *bits;
    int32_t change;
} dquant[] = {{"", 0}, {"00", -1}, {"01", -2}, {"10", 1}, {"11", 2}};

static const uint32_t none[SPELLINGS];
static uint8_t too_long[MOST + 1];
static unsigned checks, failures;

static void check(int fine, const char *format, ...)
{
    va_list rest;
    checks++;
    if (fine) return;
    failures++;
    va_start(rest, format);
    vprintf(format, rest);
    va_end(rest);
    printf("\n");
}

/* What a call brings. Lengths are those that are told; the memory behind is longer. */
struct call {
    uint32_t state[VAXEMBRO_STATE + 1];
    size_t state_len;
    uint8_t bytes[BYTES];
    const uint8_t *data;
    size_t data_len, at;
    uint32_t mb_type;
    uint8_t cbpy, cbpc;
    uint32_t quantiser_scale, bits_per_pixel, flags;
    int32_t neighbours[VAXEMBRO_NEIGHBOURS];
    size_t neighbours_len;
    uint8_t matrix[VAXEMBRO_MATRIX];
    size_t matrix_len, samples_len, store_len, header_len, answer_len;
    int32_t stored;
    uint32_t spelled[SPELLINGS]; /* what is due */
};

/* Lent memory, longer than it has to be. */
struct lent {
    uint32_t state[VAXEMBRO_STATE + 1];
    int32_t samples[VAXEMBRO_SAMPLES + 1];
    int32_t store[3 * VAXEMBRO_STORE + 1];
    int32_t header[VAXEMBRO_HEADER + 2];
    size_t answer[VAXEMBRO_ANSWER + 2];
};

/* Bits written out, of no event; blanks part them. */
static void put(struct call *c, const char *bits)
{
    size_t n = 0;
    memset(c->bytes, 0, sizeof c->bytes);
    memset(c->spelled, 0, sizeof c->spelled);
    for (; *bits; bits++) {
        if (*bits == ' ') continue;
        if (*bits == '1') c->bytes[n / 8] |= (uint8_t)(128 >> n % 8);
        n++;
    }
    c->data = c->bytes;
    c->data_len = (n + 7) / 8;
}

/* Bits that end with the data, behind as many others as make up whole bytes. */
static void put_last(struct call *c, const char *bits)
{
    char text[200] = "";
    size_t n = 0;
    for (const char *t = bits; *t; t++) n += *t != ' ';
    for (c->at = 0; (c->at + n) % 8 != 0; c->at++) strcat(text, "1");
    put(c, strcat(text, bits));
}

/* Bits with so many events of each spelling. */
static void put_events(struct call *c, const char *bits, uint32_t plain, uint32_t type1, uint32_t type2, uint32_t type3, uint32_t escapes)
{
    const uint32_t due[SPELLINGS] = {plain, type1, type2, type3, escapes};
    put(c, bits);
    memcpy(c->spelled, due, sizeof due);
}

/* The first macroblock of a picture of 1 by 1, depth 8, method 2, with six DC parts of difference 0, and no neighbours. */
static void worked(struct call *c)
{
    static const uint32_t state[VAXEMBRO_STATE + 1] = {1, 1, 8, 0, 0, 77};
    static const int32_t neighbours[VAXEMBRO_NEIGHBOURS] = {1024, 1024, 1024, 8, 8};
    memset(c, 0, sizeof *c);
    memcpy(c->state, state, sizeof state);
    c->state_len = VAXEMBRO_STATE;
    put(c, DC_PARTS);
    c->mb_type = VAXEMBRO_INTRA;
    c->quantiser_scale = 8;
    c->bits_per_pixel = 8;
    c->flags = DC;
    memcpy(c->neighbours, neighbours, sizeof neighbours);
    c->neighbours_len = VAXEMBRO_NEIGHBOURS;
    memcpy(c->matrix, default_matrix, sizeof default_matrix);
    c->matrix_len = VAXEMBRO_MATRIX;
    c->samples_len = VAXEMBRO_SAMPLES;
    c->store_len = VAXEMBRO_STORE;
    c->header_len = VAXEMBRO_HEADER;
    c->answer_len = VAXEMBRO_ANSWER;
    c->stored = -7;
}

static void lend(const struct call *c, struct lent *l)
{
    memset(l, 0, sizeof *l);
    memcpy(l->state, c->state, sizeof l->state);
    for (size_t k = 0; k < sizeof l->samples / sizeof *l->samples; k++) l->samples[k] = 1000000 + (int32_t)k;
    for (size_t k = 0; k < sizeof l->store / sizeof *l->store; k++) l->store[k] = c->stored;
    for (size_t k = 0; k < sizeof l->header / sizeof *l->header; k++) l->header[k] = 800 + (int32_t)k;
    for (size_t k = 0; k < sizeof l->answer / sizeof *l->answer; k++) l->answer[k] = 900 + k;
}

static uint32_t in_picture(const struct call *c, struct lent *l)
{
    return vaxembro_decode_macroblock(LENT(l->state, c->state_len), LENT(c->data, c->data_len), c->at, c->mb_type, c->cbpy, c->cbpc,
                                      c->quantiser_scale, c->flags, LENT(c->matrix, c->matrix_len), LENT(l->samples, c->samples_len),
                                      LENT(l->store, c->store_len), LENT(l->answer, c->answer_len));
}

static uint32_t alone(const struct call *c, struct lent *l)
{
    return vaxembro_decode_intra_macroblock(LENT(c->data, c->data_len), c->at, c->mb_type, c->cbpy, c->cbpc, c->quantiser_scale,
                                            c->bits_per_pixel, c->flags, LENT(c->neighbours, c->neighbours_len),
                                            LENT(c->matrix, c->matrix_len), LENT(l->samples, c->samples_len),
                                            LENT(l->answer, c->answer_len));
}

/* The same with the header in the bits, and the header by itself. */
static uint32_t headed_in_picture(const struct call *c, struct lent *l)
{
    return vaxembro_decode_macroblock_with_header(
        LENT(l->state, c->state_len), LENT(c->data, c->data_len), c->at, c->quantiser_scale, c->flags, LENT(c->matrix, c->matrix_len),
        LENT(l->samples, c->samples_len), LENT(l->store, c->store_len), LENT(l->header, c->header_len), LENT(l->answer, c->answer_len));
}

static uint32_t headed_alone(const struct call *c, struct lent *l)
{
    return vaxembro_decode_intra_macroblock_with_header(
        LENT(c->data, c->data_len), c->at, c->quantiser_scale, c->bits_per_pixel, c->flags, LENT(c->neighbours, c->neighbours_len),
        LENT(c->matrix, c->matrix_len), LENT(l->samples, c->samples_len), LENT(l->header, c->header_len), LENT(l->answer, c->answer_len));
}

static uint32_t header_only(const struct call *c, struct lent *l)
{
    return vaxembro_parse_macroblock_header(LENT(c->data, c->data_len), c->at, c->quantiser_scale, LENT(l->header, c->header_len),
                                            LENT(l->answer, c->answer_len));
}

typedef uint32_t decode(const struct call *, struct lent *);

/* The answer's nine numbers, read out, and that those after them stay. */
static void answered(const char *what, const struct lent *l, uint32_t number, uint32_t figure, size_t bits, size_t position,
                     const uint32_t *spelled)
{
    const size_t *a = l->answer;
    check(vaxembro_number(a, 9) == number, "%s: number %u told", what, (unsigned)vaxembro_number(a, 9));
    check(vaxembro_figure(a, 9) == figure, "%s: figure %u told", what, (unsigned)vaxembro_figure(a, 9));
    check(vaxembro_bits(a, 9) == bits, "%s: bits %zu told", what, vaxembro_bits(a, 9));
    check(vaxembro_position(a, 9) == position, "%s: position %zu told", what, vaxembro_position(a, 9));
    for (uint32_t k = 0; k < SPELLINGS; k++) {
        uint32_t told = vaxembro_spelling(a, 9, k);
        check(told == spelled[k], "%s: %u of spelling %u told, %u due", what, (unsigned)told, (unsigned)k, (unsigned)spelled[k]);
        check(a[4 + k] == spelled[k], "%s: %zu of spelling %u written", what, a[4 + k], (unsigned)k);
    }
    check(a[9] == 909 && a[10] == 910, "%s: written past the answer", what);
}

/* The six numbers of a header. */
struct fields {
    int32_t type, cbpc, ac_pred_flag, cbpy, dquant, quantiser;
};

static void header_is(const char *what, const struct lent *l, struct fields f)
{
    const int32_t due[VAXEMBRO_HEADER + 2] = {f.type, f.cbpc, f.ac_pred_flag, f.cbpy, f.dquant, f.quantiser, 806, 807};
    for (int k = 0; k < VAXEMBRO_HEADER + 2; k++)
        check(l->header[k] == due[k], "%s: number %d of the header is %d, %d due", what, k, (int)l->header[k], (int)due[k]);
}

/* Refused: what is lent is as it was, and the position is the one before the call. */
static void refused_by(const char *what, decode *with, const struct call *c, uint32_t number, uint32_t figure)
{
    struct lent before, l;
    lend(c, &before);
    lend(c, &l);
    uint32_t given = with(c, &l);
    check(given == number, "%s: %u given, %u due", what, (unsigned)given, (unsigned)number);
    answered(what, &l, number, figure, 0, c->at, none);
    memcpy(before.answer, l.answer, sizeof l.answer);
    check(memcmp(&l, &before, sizeof l) == 0, "%s: lent memory was written", what);
}

/* The answer is too short: nothing at all is written. */
static void unanswered_by(const char *what, decode *with, const struct call *c)
{
    struct lent before, l;
    lend(c, &before);
    lend(c, &l);
    uint32_t given = with(c, &l);
    check(given == VAXEMBRO_TOO_SHORT, "%s: %u given, 14 due", what, (unsigned)given);
    check(memcmp(&l, &before, sizeof l) == 0, "%s: lent memory was written", what);
}

/* Accepted with so many bits and the events that are due; what is written is left in l. */
static void accepted_by(const char *what, decode *with, const struct call *c, size_t bits, struct lent *l)
{
    lend(c, l);
    uint32_t given = with(c, l);
    check(given == 0, "%s: refused by %u", what, (unsigned)given);
    answered(what, l, 0, 0, bits, c->at + bits, c->spelled);
    check(l->samples[VAXEMBRO_SAMPLES] == 1000000 + VAXEMBRO_SAMPLES, "%s: written past the samples", what);
    check(l->store[c->store_len] == c->stored, "%s: written past the store", what);
    check(l->state[VAXEMBRO_STATE] == 77, "%s: written past the state", what);
    check(memcmp(l->state, c->state, 3 * sizeof *l->state) == 0 && (l->state[3] != 0) == (c->state[3] != 0), "%s: another picture", what);
    check(l->state[4] == c->state[4] + (with == in_picture || with == headed_in_picture), "%s: %u accepted", what, (unsigned)l->state[4]);
}

/* A header by itself: so many bits, and nothing is written but header and answer. */
static void parsed(const char *what, const struct call *c, size_t bits, struct fields due)
{
    struct lent before, l;
    lend(c, &before);
    lend(c, &l);
    uint32_t given = header_only(c, &l);
    check(given == 0, "%s: header refused by %u", what, (unsigned)given);
    answered(what, &l, 0, 0, bits, c->at + bits, none);
    header_is(what, &l, due);
    memcpy(before.header, l.header, sizeof l.header);
    memcpy(before.answer, l.answer, sizeof l.answer);
    check(memcmp(&l, &before, sizeof l) == 0, "%s: a header wrote more", what);
}

/* The call c with a header in its bits, number k of the dquants in it. Stuffing stands before it, and flags that are not looked at are
 * turned round. How many bits the header has; 0 where there is no such header. */
static size_t put_header(struct call *h, const struct call *c, size_t k, struct fields *due)
{
    char text[80] = "";
    int32_t q = (int32_t)c->quantiser_scale, before = q - dquant[k].change;
    if (k > 0 && (q < 1 || q > 31 || before < 1 || before > 31)) return 0;
    due->type = k == 0 ? VAXEMBRO_INTRA : VAXEMBRO_INTRA_Q;
    due->cbpc = c->cbpc & 3;
    due->ac_pred_flag = (c->flags & VAXEMBRO_AC_PRED) != 0;
    due->cbpy = c->cbpy & 15;
    due->dquant = dquant[k].change;
    due->quantiser = q;
    for (size_t s = 0; s < k % 3; s++) strcat(text, STUFFING);
    strcat(strcat(text, mcbpc[k > 0][due->cbpc]), due->ac_pred_flag ? "1" : "0");
    strcat(strcat(text, cbpy[due->cbpy]), dquant[k].bits);
    *h = *c;
    h->quantiser_scale = (uint32_t)before;
    if (k % 2 == 1) h->flags = (c->flags | VAXEMBRO_NOT_CODED) ^ VAXEMBRO_AC_PRED;
    memset(h->bytes, 0, sizeof h->bytes);
    /* before `at` as in c, up to the header ones, and after it the rest of c */
    size_t n = strlen(text), more = (n + 7) / 8 * 8, all = 8 * c->data_len + more;
    h->at = c->at + more - n;
    for (size_t b = 0; b < all; b++) {
        size_t from = b < c->at ? b : b - more;
        int one = 1;
        if (b < c->at || b >= c->at + more) one = c->data[from / 8] >> (7 - from % 8) & 1;
        else if (b >= h->at) one = text[b - h->at] == '1';
        if (one) h->bytes[b / 8] |= (uint8_t)(128 >> b % 8);
    }
    h->data = h->bytes;
    h->data_len = all / 8;
    return n;
}

/* The same kind of call with the header in the bits, where there is room for it. */
static decode *headed(decode *with, const struct call *c)
{
    if (c->data_len + 16 > BYTES || c->at > 8 * c->data_len) return NULL;
    return with == in_picture ? headed_in_picture : with == alone ? headed_alone : NULL;
}

enum { DQUANTS = sizeof dquant / sizeof *dquant };

/* Refused, and with a header before the bits too, which is fine by itself. */
static void refused(const char *what, decode *with, const struct call *c, uint32_t number, uint32_t figure)
{
    decode *by = headed(with, c);
    struct call h;
    struct fields due;
    refused_by(what, with, c, number, figure);
    /* such a header is not in bits */
    if (by == NULL || number == VAXEMBRO_NOT_CODED_MACROBLOCK || number == VAXEMBRO_NOT_INTRA) return;
    for (size_t k = 0; k < DQUANTS; k++) {
        size_t n = put_header(&h, c, k, &due);
        if (n == 0) continue;
        refused_by(what, by, &h, number, figure);
        if (number <= VAXEMBRO_OVERFLOW || number == VAXEMBRO_ENDED_INSIDE_CODE) parsed(what, &h, n, due);
    }
}

static void unanswered(const char *what, decode *with, const struct call *c)
{
    decode *by = headed(with, c);
    struct call h;
    struct fields due;
    unanswered_by(what, with, c);
    for (size_t k = 0; by != NULL && k < DQUANTS; k++) {
        if (put_header(&h, c, k, &due) == 0) continue;
        unanswered_by(what, by, &h);
        unanswered_by(what, header_only, &h);
    }
}

/* Accepted, and with a header before the bits too, which leaves the same samples, state and store. */
static void accepted(const char *what, decode *with, const struct call *c, size_t bits, struct lent *l)
{
    decode *by = headed(with, c);
    struct call h;
    struct lent m;
    struct fields due;
    accepted_by(what, with, c, bits, l);
    for (size_t k = 0; by != NULL && k < DQUANTS; k++) {
        size_t n = put_header(&h, c, k, &due);
        if (n == 0) continue;
        accepted_by(what, by, &h, n + bits, &m);
        header_is(what, &m, due);
        check(memcmp(m.samples, l->samples, sizeof m.samples) == 0, "%s: other samples with a header", what);
        check(memcmp(m.state, l->state, sizeof m.state) == 0, "%s: another state with a header", what);
        check(memcmp(m.store, l->store, sizeof m.store) == 0, "%s: another store with a header", what);
        parsed(what, &h, n, due);
    }
}

/* Over the memory that an earlier call left. */
static void then(const char *what, decode *with, const struct call *c, uint32_t number, size_t bits, struct lent *l)
{
    uint32_t given = with(c, l);
    check(given == number, "%s: %u given, %u due", what, (unsigned)given, (unsigned)number);
    answered(what, l, number, 0, bits, c->at + bits, number == 0 ? c->spelled : none);
}

/* Where sample (x, y) of block i lies. */
static size_t place(int i, int x, int y)
{
    return (size_t)(i < 4 ? 16 * (8 * (i / 2) + y) + 8 * (i % 2) + x : 256 + 64 * (i - 4) + 8 * y + x);
}

/* Blocks `first` to `last`: every row is these eight, or every column. */
static void rows_are(const char *what, const struct lent *l, int first, int last, int down, const int32_t *eight)
{
    int fine = 1;
    for (int i = first; i <= last; i++)
        for (int y = 0; y < 8; y++)
            for (int x = 0; x < 8; x++) fine = fine && l->samples[place(i, x, y)] == eight[down ? y : x];
    check(fine, "%s: samples of blocks %d to %d", what, first, last);
}

static void flat(const char *what, const struct lent *l, int first, int last, int32_t value)
{
    int32_t eight[8];
    for (int k = 0; k < 8; k++) eight[k] = value;
    rows_are(what, l, first, last, 0, eight);
}

/* A missing neighbour's DC is 1024. At quantiser 8 the luma scaler is 16, the chroma scaler 10: 64 * 16 / 8 = 128, and 102 * 10 / 8 =
 * 127.5, which is 128 away from zero. */
static void dc_only(void)
{
    struct call c;
    struct lent l;
    worked(&c);
    accepted("worked case", in_picture, &c, 16, &l);
    flat("worked case", &l, 0, 5, 128);
    accepted("worked case alone", alone, &c, 16, &l);
    flat("worked case alone", &l, 0, 5, 128);
    c.flags = DC | 0xFFFFFF00u;
    c.cbpy = 0xF0;
    c.cbpc = 0xFC;
    c.mb_type = VAXEMBRO_INTRA_Q;
    c.matrix[9] = 0;
    accepted("bits that do not count", in_picture, &c, 16, &l);
    flat("bits that do not count", &l, 0, 5, 128);
    /* in a picture the state's method counts, not the flag */
    c.flags = DC | VAXEMBRO_QUANT_TYPE;
    accepted("the flag of method 1", in_picture, &c, 16, &l);
    flat("the flag of method 1", &l, 0, 5, 128);

    /* difference 1: block 0 is 65 * 16 / 8 = 130; in a picture blocks 1 to 3 are predicted from it */
    worked(&c);
    put(&c, "10101 111 011 011 011 11 11");
    c.at = 5;
    accepted("difference 1", in_picture, &c, 16, &l);
    flat("difference 1", &l, 0, 3, 130);
    flat("difference 1", &l, 4, 5, 128);
    accepted("difference 1 alone", alone, &c, 16, &l);
    flat("difference 1 alone", &l, 0, 0, 130);
    flat("difference 1 alone", &l, 1, 5, 128);
}

/* Difference -4 in Cb: 98 * 10 / 8 = 122.5. */
static void halves(void)
{
    struct call c;
    struct lent l;
    worked(&c);
    put(&c, "011 011 011 011 001 011 11");
    accepted("a half away from zero", in_picture, &c, 20, &l);
    flat("a half away from zero", &l, 4, 4, 123);
    c.flags = DC | VAXEMBRO_HALVES_TO_EVEN;
    accepted("a half to even", in_picture, &c, 20, &l);
    flat("a half to even", &l, 4, 4, 122);
    flat("a half to even", &l, 5, 5, 128);
}

/* No DC codes, and at first no block coded: no bits. */
static void without_dc_codes(void)
{
    struct call c;
    struct lent l;
    worked(&c);
    c.flags = 0;
    c.data_len = 0;
    accepted("no bits", in_picture, &c, 0, &l);
    flat("no bits", &l, 0, 5, 128);
    /* last, run 0, level -1 at place 0: 63 * 16 / 8 = 126 */
    put_events(&c, P3, 1, 0, 0, 0, 0);
    c.cbpy = 8;
    accepted("DC among the events", in_picture, &c, 5, &l);
    flat("DC among the events", &l, 0, 3, 126);
    accepted("DC among the events, alone", alone, &c, 5, &l);
    flat("DC among the events, alone", &l, 0, 0, 126);
    flat("DC among the events, alone", &l, 1, 5, 128);
}

/* One level of -1 beside the DC: by method 2 at quantiser 8 it is -23, and 23 / 4 / sqrt(2) = 4.066, times the cosines 0.981, 0.831, 0.556
 * and 0.195 of the first wave. */
static void one_level(void)
{
    static const int32_t wave[8] = {124, 125, 126, 127, 129, 130, 131, 132};
    static const int32_t heavy[8] = {117, 119, 122, 126, 130, 134, 137, 139};
    struct call c;
    struct lent l;
    worked(&c);
    put_events(&c, "011 01111 011 011 011 11 11", 1, 0, 0, 0, 0);
    c.cbpy = 8;
    accepted("one level", in_picture, &c, 21, &l);
    rows_are("one level", &l, 0, 0, 0, wave);
    flat("one level", &l, 1, 5, 128);
    c.flags = DC | VAXEMBRO_ALTERNATE_VERTICAL_SCAN;
    accepted("one level, scanned down", in_picture, &c, 21, &l);
    rows_are("one level, scanned down", &l, 0, 0, 1, wave);
    /* the same as a reversible escape, in Cr */
    put_events(&c, "011 011 011 011 11 10 1 00001 1 000000 1 00000000001 1 0000 1", 0, 0, 0, 0, 1);
    c.cbpy = 0;
    c.cbpc = 1;
    c.flags = DC | VAXEMBRO_REVERSIBLE_VLC;
    accepted("a reversible escape", in_picture, &c, 47, &l);
    flat("a reversible escape", &l, 0, 4, 128);
    /* difference 1: 103 * 10 / 8 = 128.75 */
    check(l.samples[320] == 125 && l.samples[327] == 133, "a reversible escape: %d %d", (int)l.samples[320], (int)l.samples[327]);

    /* method 1 at quantiser 8: -1 * 64 * 8 * 2 / 16 = -64 by the entry in row 0, column 1 */
    worked(&c);
    put_events(&c, "011 01111 011 011 011 11 11", 1, 0, 0, 0, 0);
    c.cbpy = 8;
    memset(c.matrix, 16, sizeof c.matrix);
    c.matrix[1] = 64;
    c.state[3] = 1;
    c.flags = DC | VAXEMBRO_INTRA_MISMATCH_EXEMPT;
    accepted("by the matrix", in_picture, &c, 21, &l);
    rows_are("by the matrix", &l, 0, 0, 0, heavy);
    flat("by the matrix", &l, 1, 5, 128);
    c.flags |= VAXEMBRO_QUANT_TYPE;
    accepted("by the matrix, alone", alone, &c, 21, &l);
    rows_are("by the matrix, alone", &l, 0, 0, 0, heavy);
}

/* Value (7,7) becomes 1: 127.5 in chroma goes up where column and row add up to an even number, else down. */
static void mismatch(void)
{
    struct call c;
    struct lent l;
    worked(&c);
    c.state[3] = 9;
    c.flags = DC | VAXEMBRO_QUANT_TYPE;
    for (int k = 0; k < 2; k++) {
        int fine = 1;
        accepted("mismatch control", k ? alone : in_picture, &c, 16, &l);
        flat("mismatch control", &l, 0, 3, 128);
        for (int n = 0; n < 128; n++) fine = fine && l.samples[256 + n] == 128 - (n % 8 + n / 8) % 2;
        check(fine, "mismatch control: chroma");
    }
    c.flags |= VAXEMBRO_INTRA_MISMATCH_EXEMPT;
    accepted("exempt", in_picture, &c, 16, &l);
    flat("exempt", &l, 0, 5, 128);
}

/* A's column at quantiser 16, -1 * 16 / 8 = -2, is -39 at quantiser 8; C's row at 8 is -23 as above. */
static void neighbours(void)
{
    static const int32_t luma[8] = {121, 122, 124, 127, 129, 132, 134, 135}, chroma[8] = {121, 122, 124, 126, 129, 131, 133, 134};
    static const int32_t from_c[8] = {126, 127, 128, 129, 131, 132, 133, 134};
    struct call c;
    struct lent l;
    worked(&c);
    c.flags = DC | VAXEMBRO_AC_PRED;
    c.neighbours[3] = 16;
    c.neighbours[5] = 1;
    c.neighbours[7] = -1;
    c.neighbours[14] = 9;
    accepted("from A", alone, &c, 16, &l);
    rows_are("from A", &l, 0, 3, 1, luma);
    rows_are("from A", &l, 4, 5, 1, chroma);
    c.neighbours[5] = 0;
    accepted("A has no column", alone, &c, 16, &l);
    flat("A has no column", &l, 0, 5, 128);
    c.neighbours[5] = 1;
    c.flags = DC;
    accepted("no AC prediction", alone, &c, 16, &l);
    flat("no AC prediction", &l, 0, 5, 128);
    c.flags = DC | VAXEMBRO_AC_PRED;
    c.neighbours[2] = 1040;
    c.neighbours[6] = -5;
    c.neighbours[7] = 9;
    c.neighbours[14] = -1;
    accepted("from C", alone, &c, 16, &l);
    rows_are("from C", &l, 0, 5, 0, from_c);
}

/* In a picture: block 0's level goes down from A, and block 1 takes its column; block 2's goes across from C, which is block 0. */
static void ac_prediction(void)
{
    static const int32_t wave[8] = {124, 125, 126, 127, 129, 130, 131, 132}, higher[8] = {126, 127, 128, 129, 131, 132, 133, 134};
    struct call c;
    struct lent l;
    worked(&c);
    put_events(&c, "011 01111 011 011 011 11 11", 1, 0, 0, 0, 0);
    c.cbpy = 8;
    c.flags = DC | VAXEMBRO_AC_PRED;
    accepted("from block 0", in_picture, &c, 21, &l);
    rows_are("from block 0", &l, 0, 1, 1, wave);
    flat("from block 0", &l, 2, 5, 128);
    put_events(&c, "111 011 011 01111 011 11 11", 1, 0, 0, 0, 0);
    c.cbpy = 2;
    accepted("from C in a picture", in_picture, &c, 21, &l);
    flat("from C in a picture", &l, 0, 1, 130);
    rows_are("from C in a picture", &l, 2, 2, 0, higher);
    flat("from C in a picture", &l, 3, 3, 130);
    c.flags = DC | VAXEMBRO_ALTERNATE_VERTICAL_SCAN;
    accepted("scanned down in a picture", in_picture, &c, 21, &l);
    rows_are("scanned down in a picture", &l, 2, 2, 1, higher);
}

/* Two macroblocks beside each other: the second takes its DC from the first. Then the picture is complete. */
static void two(void)
{
    static const uint8_t data[] = {0xED, 0xBF, 0x6D, 0xBF, 0x6D, 0xBF};
    uint32_t state[VAXEMBRO_STATE] = {9, 9, 9, 9, 9};
    struct call c;
    struct lent l;
    uint32_t number = vaxembro_open(2, 1, 8, 0, state, VAXEMBRO_STATE);
    check(number == 0 && state[0] == 2 && state[1] == 1 && state[2] == 8 && state[3] == 0 && state[4] == 0, "opening 2 by 1");
    worked(&c);
    memcpy(c.state, state, sizeof state);
    c.data = data;
    c.data_len = sizeof data;
    c.store_len = 2 * VAXEMBRO_STORE;
    accepted("the first of two", in_picture, &c, 16, &l);
    for (size_t k = 0; k < VAXEMBRO_SAMPLES; k++) l.samples[k] = 0;
    number = vaxembro_decode_macroblock(l.state, 5, data, sizeof data, 16, VAXEMBRO_INTRA, 0, 0, 8, DC, c.matrix, 64, l.samples, 384,
                                        l.store, 2 * VAXEMBRO_STORE, l.answer, 9);
    check(number == 0 && l.state[4] == 2, "the second of two: %u", (unsigned)number);
    answered("the second of two", &l, 0, 0, 16, 32, none);
    flat("the second of two", &l, 0, 3, 130);
    flat("the second of two", &l, 4, 5, 128);
    memcpy(c.state, l.state, sizeof l.state);
    c.at = 32;
    refused("a complete picture", in_picture, &c, VAXEMBRO_COMPLETE, 0);
}

/* Bits of six blocks, and others after them. Where DC codes are in use each has a DC part of difference 0; a block without a list is not
 * coded. How many bits the six have. */
static size_t put_lists(struct call *c, const char *const *lists, const char *after)
{
    static char text[20000];
    size_t bits = 0;
    text[0] = 0;
    c->cbpy = c->cbpc = 0;
    for (int i = 0; i < 6; i++) {
        if (c->flags & DC) strcat(text, i < 4 ? "011" : "11");
        if (lists[i] == NULL) continue;
        strcat(text, lists[i]);
        if (i < 4) c->cbpy |= (uint8_t)(8 >> i);
        if (i >= 4) c->cbpc |= (uint8_t)(2 >> (i - 4));
    }
    for (const char *t = text; *t; t++) bits += *t != ' ';
    put(c, strcat(text, after));
    return bits;
}

/* With DC codes and without, at the end of the data and before bits that would be events, in a picture and alone. */
static void each_way(const char *what, const char *const *lists, uint32_t flags, const uint32_t *due)
{
    struct call c;
    struct lent l;
    for (int way = 0; way < 4; way++) {
        worked(&c);
        c.flags = flags | (way & 1 ? DC : 0);
        size_t bits = put_lists(&c, lists, !(way & 2) ? "" : flags & RVLC ? CODE ESCAPE LAST_CODE : PLAIN TYPE1 P5);
        memcpy(c.spelled, due, sizeof c.spelled);
        accepted(what, in_picture, &c, bits, &l);
        accepted(what, alone, &c, bits, &l);
    }
}

static void spellings(void)
{
    static const struct {
        const char *what, *lists[6];
        uint32_t flags, due[SPELLINGS];
    } all[] = {
        {"no block", {NULL}, 0, {0}},
        {"plain", {P3}, 0, {1, 0, 0, 0, 0}},
        {"type 1", {NULL, P4}, 0, {0, 1, 0, 0, 0}},
        {"type 2", {NULL, NULL, P5}, 0, {0, 0, 1, 0, 0}},
        {"type 3", {NULL, NULL, NULL, P6}, 0, {0, 0, 0, 1, 0}},
        {"four in a list", {PLAIN TYPE1 PLAIN TYPE2 TYPE3 TYPE3 P4}, 0, {2, 2, 1, 2, 0}},
        {"escapes one after the other", {NULL, NULL, NULL, NULL, TYPE3 TYPE2 TYPE1 PLAIN PLAIN PLAIN P5}, 0, {3, 1, 2, 1, 0}},
        {"four in six lists", {P3, TYPE1 P4, P5, TYPE3 P3, TYPE1 P6, PLAIN PLAIN PLAIN TYPE2 TYPE3 P6}, 0, {5, 3, 2, 4, 0}},
        {"four in three lists", {NULL, PLAIN TYPE1 P6, NULL, P5, NULL, PLAIN PLAIN PLAIN TYPE1 P4}, 0, {4, 3, 1, 1, 0}},
        {"a reversible code", {LAST_CODE}, RVLC, {1, 0, 0, 0, 0}},
        {"a reversible escape by itself", {NULL, NULL, NULL, NULL, LAST_ESCAPE}, RVLC, {0, 0, 0, 0, 1}},
        {"reversible codes", {CODE CODE LAST_CODE, NULL, NULL, NULL, NULL, CODE LAST_CODE}, RVLC, {5, 0, 0, 0, 0}},
        {"both in a list", {NULL, CODE ESCAPE CODE ESCAPE ESCAPE LAST_ESCAPE}, RVLC, {2, 0, 0, 0, 4}},
        {"both in six lists",
         {LAST_ESCAPE, CODE LAST_CODE, ESCAPE LAST_CODE, CODE LAST_ESCAPE, ESCAPE LAST_ESCAPE, CODE LAST_CODE},
         RVLC,
         {6, 0, 0, 0, 5}},
    };
    for (size_t k = 0; k < sizeof all / sizeof *all; k++) each_way(all[k].what, all[k].lists, all[k].flags, all[k].due);
}

/* Six blocks with as many events of a spelling as fit. Type 2 adds 1 or more to the run: 1 to that of level 11 and, last, of level 6, which
 * have codes of run 0 only. */
static void most_events(void)
{
    static const struct {
        const char *what, *event, *last;
        uint32_t flags, which;
        int most; /* from place 0 on */
    } all[] = {
        {"most plain", PLAIN, P3, 0, VAXEMBRO_PLAIN, 64},
        {"most of type 1", TYPE1, P4, 0, VAXEMBRO_TYPE1, 64},
        {"most of type 2", "0000011 10 00011110 1", "0000011 10 00000000101 0", 0, VAXEMBRO_TYPE2, 32},
        {"most of type 3", TYPE3, P6, 0, VAXEMBRO_TYPE3, 64},
        {"most reversible", CODE, LAST_CODE, RVLC, VAXEMBRO_PLAIN, 64},
        {"most reversible escapes", ESCAPE, LAST_ESCAPE, RVLC, VAXEMBRO_RVLC_ESCAPE, 64},
    };
    static char list[3000];
    const char *const lists[6] = {list, list, list, list, list, list};
    struct call c;
    struct lent l;
    for (size_t k = 0; k < 2 * sizeof all / sizeof *all; k++) {
        int most = all[k / 2].most - (int)(k % 2);
        list[0] = 0;
        for (int n = 1; n < most; n++) strcat(list, all[k / 2].event);
        strcat(list, all[k / 2].last);
        worked(&c);
        c.flags = all[k / 2].flags | (k % 2 ? DC : 0);
        size_t bits = put_lists(&c, lists, "");
        c.spelled[all[k / 2].which] = (uint32_t)(6 * most);
        accepted(all[k / 2].what, in_picture, &c, bits, &l);
        accepted(all[k / 2].what, alone, &c, bits, &l);
    }
}

/* A DC difference of 9 bits before the events, which stand in blocks 0 and 1 and in Cb. */
static void after_a_long_difference(void)
{
    struct call c;
    struct lent l;
    worked(&c);
    put_events(&c, "00000001 100000000 1" PLAIN P4 "011" P5 "011 011 11" P6 "11", 1, 1, 1, 1, 0);
    c.cbpy = 12;
    c.cbpc = 2;
    accepted("a difference of 9 bits", in_picture, &c, 91, &l);
    accepted("a difference of 9 bits, alone", alone, &c, 91, &l);
}

/* Two macroblocks of 62 and 30 bits, one without events between them, and then a refusal, over the same memory. */
static void one_after_the_other(decode *with)
{
    static const char bits[] = "011" PLAIN P4 "011 011 011 11" P6 "11  011 011 011" P5 "011 11 11";
    struct call c, dc;
    struct lent l;
    worked(&dc);
    worked(&c);
    put_events(&c, bits, 1, 1, 0, 1, 0);
    c.state[0] = 3;
    c.store_len = dc.store_len = 3 * VAXEMBRO_STORE;
    c.cbpy = 8;
    c.cbpc = 2;
    accepted("three spellings", with, &c, 62, &l);
    then("no event after them", with, &dc, 0, 16, &l);
    put_events(&c, bits, 0, 0, 1, 0, 0);
    c.at = 62;
    c.cbpy = 2;
    c.cbpc = 0;
    then("another spelling after them", with, &c, 0, 30, &l);
    if (with == alone) c.quantiser_scale = 0;
    then("a refusal after them", with, &c, with == alone ? VAXEMBRO_CONTEXT : VAXEMBRO_COMPLETE, 0, &l);
}

/* Too short an answer is not written, and a longer one keeps its rest, whether or not the bits are read. */
static void answer_lengths(decode *with)
{
    struct call c;
    struct lent l;
    worked(&c);
    put_events(&c, "011" PLAIN P4 "011 011 011 11" P6 "11", 1, 1, 0, 1, 0);
    c.cbpy = 8;
    c.cbpc = 2;
    for (c.answer_len = 0; c.answer_len < 9; c.answer_len++) unanswered("a short answer", with, &c);
    for (; c.answer_len < 12; c.answer_len++) accepted("a longer answer", with, &c, 62, &l);
    c.quantiser_scale = 0;
    for (c.answer_len = 0; c.answer_len < 9; c.answer_len++) unanswered("a short answer, quantiser 0", with, &c);
    for (; c.answer_len < 12; c.answer_len++) refused("a longer answer, quantiser 0", with, &c, VAXEMBRO_CONTEXT, 0);
}

/* Bits that are refused from a position on. */
static const struct {
    const char *what, *bits;
    uint8_t cbpy;
    uint32_t flags, number, figure;
    size_t at;
} bad[] = {
    {"no bits left", "", 0, 0, VAXEMBRO_TRUNCATED, 0, 0},
    {"no DC code", "0000000000001", 0, 0, VAXEMBRO_INVALID_DC_SIZE, 1, 0},
    {"a marker 0", "00000001 100000000 0", 0, 0, VAXEMBRO_MARKER_BIT_MISSING, 0, 0},
    {"no AC code", "011 0000000000011", 8, 0, VAXEMBRO_INVALID_TCOEF, 3, 0},
    {"an escape's marker 0", "011 0000011 11 1 000000 0", 8, 0, VAXEMBRO_ESCAPE_MARKER_BIT_MISSING, 0, 0},
    {"level 0", "011 0000011 11 1 000000 1 000000000000 1", 8, 0, VAXEMBRO_RESERVED_ESCAPE_LEVEL, 0, 0},
    {"level -2048", "011 0000011 11 1 000000 1 100000000000 1", 8, 0, VAXEMBRO_RESERVED_ESCAPE_LEVEL, 0, 0},
    {"no delimiter", "011 00001 1 000000 1 00000000001 1 0001 0", 8, VAXEMBRO_REVERSIBLE_VLC, VAXEMBRO_RVLC_ESCAPE_DELIMITER_MISSING, 1, 0},
    {"run 63", "011 0000011 11 1 111111 1 000000000001 1", 8, 0, VAXEMBRO_OVERFLOW, 64, 0},
    {"run 63, and then no bits", "1111111 011 0000011 11 0 111111 1 000000000001 1", 8, 0, VAXEMBRO_TRUNCATED, 0, 7},
    {"events, and then no code", "011" TYPE1 P5 "011" PLAIN "0000000000011", 12, 0, VAXEMBRO_INVALID_TCOEF, 3, 0},
    {"events, and then run 63", "011" P4 "011" PLAIN "0000011 11 1 111111 1 000000000001 1", 12, 0, VAXEMBRO_OVERFLOW, 65, 0},
    {"events, and then no DC code", "011" P6 "0000000000001", 8, 0, VAXEMBRO_INVALID_DC_SIZE, 1, 0},
    {"escapes, and then a marker 0", "011" CODE LAST_ESCAPE "011" ESCAPE "00001 1 000000 0", 12, RVLC, VAXEMBRO_ESCAPE_MARKER_BIT_MISSING,
     0, 0},
};

static void bad_bits(void)
{
    struct call c;
    for (size_t k = 0; k < sizeof bad / sizeof *bad; k++) {
        worked(&c);
        put(&c, bad[k].bits);
        c.at = bad[k].at;
        c.cbpy = bad[k].cbpy;
        c.flags |= bad[k].flags;
        refused(bad[k].what, in_picture, &c, bad[k].number, bad[k].figure);
        refused(bad[k].what, alone, &c, bad[k].number, bad[k].figure);
    }
    worked(&c);
    c.at = 16;
    refused("at the end", in_picture, &c, VAXEMBRO_TRUNCATED, 0);
    refused("at the end", alone, &c, VAXEMBRO_TRUNCATED, 0);
}

/* Bits with which the data ends: inside a code, inside a field, or where no code goes on. */
static const struct {
    const char *what, *bits;
    uint8_t cbpy;
    uint32_t flags, number, figure;
} left[] = {
    {"one bit 0 at a luma DC", "0", 0, 0, VAXEMBRO_ENDED_INSIDE_CODE, 0},
    {"ten zeros at a luma DC", "0000000000", 0, 0, VAXEMBRO_ENDED_INSIDE_CODE, 0},
    {"eleven zeros at a luma DC", "00000000000", 0, 0, VAXEMBRO_INVALID_DC_SIZE, 0},
    {"eleven zeros and a 1 at a luma DC", "000000000001", 0, 0, VAXEMBRO_INVALID_DC_SIZE, 1},
    {"a size of 2 with one bit", "10 1", 0, 0, VAXEMBRO_TRUNCATED, 0},
    {"one bit 0 at a chroma DC", "011 011 011 011 11 0", 0, 0, VAXEMBRO_ENDED_INSIDE_CODE, 0},
    {"eleven zeros at a chroma DC", "011 011 011 011 00000000000", 0, 0, VAXEMBRO_ENDED_INSIDE_CODE, 0},
    {"twelve zeros at a chroma DC", "011 011 011 011 000000000000", 0, 0, VAXEMBRO_INVALID_DC_SIZE, 0},
    {"eleven zeros and a 1 at a chroma DC", "011 011 011 011 000000000001", 0, 0, VAXEMBRO_TRUNCATED, 0},
    {"eleven bits of a code of twelve", "011 00000101000", 8, 0, VAXEMBRO_ENDED_INSIDE_CODE, 0},
    {"eight zeros at an event", "011 00000000", 8, 0, VAXEMBRO_ENDED_INSIDE_CODE, 0},
    {"nine zeros at an event", "011 000000000", 8, 0, VAXEMBRO_INVALID_TCOEF, 0},
    {"a code without its sign", "011 0111", 8, 0, VAXEMBRO_TRUNCATED, 0},
    {"an escape by itself", "011 0000011", 8, 0, VAXEMBRO_TRUNCATED, 0},
    {"type 1 and no bits", "011 0000011 0", 8, 0, VAXEMBRO_TRUNCATED, 0},
    {"type 1 and 000001", "011 0000011 0 000001", 8, 0, VAXEMBRO_ENDED_INSIDE_CODE, 0},
    {"type 1 and 0000011", "011 0000011 0 0000011", 8, 0, VAXEMBRO_INVALID_TCOEF, 3},
    {"type 1 and nine zeros", "011 0000011 0 000000000", 8, 0, VAXEMBRO_INVALID_TCOEF, 0},
    {"half of type 2", "011 0000011 1", 8, 0, VAXEMBRO_TRUNCATED, 0},
    {"type 2 and 000001", "011 0000011 10 000001", 8, 0, VAXEMBRO_ENDED_INSIDE_CODE, 0},
    {"type 2 and 0000011", "011 0000011 10 0000011", 8, 0, VAXEMBRO_INVALID_TCOEF, 3},
    {"type 2 and eleven bits of a code of twelve", "011 0000011 10 00000101000", 8, 0, VAXEMBRO_ENDED_INSIDE_CODE, 0},
    {"four zeros at a reversible event", "011 0000", 8, RVLC, VAXEMBRO_ENDED_INSIDE_CODE, 0},
    {"five zeros at a reversible event", "011 00000", 8, RVLC, VAXEMBRO_INVALID_TCOEF, 0},
    {"fourteen bits of a reversible code of fifteen", "011 00111111111110", 8, RVLC, VAXEMBRO_ENDED_INSIDE_CODE, 0},
    {"fourteen bits of no reversible code", "011 00111111111111", 8, RVLC, VAXEMBRO_INVALID_TCOEF, 4095},
    {"a reversible code without its sign", "011 1011", 8, RVLC, VAXEMBRO_TRUNCATED, 0},
    {"a reversible escape by itself, cut", "011 00001", 8, RVLC, VAXEMBRO_TRUNCATED, 0},
    {"run 63, and then seven zeros", "011 0000011 11 0 111111 1 000000000001 1 0000000", 8, 0, VAXEMBRO_ENDED_INSIDE_CODE, 0},
    {"run 63, and then nine zeros", "011 0000011 11 0 111111 1 000000000001 1 000000000", 8, 0, VAXEMBRO_INVALID_TCOEF, 0},
    {"reversible run 63, and then 0000", "011 00001 0 111111 1 00000000001 1 0000 0 0000", 8, RVLC, VAXEMBRO_ENDED_INSIDE_CODE, 0},
    {"events, and then a cut DC code", "011" P6 "00", 8, 0, VAXEMBRO_ENDED_INSIDE_CODE, 0},
    {"events, and then a cut code", "011" TYPE1 P5 "011" PLAIN "0001", 12, 0, VAXEMBRO_ENDED_INSIDE_CODE, 0},
};

static void last_bits(void)
{
    struct call c;
    for (size_t k = 0; k < sizeof left / sizeof *left; k++) {
        worked(&c);
        put_last(&c, left[k].bits);
        c.cbpy = left[k].cbpy;
        c.flags |= left[k].flags;
        refused(left[k].what, in_picture, &c, left[k].number, left[k].figure);
        refused(left[k].what, alone, &c, left[k].number, left[k].figure);
    }
}

/* Block 0 and Cb coded, cut before each bit: 17 after the first bit of a code, which stands in brackets here, else 1. */
static void cut_anywhere(const char *text, uint32_t flags, const uint32_t *due)
{
    char bits[200] = "";
    size_t n = 0;
    int inside = 0;
    struct call c;
    struct lent l;
    for (;; text++) {
        if (*text == '(' || *text == ')') inside = *text == '(';
        if (*text != '0' && *text != '1' && *text != 0) continue;
        worked(&c);
        put_last(&c, bits);
        c.cbpy = 8;
        c.cbpc = 2;
        c.flags |= flags;
        if (*text == 0) break;
        refused(bits, in_picture, &c, inside > 1 ? VAXEMBRO_ENDED_INSIDE_CODE : VAXEMBRO_TRUNCATED, 0);
        refused(bits, alone, &c, inside > 1 ? VAXEMBRO_ENDED_INSIDE_CODE : VAXEMBRO_TRUNCATED, 0);
        inside += inside > 0;
        bits[n++] = *text;
    }
    memcpy(c.spelled, due, sizeof c.spelled);
    accepted(bits, in_picture, &c, n, &l);
    accepted(bits, alone, &c, n, &l);
}

static void cut(void)
{
    static const uint32_t plain[SPELLINGS] = {1, 1, 1, 1, 0}, reversible[SPELLINGS] = {2, 0, 0, 0, 2};
    cut_anywhere("(00000001) 100000000 1 (10) 0 (0000011) 0 (0111) 0 (011) (10) 01 (00001) 100000 (11) (0000011) 10 (10) 0"
                 "(0000011) 11 1 000000 1 100000000001 1 (01) 11",
                 0, plain);
    cut_anywhere("(011) (110) 0 (1011) 0 (011) (011) (011) (11) (00001) 0 000000 1 00000000001 1 0000 0"
                 "(00001) 1 000000 1 00000000001 1 0000 0 (11)",
                 RVLC, reversible);
}

/* What both calls refuse before any bit: the header, and lent memory. */
static void bad_state(decode *with)
{
    static const uint32_t types[] = {VAXEMBRO_MISSING, VAXEMBRO_INTER, VAXEMBRO_INTER_Q, VAXEMBRO_INTER4V, 6, 0xFFFFFFFFu};
    struct call c;
    worked(&c);
    c.flags |= VAXEMBRO_NOT_CODED;
    refused("not coded", with, &c, VAXEMBRO_NOT_CODED_MACROBLOCK, 0);
    c.mb_type = VAXEMBRO_INTER;
    refused("not coded and inter", with, &c, VAXEMBRO_NOT_CODED_MACROBLOCK, 0);
    for (size_t k = 0; k < 6; k++) {
        worked(&c);
        c.mb_type = types[k];
        refused("not intra", with, &c, VAXEMBRO_NOT_INTRA, 0);
    }
    worked(&c);
    c.samples_len = VAXEMBRO_SAMPLES - 1;
    c.mb_type = VAXEMBRO_INTER;
    refused("383 samples", with, &c, VAXEMBRO_TOO_SHORT, 0);
    worked(&c);
    c.matrix_len = VAXEMBRO_MATRIX - 1;
    c.at = (size_t)-1;
    refused("63 numbers of matrix", with, &c, VAXEMBRO_TOO_SHORT, 0);
    worked(&c);
    c.answer_len = VAXEMBRO_ANSWER - 1;
    unanswered("8 numbers of answer", with, &c);
    c.matrix_len = VAXEMBRO_MATRIX - 1;
    unanswered("8 numbers of answer, 63 of matrix", with, &c);
}

/* Each pointer by itself NULL with length 0; then all of them. */
static void nothing_lent(decode *with)
{
    struct call c;
    worked(&c);
    c.data_len = 0;
    refused("no data", with, &c, VAXEMBRO_TRUNCATED, 0);
    worked(&c);
    c.matrix_len = 0;
    refused("no matrix", with, &c, VAXEMBRO_TOO_SHORT, 0);
    worked(&c);
    c.samples_len = 0;
    refused("no samples", with, &c, VAXEMBRO_TOO_SHORT, 0);
    worked(&c);
    c.answer_len = 0;
    unanswered("no answer", with, &c);
    worked(&c);
    c.state_len = c.store_len = c.neighbours_len = c.data_len = c.matrix_len = c.samples_len = 0;
    refused("nothing but an answer", with, &c, VAXEMBRO_TOO_SHORT, 0);
    c.answer_len = 0;
    unanswered("nothing", with, &c);
}

/* Positions, lengths, and the context. */
static void bad_ranges(decode *with)
{
    static const size_t starts[] = {17, (size_t)-1};
    static const uint32_t quantisers[] = {0, 32, 0xFFFFFFFFu}, depths[] = {3, 13};
    struct call c;
    for (size_t k = 0; k < 2; k++) {
        worked(&c);
        c.at = starts[k];
        c.quantiser_scale = 0;
        refused("past the end", with, &c, VAXEMBRO_OUT_OF_RANGE, 0);
    }
    worked(&c);
    c.data = too_long;
    c.data_len = MOST + 1;
    refused("data too long", with, &c, VAXEMBRO_OUT_OF_RANGE, 0);
    c.data_len = MOST;
    refused("the longest data", with, &c, VAXEMBRO_INVALID_DC_SIZE, 0);
    for (size_t k = 0; k < 3; k++) {
        worked(&c);
        c.quantiser_scale = quantisers[k];
        c.samples_len = 0;
        refused("quantiser", with, &c, VAXEMBRO_CONTEXT, 0);
    }
    for (size_t k = 0; k < 2; k++) {
        worked(&c);
        c.bits_per_pixel = c.state[2] = depths[k];
        refused("depth", with, &c, VAXEMBRO_CONTEXT, 0);
    }
    worked(&c);
    c.state[3] = 1;
    c.flags |= VAXEMBRO_QUANT_TYPE;
    c.matrix[63] = 0;
    refused("a zero in the matrix", with, &c, VAXEMBRO_CONTEXT, 0);
}

static void bad_picture(void)
{
    static const uint32_t sizes[][2] = {{0, 1}, {1, 0}, {46, 1}, {1, 37}, {0xFFFFFFFFu, 0xFFFFFFFFu}};
    struct call c;
    for (size_t k = 0; k < sizeof sizes / sizeof *sizes; k++) {
        worked(&c);
        memcpy(c.state, sizes[k], sizeof sizes[k]);
        refused("a picture's size", in_picture, &c, VAXEMBRO_OUT_OF_RANGE, 0);
    }
    worked(&c);
    c.store_len = VAXEMBRO_STORE - 1;
    c.state[4] = 1;
    refused("191 numbers of store", in_picture, &c, VAXEMBRO_TOO_SHORT, 0);
    worked(&c);
    c.state[4] = 0xFFFFFFFFu;
    c.flags |= VAXEMBRO_NOT_CODED;
    refused("more accepted than there are", in_picture, &c, VAXEMBRO_COMPLETE, 0);
    worked(&c);
    c.state[0] = 2;
    c.state[4] = 1;
    c.store_len = 2 * VAXEMBRO_STORE;
    c.stored = 65537;
    c.flags |= VAXEMBRO_NOT_CODED;
    refused("a store from elsewhere", in_picture, &c, VAXEMBRO_PREDICTOR, 0);
    worked(&c);
    c.state_len = VAXEMBRO_STATE - 1;
    c.at = 3;
    refused("4 numbers of state", in_picture, &c, VAXEMBRO_TOO_SHORT, 0);
    c.state_len = 0;
    refused("no state", in_picture, &c, VAXEMBRO_TOO_SHORT, 0);
    worked(&c);
    c.store_len = 0;
    refused("no store", in_picture, &c, VAXEMBRO_TOO_SHORT, 0);
}

static void bad_neighbours(void)
{
    static const struct {
        size_t at;
        int32_t value;
    } all[] = {{0, 65537}, {1, -65537}, {2, INT32_MAX}, {3, 0}, {3, 32}, {4, -1}, {4, INT32_MIN}, {7, 2048}, {20, -2049}};
    struct call c;
    struct lent l;
    for (size_t k = 0; k < sizeof all / sizeof *all; k++) {
        worked(&c);
        c.neighbours[5] = c.neighbours[6] = 1;
        c.neighbours[all[k].at] = all[k].value;
        c.samples_len = 0;
        refused("a neighbour", alone, &c, VAXEMBRO_PREDICTOR, 0);
        if (all[k].at < 7) continue;
        c.neighbours[5] = c.neighbours[6] = 0;
        c.samples_len = VAXEMBRO_SAMPLES;
        accepted("a column or row that is not there", alone, &c, 16, &l);
    }
    worked(&c);
    c.neighbours_len = VAXEMBRO_NEIGHBOURS - 1;
    c.at = 3;
    refused("20 numbers of neighbours", alone, &c, VAXEMBRO_TOO_SHORT, 0);
    c.neighbours_len = 0;
    refused("no neighbours", alone, &c, VAXEMBRO_TOO_SHORT, 0);
}

/* The worked case with its header: 8D B6 FC, 22 bits. */
static void worked_with_header(struct call *c)
{
    worked(c);
    put(c, "1 0 0011" DC_PARTS);
}

static void header_and_blocks(void)
{
    static const uint8_t data[] = {0x8D, 0xB6, 0xFC};
    static const struct fields due = {VAXEMBRO_INTRA, 0, 0, 0, 0, 8};
    struct call c;
    struct lent l;
    worked_with_header(&c);
    check(c.data_len == 3 && memcmp(c.data, data, 3) == 0, "the worked case's bytes");
    for (int k = 0; k < 2; k++) {
        accepted_by("worked case with a header", k ? headed_alone : headed_in_picture, &c, 22, &l);
        flat("worked case with a header", &l, 0, 5, 128);
        header_is("worked case with a header", &l, due);
    }
    parsed("worked case's header", &c, 6, due);
    /* stuffing before it, and other bits after it */
    put(&c, "10110" STUFFING "1 0 0011" DC_PARTS "0101");
    c.at = 5;
    for (int k = 0; k < 2; k++) {
        accepted_by("stuffing", k ? headed_alone : headed_in_picture, &c, 31, &l);
        flat("stuffing", &l, 0, 5, 128);
        header_is("stuffing", &l, due);
    }
    parsed("a header after stuffing", &c, 15, due);
    /* 1,000 times stuffing: bit 9 n + 8 is 1 */
    worked_with_header(&c);
    memset(c.bytes, 0, sizeof c.bytes);
    for (size_t n = 0; n < 1000; n++) c.bytes[(9 * n + 8) / 8] |= (uint8_t)(128 >> (9 * n + 8) % 8);
    memcpy(c.bytes + 1125, data, sizeof data);
    c.data_len = 1128;
    for (int k = 0; k < 2; k++) {
        accepted_by("stuffing 1,000 times", k ? headed_alone : headed_in_picture, &c, 9022, &l);
        flat("stuffing 1,000 times", &l, 0, 5, 128);
    }
    parsed("a header after stuffing 1,000 times", &c, 9006, due);
    c.data_len = 1125;
    refused_by("stuffing and no bits", header_only, &c, VAXEMBRO_TRUNCATED, 0);
    refused_by("stuffing and no bits", headed_in_picture, &c, VAXEMBRO_TRUNCATED, 0);
    refused_by("stuffing and no bits", headed_alone, &c, VAXEMBRO_TRUNCATED, 0);
    /* no DC codes and no block coded: the header is all */
    worked(&c);
    put_last(&c, "1 0 0011");
    c.flags = 0;
    for (int k = 0; k < 2; k++) {
        accepted_by("only a header", k ? headed_alone : headed_in_picture, &c, 6, &l);
        flat("only a header", &l, 0, 5, 128);
    }
}

/* Every header, at the end of the data and before others. */
static void every_header(void)
{
    struct call c;
    char text[80];
    for (int n = 0; n < 4 * 2 * 16 * DQUANTS; n++) {
        int chroma = n & 3, flag = n >> 2 & 1, luma = n >> 3 & 15, k = n >> 7;
        const struct fields due = {k == 0 ? VAXEMBRO_INTRA : VAXEMBRO_INTRA_Q, chroma, flag, luma, dquant[k].change, 8 + dquant[k].change};
        text[0] = 0;
        if (n % 5 == 0) strcat(text, STUFFING);
        strcat(strcat(text, mcbpc[k > 0][chroma]), flag ? "1" : "0");
        strcat(strcat(text, cbpy[luma]), dquant[k].bits);
        size_t bits = strlen(text);
        worked(&c);
        put_last(&c, text);
        parsed("every header", &c, bits, due);
        put(&c, strcat(text, n % 3 ? "000000000" : "111111111"));
        c.at = 0;
        parsed("every header, and more", &c, bits, due);
    }
}

/* dquant near the limits. A level of -1 is 3, 5, 9 and 11 at quantisers 1 to 4 (the first wave of 0.53, 0.88, 1.59, 1.94 beside 128). At 28
 * to 31 the luma scaler is 40, 42, 44, 46: 26 * 40 / 8 = 130, 24 * 42 / 8 = 126, 23 * 44 / 8 = 126.5, 22 * 46 / 8 = 126.5; the chroma
 * scaler is 22 to 25: 47 * 22 / 8 = 129.25, 45 * 23 / 8 = 129.375, 43 * 24 / 8 = 129, 41 * 25 / 8 = 128.125. */
static void dquants(void)
{
    static const int32_t before[] = {1, 2, 30, 31}, after[][4] = {{1, 1, 2, 3}, {1, 1, 3, 4}, {29, 28, 31, 31}, {30, 29, 31, 31}};
    static const int32_t waves[][8] = {{127, 128, 128, 128, 128, 128, 128, 129},
                                       {127, 127, 128, 128, 128, 128, 129, 129},
                                       {126, 127, 127, 128, 128, 129, 129, 130},
                                       {126, 126, 127, 128, 128, 129, 130, 130}};
    static const int32_t luma[] = {130, 126, 127, 127}, chroma[] = {129, 129, 129, 128};
    struct call c;
    struct lent l;
    char text[80];
    for (size_t n = 0; n < 16; n++) {
        int32_t q = after[n / 4][n % 4];
        const struct fields due = {VAXEMBRO_INTRA_Q, 0, 0, q < 5 ? 8 : 0, dquant[n % 4 + 1].change, q};
        strcpy(text, "0001 0");
        strcat(strcat(text, q < 5 ? "00010" : "0011"), dquant[n % 4 + 1].bits);
        strcat(text, q < 5 ? "011" P3 "011 011 011 11 11" : DC_PARTS);
        worked(&c);
        put_events(&c, text, q < 5, 0, 0, 0, 0);
        c.quantiser_scale = (uint32_t)before[n / 4];
        for (int k = 0; k < 2; k++) {
            accepted_by("dquant", k ? headed_alone : headed_in_picture, &c, q < 5 ? 33 : 27, &l);
            header_is("dquant", &l, due);
            if (q < 5) rows_are("dquant", &l, 0, 0, 0, waves[q - 1]);
            flat("dquant", &l, q < 5, 3, q < 5 ? 128 : luma[q - 28]);
            flat("dquant", &l, 4, 5, q < 5 ? 128 : chroma[q - 28]);
        }
        parsed("dquant", &c, q < 5 ? 12 : 11, due);
    }
}

/* The header's ac_pred_flag counts and that of the flags does not: the values are those of `neighbours` and `ac_prediction`. */
static void flag_of_the_header(void)
{
    static const int32_t luma[8] = {121, 122, 124, 127, 129, 132, 134, 135}, chroma[8] = {121, 122, 124, 126, 129, 131, 133, 134};
    static const int32_t wave[8] = {124, 125, 126, 127, 129, 130, 131, 132};
    static const uint32_t flags[] = {DC, DC | VAXEMBRO_AC_PRED, DC | VAXEMBRO_NOT_CODED, DC | VAXEMBRO_NOT_CODED | VAXEMBRO_AC_PRED};
    struct call c;
    struct lent l;
    for (size_t k = 0; k < 4; k++) {
        worked(&c);
        c.flags = flags[k];
        c.neighbours[3] = 16;
        c.neighbours[5] = 1;
        c.neighbours[7] = -1;
        put(&c, "1 1 0011" DC_PARTS);
        accepted_by("a header's flag 1", headed_alone, &c, 22, &l);
        rows_are("a header's flag 1", &l, 0, 3, 1, luma);
        rows_are("a header's flag 1", &l, 4, 5, 1, chroma);
        put(&c, "1 0 0011" DC_PARTS);
        accepted_by("a header's flag 0", headed_alone, &c, 22, &l);
        flat("a header's flag 0", &l, 0, 5, 128);
        put_events(&c, "1 1 00010 011 01111 011 011 011 11 11", 1, 0, 0, 0, 0);
        accepted_by("a header's flag 1 in a picture", headed_in_picture, &c, 28, &l);
        rows_are("a header's flag 1 in a picture", &l, 0, 1, 1, wave);
        flat("a header's flag 1 in a picture", &l, 2, 5, 128);
        put_events(&c, "1 0 00010 011 01111 011 011 011 11 11", 1, 0, 0, 0, 0);
        accepted_by("a header's flag 0 in a picture", headed_in_picture, &c, 28, &l);
        rows_are("a header's flag 0 in a picture", &l, 0, 0, 0, wave);
        flat("a header's flag 0 in a picture", &l, 1, 5, 128);
    }
}

/* Two macroblocks, the first with dquant 2 from 10 to 12, the second with -2 from there.
 *
 * At 12 both scalers give 1020, 127.5; the level -3 of block 1, scanned down, is 12 * 7 - 1 = 83, a wave of 14.67. The second takes it for
 * its first two blocks as -3 * 12 / 10 = -3.6, -4, which is 10 * 9 - 1 = 89, a wave of 15.73, beside 57 * 18 / 8 = 128.25; from a quantiser
 * of 10 it would be -3. Its blocks 2 and 3 take zeros of its block 0, and the chroma is 93 * 11 / 8 = 127.875. */
static void quantiser_of_the_header(void)
{
    static const char bits[] = "0001 1 00011 11  011 011 0000011 11 1 000000 1 111111111101 1 011 011 11 11"
                               "0001 1 0011 01" DC_PARTS;
    static const int32_t first[8] = {113, 115, 119, 125, 130, 136, 140, 142}, second[8] = {113, 115, 120, 125, 131, 137, 141, 144};
    static const struct fields to_12 = {VAXEMBRO_INTRA_Q, 0, 1, 4, 2, 12}, to_10 = {VAXEMBRO_INTRA_Q, 0, 1, 0, -2, 10};
    struct call c, base;
    struct lent l, m;
    worked(&c);
    c.state[0] = 2;
    c.store_len = 2 * VAXEMBRO_STORE;
    put_events(&c, bits, 0, 0, 0, 1, 0);
    c.quantiser_scale = 10;
    accepted_by("to 12", headed_in_picture, &c, 58, &l);
    header_is("to 12", &l, to_12);
    flat("to 12", &l, 0, 0, 128);
    rows_are("to 12", &l, 1, 1, 1, first);
    flat("to 12", &l, 2, 5, 128);
    /* the same without headers in the bits */
    base = c;
    base.at = 12;
    base.quantiser_scale = 12;
    base.cbpy = 4;
    base.flags = DC | VAXEMBRO_AC_PRED;
    accepted_by("at 12", in_picture, &base, 46, &m);
    check(memcmp(l.store, m.store, sizeof m.store) == 0, "to 12: store");

    put_events(&c, bits, 0, 0, 0, 0, 0);
    c.at = 58;
    c.quantiser_scale = (uint32_t)l.header[5];
    then("from 12 to 10", headed_in_picture, &c, 0, 27, &l);
    header_is("from 12 to 10", &l, to_10);
    check(l.state[4] == 2, "from 12 to 10: %u accepted", (unsigned)l.state[4]);
    rows_are("from 12 to 10", &l, 0, 1, 1, second);
    flat("from 12 to 10", &l, 2, 5, 128);
    memset(base.spelled, 0, sizeof base.spelled);
    base.at = 69;
    base.quantiser_scale = 10;
    base.cbpy = 0;
    then("at 10 after 12", in_picture, &base, 0, 16, &m);
    check(memcmp(l.samples, m.samples, sizeof m.samples) == 0 && memcmp(l.store, m.store, sizeof m.store) == 0,
          "from 12 to 10: not the same");
    then("a complete picture", headed_in_picture, &c, VAXEMBRO_COMPLETE, 0, &l);
    header_is("a complete picture", &l, to_10);
}

/* The three calls that read a header. */
static decode *const readers[] = {header_only, headed_in_picture, headed_alone};

/* Cut before each bit: 17 after the first bit of a code, which stands in brackets here, else 1. */
static void cut_header(const char *text)
{
    char bits[80] = "";
    size_t n = 0;
    int inside = 0;
    struct call c;
    for (; *text; text++) {
        if (*text == '(' || *text == ')') inside = *text == '(';
        if (*text != '0' && *text != '1') continue;
        worked(&c);
        put_last(&c, bits);
        for (size_t k = 0; k < 3; k++) refused_by(bits, readers[k], &c, inside > 1 ? VAXEMBRO_ENDED_INSIDE_CODE : VAXEMBRO_TRUNCATED, 0);
        inside += inside > 0;
        bits[n++] = *text;
    }
    /* whole: the first DC code is missing */
    worked(&c);
    put_last(&c, bits);
    refused_by(bits, headed_in_picture, &c, VAXEMBRO_TRUNCATED, 0);
    refused_by(bits, headed_alone, &c, VAXEMBRO_TRUNCATED, 0);
}

static void cut_headers(void)
{
    char text[120];
    for (int n = 0; n < 2 * 4 * 16; n++) {
        text[0] = 0;
        for (int k = 0; k < n % 3; k++) strcat(text, "(" STUFFING ")");
        strcat(strcat(strcat(text, "("), mcbpc[n >> 2 & 1][n & 3]), n & 16 ? ") 0 (" : ") 1 (");
        strcat(strcat(text, cbpy[n >> 3]), n >> 2 & 1 ? ") 10" : ")");
        cut_header(text);
    }
}

/* Bits with which the data ends, and where it goes on too. */
static const struct {
    const char *what, *bits;
    uint32_t number;
} no_header[] = {
    {"0000001", "0000001", VAXEMBRO_INVALID_HEADER},
    {"00000001", "00000001", VAXEMBRO_INVALID_HEADER},
    {"nine zeros", "000000000", VAXEMBRO_INVALID_HEADER},
    {"stuffing and nine zeros", STUFFING "000000000", VAXEMBRO_INVALID_HEADER},
    {"stuffing and 0000001", STUFFING STUFFING "0000001", VAXEMBRO_INVALID_HEADER},
    {"five zeros at cbpy", "1 0 00000", VAXEMBRO_INVALID_HEADER},
    {"000001 at cbpy", "011 1 000001", VAXEMBRO_INVALID_HEADER},
    {"six zeros at cbpy", "0001 1 000000", VAXEMBRO_INVALID_HEADER},
    {"five zeros at cbpy after stuffing", STUFFING "000001 0 00000", VAXEMBRO_INVALID_HEADER},
};

/* Bits with which the data ends. */
static const struct {
    const char *what, *bits;
    uint32_t number;
} cut_off[] = {
    {"no bits", "", VAXEMBRO_TRUNCATED},
    {"stuffing", STUFFING, VAXEMBRO_TRUNCATED},
    {"stuffing twice", STUFFING STUFFING, VAXEMBRO_TRUNCATED},
    {"mcbpc", "1", VAXEMBRO_TRUNCATED},
    {"mcbpc with a quantiser change", "0001", VAXEMBRO_TRUNCATED},
    {"mcbpc and flag", "001 1", VAXEMBRO_TRUNCATED},
    {"no dquant", "0001 0 11", VAXEMBRO_TRUNCATED},
    {"half of dquant", "0001 0 11 1", VAXEMBRO_TRUNCATED},
    {"one zero", "0", VAXEMBRO_ENDED_INSIDE_CODE},
    {"01", "01", VAXEMBRO_ENDED_INSIDE_CODE},
    {"five zeros", "00000", VAXEMBRO_ENDED_INSIDE_CODE},
    {"00001", "00001", VAXEMBRO_ENDED_INSIDE_CODE},
    {"six zeros", "000000", VAXEMBRO_ENDED_INSIDE_CODE},
    {"seven zeros", "0000000", VAXEMBRO_ENDED_INSIDE_CODE},
    {"eight zeros", "00000000", VAXEMBRO_ENDED_INSIDE_CODE},
    {"stuffing and eight zeros", STUFFING "00000000", VAXEMBRO_ENDED_INSIDE_CODE},
    {"0 at cbpy", "1 0 0", VAXEMBRO_ENDED_INSIDE_CODE},
    {"1 at cbpy", "1 0 1", VAXEMBRO_ENDED_INSIDE_CODE},
    {"101 at cbpy", "1 0 101", VAXEMBRO_ENDED_INSIDE_CODE},
    {"0000 at cbpy", "1 0 0000", VAXEMBRO_ENDED_INSIDE_CODE},
    {"00001 at cbpy", "000011 1 00001", VAXEMBRO_ENDED_INSIDE_CODE},
};

static void bad_headers(void)
{
    struct call c;
    char text[80];
    for (size_t n = 0; n < sizeof no_header / sizeof *no_header; n++)
        for (size_t k = 0; k < 9; k++) {
            worked(&c);
            strcpy(text, no_header[n].bits);
            if (k < 3) put_last(&c, text);
            if (k >= 3) put(&c, strcat(text, k < 6 ? DC_PARTS : "000000000000000000000000"));
            refused_by(no_header[n].what, readers[k % 3], &c, no_header[n].number, 0);
        }
    for (size_t n = 0; n < sizeof cut_off / sizeof *cut_off; n++)
        for (size_t k = 0; k < 3; k++) {
            worked(&c);
            put_last(&c, cut_off[n].bits);
            refused_by(cut_off[n].what, readers[k], &c, cut_off[n].number, 0);
        }
    worked_with_header(&c);
    c.at = 24;
    for (size_t k = 0; k < 3; k++) refused_by("at the end", readers[k], &c, VAXEMBRO_TRUNCATED, 0);
}

/* Before any bit of a header, which is none. */
static void bad_state_before_a_header(void)
{
    static const size_t starts[] = {25, (size_t)-1};
    static const uint32_t quantisers[] = {0, 32, 0xFFFFFFFFu};
    struct call c;
    for (size_t k = 0; k < 3; k++) {
        for (size_t n = 0; n < 2; n++) {
            worked_with_header(&c);
            c.at = starts[n];
            c.quantiser_scale = 0;
            c.samples_len = c.store_len = 0;
            refused_by("past the end", readers[k], &c, VAXEMBRO_OUT_OF_RANGE, 0);
        }
        worked(&c);
        c.data = too_long;
        c.data_len = MOST + 1;
        c.quantiser_scale = 0;
        refused_by("data too long", readers[k], &c, VAXEMBRO_OUT_OF_RANGE, 0);
        c.data_len = MOST;
        refused_by("quantiser 0", readers[k], &c, VAXEMBRO_CONTEXT, 0);
        c.quantiser_scale = 8;
        refused_by("the longest data", readers[k], &c, VAXEMBRO_INVALID_HEADER, 0);
        c.at = 8 * MOST - 8;
        refused_by("the end of the longest data", readers[k], &c, VAXEMBRO_ENDED_INSIDE_CODE, 0);
        for (size_t n = 0; n < 3; n++) {
            worked(&c);
            put(&c, "0000001");
            c.quantiser_scale = quantisers[n];
            c.neighbours[0] = 65537;
            c.state[4] = 1;
            c.samples_len = c.store_len = 0;
            refused_by("quantiser", readers[k], &c, VAXEMBRO_CONTEXT, 0);
        }
    }
    /* then alone 13, 14, 16, and in a picture 14, 15, 13, 16 */
    worked(&c);
    put(&c, "0000001");
    c.state[0] = 2;
    c.state[2] = 13;
    c.bits_per_pixel = 3;
    c.state[4] = 2;
    c.stored = 65537;
    c.neighbours[0] = 65537;
    c.samples_len = VAXEMBRO_SAMPLES - 1;
    c.store_len = 2 * VAXEMBRO_STORE - 1;
    refused_by("depth", headed_in_picture, &c, VAXEMBRO_CONTEXT, 0);
    refused_by("depth", headed_alone, &c, VAXEMBRO_CONTEXT, 0);
    c.state[2] = c.bits_per_pixel = 8;
    refused_by("383 samples, and later faults", headed_in_picture, &c, VAXEMBRO_TOO_SHORT, 0);
    refused_by("a neighbour, and later faults", headed_alone, &c, VAXEMBRO_PREDICTOR, 0);
    c.samples_len = VAXEMBRO_SAMPLES;
    c.neighbours[0] = 1024;
    refused_by("383 numbers of store, and later faults", headed_in_picture, &c, VAXEMBRO_TOO_SHORT, 0);
    refused_by("no header", headed_alone, &c, VAXEMBRO_INVALID_HEADER, 0);
    c.samples_len = VAXEMBRO_SAMPLES - 1;
    refused_by("383 samples, and no header", headed_alone, &c, VAXEMBRO_TOO_SHORT, 0);
    c.samples_len = VAXEMBRO_SAMPLES;
    c.store_len = 2 * VAXEMBRO_STORE;
    refused_by("complete, and later faults", headed_in_picture, &c, VAXEMBRO_COMPLETE, 0);
    c.state[4] = 1;
    refused_by("a store from elsewhere, and no header", headed_in_picture, &c, VAXEMBRO_PREDICTOR, 0);
    c.stored = 0;
    c.state[4] = 0;
    refused_by("no header", headed_in_picture, &c, VAXEMBRO_INVALID_HEADER, 0);
    c.state[0] = 46;
    refused_by("46 macroblocks", headed_in_picture, &c, VAXEMBRO_OUT_OF_RANGE, 0);
    c.state[0] = 1;
    c.state[3] = 1;
    c.flags |= VAXEMBRO_QUANT_TYPE;
    c.matrix[5] = 0;
    refused_by("a zero in the matrix, and no header", headed_in_picture, &c, VAXEMBRO_CONTEXT, 0);
    refused_by("a zero in the matrix, and no header", headed_alone, &c, VAXEMBRO_CONTEXT, 0);
    refused_by("a zero in the matrix", header_only, &c, VAXEMBRO_INVALID_HEADER, 0);
}

/* The header before the blocks, and then their faults. */
static void bad_blocks_after_a_header(void)
{
    static const struct {
        const char *what, *bits;
        uint32_t number, figure;
    } all[] = {
        {"no cbpy before a DC code that is none", "1 0 00000 0000000000001", VAXEMBRO_INVALID_HEADER, 0},
        {"no DC code", "1 0 00010 0000000000001", VAXEMBRO_INVALID_DC_SIZE, 1},
        {"a marker 0", "001 1 11 00000001 100000000 0", VAXEMBRO_MARKER_BIT_MISSING, 0},
        {"no AC code", "0001 0 00010 00 011 0000000000011", VAXEMBRO_INVALID_TCOEF, 3},
        {"an escape's marker 0", "000001 0 00010 01 011 0000011 11 1 000000 0", VAXEMBRO_ESCAPE_MARKER_BIT_MISSING, 0},
        {"level 0", "000010 1 00010 10 011 0000011 11 1 000000 1 000000000000 1", VAXEMBRO_RESERVED_ESCAPE_LEVEL, 0},
        {"run 63", "000011 1 00010 11 011 0000011 11 1 111111 1 000000000001 1", VAXEMBRO_OVERFLOW, 64},
    };
    struct call c;
    for (size_t n = 0; n < sizeof all / sizeof *all; n++)
        for (size_t k = 0; k < 2; k++) {
            worked(&c);
            put(&c, all[n].bits);
            refused_by(all[n].what, k ? headed_alone : headed_in_picture, &c, all[n].number, all[n].figure);
        }
}

/* Lent memory that is too short, before every other fault; and a header that is longer keeps its rest. */
static void lent_for_a_header(void)
{
    struct call c;
    struct lent l;
    for (size_t k = 0; k < 3; k++) {
        for (size_t len = 0; len < VAXEMBRO_HEADER; len++) {
            worked_with_header(&c);
            c.header_len = len;
            refused_by("a short header", readers[k], &c, VAXEMBRO_TOO_SHORT, 0);
            c.at = (size_t)-1;
            c.quantiser_scale = 0;
            refused_by("a short header, and later faults", readers[k], &c, VAXEMBRO_TOO_SHORT, 0);
            c.answer_len = len;
            unanswered_by("a short header and a short answer", readers[k], &c);
        }
        for (size_t len = 0; len < VAXEMBRO_ANSWER; len++) {
            worked_with_header(&c);
            c.answer_len = len;
            unanswered_by("a short answer", readers[k], &c);
        }
        worked_with_header(&c);
        c.header_len = VAXEMBRO_HEADER + 2;
        c.answer_len = VAXEMBRO_ANSWER + 2;
        lend(&c, &l);
        uint32_t given = readers[k](&c, &l);
        check(given == 0, "a longer header: refused by %u", (unsigned)given);
        answered("a longer header", &l, 0, 0, k == 0 ? 6 : 22, k == 0 ? 6 : 22, none);
        header_is("a longer header", &l, (struct fields){VAXEMBRO_INTRA, 0, 0, 0, 0, 8});
        worked_with_header(&c);
        c.state_len = c.store_len = c.neighbours_len = c.data_len = c.matrix_len = c.samples_len = c.header_len = 0;
        refused_by("nothing but an answer", readers[k], &c, VAXEMBRO_TOO_SHORT, 0);
        c.answer_len = 0;
        unanswered_by("nothing", readers[k], &c);
        worked_with_header(&c);
        c.data_len = 0;
        refused_by("no data", readers[k], &c, VAXEMBRO_TRUNCATED, 0);
        /* what a header by itself is not lent */
        if (k > 0) continue;
        worked_with_header(&c);
        c.state_len = c.store_len = c.neighbours_len = c.matrix_len = c.samples_len = 0;
        parsed("only data, header and answer", &c, 6, (struct fields){VAXEMBRO_INTRA, 0, 0, 0, 0, 8});
    }
    /* the others, each one short and then none of it, with a start past the end */
    for (size_t n = 0; n < 2; n++) {
        worked_with_header(&c);
        c.at = (size_t)-1;
        c.matrix_len = n ? 0 : VAXEMBRO_MATRIX - 1;
        refused_by("a short matrix", headed_in_picture, &c, VAXEMBRO_TOO_SHORT, 0);
        refused_by("a short matrix", headed_alone, &c, VAXEMBRO_TOO_SHORT, 0);
        c.matrix_len = VAXEMBRO_MATRIX;
        c.state_len = n ? 0 : VAXEMBRO_STATE - 1;
        c.neighbours_len = n ? 0 : VAXEMBRO_NEIGHBOURS - 1;
        refused_by("a short state", headed_in_picture, &c, VAXEMBRO_TOO_SHORT, 0);
        refused_by("short neighbours", headed_alone, &c, VAXEMBRO_TOO_SHORT, 0);
        worked_with_header(&c);
        c.samples_len = n ? 0 : VAXEMBRO_SAMPLES - 1;
        refused_by("short samples", headed_in_picture, &c, VAXEMBRO_TOO_SHORT, 0);
        refused_by("short samples", headed_alone, &c, VAXEMBRO_TOO_SHORT, 0);
        worked_with_header(&c);
        c.store_len = n ? 0 : VAXEMBRO_STORE - 1;
        refused_by("a short store", headed_in_picture, &c, VAXEMBRO_TOO_SHORT, 0);
    }
}

static void openings(void)
{
    static const struct {
        uint32_t width, height, depth, state_len, number;
    } all[] = {{1, 1, 4, 5, 0},   {45, 36, 12, 5, 0}, {0, 1, 8, 5, 11},  {46, 1, 8, 5, 11}, {1, 0, 8, 5, 11}, {1, 37, 8, 5, 11},
               {46, 1, 3, 5, 11}, {45, 36, 3, 5, 12}, {1, 1, 13, 5, 12}, {1, 1, 8, 4, 14},  {1, 1, 8, 0, 14}};
    for (size_t k = 0; k < sizeof all / sizeof *all; k++) {
        const uint32_t before[6] = {90, 91, 92, 93, 94, 95};
        uint32_t state[6];
        memcpy(state, before, sizeof state);
        uint32_t number = vaxembro_open(all[k].width, all[k].height, all[k].depth, 1, LENT(state, all[k].state_len));
        check(number == all[k].number, "opening %zu: %u given", k, (unsigned)number);
        if (all[k].number == 0) {
            const uint32_t due[6] = {all[k].width, all[k].height, all[k].depth, 1, 0, 95};
            check(memcmp(state, due, sizeof due) == 0, "opening %zu: state", k);
        } else {
            check(memcmp(state, before, sizeof before) == 0, "opening %zu: state was written", k);
        }
    }
}

static void read_out(void)
{
    static const size_t answer[VAXEMBRO_ANSWER + 1] = {1, 2, 3, 4, 5, 6, 7, 8, 9, 10};
    static const uint32_t others[] = {5, 5, 255, 255, 0x80000000u, 0xFFFFFFFCu, UINT32_MAX, UINT32_MAX};
    check(vaxembro_number(answer, 9) == 1 && vaxembro_figure(answer, 9) == 2, "an answer's number and figure");
    check(vaxembro_bits(answer, 9) == 3 && vaxembro_position(answer, 9) == 4, "an answer's bits and position");
    check(vaxembro_spelling(answer, 9, VAXEMBRO_PLAIN) == 5, "an answer's plain events");
    check(vaxembro_spelling(answer, 9, VAXEMBRO_TYPE1) == 6, "an answer's events of type 1");
    check(vaxembro_spelling(answer, 9, VAXEMBRO_TYPE2) == 7, "an answer's events of type 2");
    check(vaxembro_spelling(answer, 9, VAXEMBRO_TYPE3) == 8, "an answer's events of type 3");
    check(vaxembro_spelling(answer, 9, VAXEMBRO_RVLC_ESCAPE) == 9, "an answer's reversible escapes");
    for (size_t k = 0; k < sizeof others / sizeof *others; k++)
        check(vaxembro_spelling(answer, 9 + k % 2, others[k]) == 0, "spelling %u", (unsigned)others[k]);
    for (size_t len = 0; len < VAXEMBRO_ANSWER; len++) {
        const size_t *a = len == 0 ? NULL : answer;
        check(vaxembro_number(a, len) == 0 && vaxembro_figure(a, len) == 0, "number and figure of %zu numbers", len);
        check(vaxembro_bits(a, len) == 0 && vaxembro_position(a, len) == 0, "bits and position of %zu numbers", len);
        for (uint32_t k = 0; k <= SPELLINGS; k++) check(vaxembro_spelling(a, len, k) == 0, "spelling %u of %zu numbers", (unsigned)k, len);
    }
}

int main(void)
{
    dc_only();
    halves();
    without_dc_codes();
    one_level();
    mismatch();
    neighbours();
    ac_prediction();
    two();
    spellings();
    most_events();
    after_a_long_difference();
    one_after_the_other(in_picture);
    one_after_the_other(alone);
    answer_lengths(in_picture);
    answer_lengths(alone);
    bad_bits();
    last_bits();
    cut();
    bad_state(in_picture);
    bad_state(alone);
    nothing_lent(in_picture);
    nothing_lent(alone);
    bad_ranges(in_picture);
    bad_ranges(alone);
    bad_picture();
    bad_neighbours();
    header_and_blocks();
    every_header();
    dquants();
    flag_of_the_header();
    quantiser_of_the_header();
    cut_headers();
    bad_headers();
    bad_state_before_a_header();
    bad_blocks_after_a_header();
    lent_for_a_header();
    openings();
    read_out();
    printf("C: %u checks, %u failed\n", checks, failures);
    return failures != 0;
}
