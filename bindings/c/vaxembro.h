/* The decoder for C and C++: numbers and lent memory only. Link with -lvaxembro.
 *
 * Lent memory is a pointer and then a length in numbers. It is read and written only within that length; nothing is kept after a call and
 * nothing is allocated. A pointer may be NULL where its length is 0. Parts that a call may write must not overlap the others.
 *
 * Every function ends for every input. Where `state`, `matrix`, `neighbours`, `header` or `answer` is shorter than it has to be, opening,
 * reading a header and decoding give VAXEMBRO_TOO_SHORT before any other number, and nothing but `answer` is written.
 *
 * Decoding and reading a header write an `answer` of VAXEMBRO_ANSWER numbers or more in each case, also where other memory is too short:
 * on a refusal the number, its figure, 0 bits, the position before the call and 0 events of each spelling.
 *
 * docs/REFUSALS.md says when each number is given, with which figure, and in which order the tests are asked.
 */
#ifndef VAXEMBRO_H
#define VAXEMBRO_H

#include <stddef.h>
#include <stdint.h>

#ifdef __cplusplus
extern "C" {
#endif

/* How long lent memory has to be. */
enum {
    VAXEMBRO_STATE = 5,       /* width, height, depth, quant_type, macroblocks accepted */
    VAXEMBRO_MATRIX = 64,     /* row by row */
    VAXEMBRO_NEIGHBOURS = 21, /* see vaxembro_decode_intra_macroblock */
    VAXEMBRO_SAMPLES = 384,   /* luma 256 row by row, Cb 64, Cr 64 */
    VAXEMBRO_STORE = 192,     /* for each macroblock of the picture's width */
    VAXEMBRO_HEADER = 6,      /* type, cbpc, ac_pred_flag, cbpy, dquant, quantiser: see vaxembro_parse_macroblock_header */
    VAXEMBRO_ANSWER = 9       /* number, figure, bits, position, and events: plain, type 1, type 2, type 3, RVLC escape */
};

/* What mb_type says. Any other number: missing. A header that is read has one of the last two. */
enum { VAXEMBRO_MISSING = 0, VAXEMBRO_INTER = 1, VAXEMBRO_INTER_Q = 2, VAXEMBRO_INTER4V = 3, VAXEMBRO_INTRA = 4, VAXEMBRO_INTRA_Q = 5 };

/* The flags of a call. Higher bits are not looked at, nor are the first two where the header is in the bits. */
enum {
    VAXEMBRO_NOT_CODED = 1,
    VAXEMBRO_AC_PRED = 2,
    VAXEMBRO_ALTERNATE_VERTICAL_SCAN = 4,
    VAXEMBRO_INTRA_MISMATCH_EXEMPT = 8,
    VAXEMBRO_HALVES_TO_EVEN = 16, /* otherwise away from zero */
    VAXEMBRO_USE_INTRA_DC_VLC = 32,
    VAXEMBRO_REVERSIBLE_VLC = 64,
    VAXEMBRO_QUANT_TYPE = 128 /* method 1; in a picture the state's counts */
};

/* What a call gives: accepted, or the number of its refusal.
 *
 * 1 and 17 say that the data stopped: fetch it again. 2 to 8 and 16 say that it is bad: discard it. Neither 1 nor 17 promises that more
 * bits would help: a list that lands past place 63, or a reserved level before its last marker, is told so too where the bits end first. */
enum {
    VAXEMBRO_ACCEPTED = 0,
    VAXEMBRO_TRUNCATED = 1,       /* no bit is left where a code should begin, or fewer than a field has */
    VAXEMBRO_INVALID_DC_SIZE = 2, /* the bits that are left neither begin with a code nor begin one; figure: the window */
    VAXEMBRO_MARKER_BIT_MISSING = 3,
    VAXEMBRO_INVALID_TCOEF = 4, /* as 2, of a coefficient; figure: the window */
    VAXEMBRO_ESCAPE_MARKER_BIT_MISSING = 5,
    VAXEMBRO_RESERVED_ESCAPE_LEVEL = 6,
    VAXEMBRO_RVLC_ESCAPE_DELIMITER_MISSING = 7, /* figure: the window */
    VAXEMBRO_OVERFLOW = 8,                      /* figure: the landing */
    VAXEMBRO_NOT_CODED_MACROBLOCK = 9,
    VAXEMBRO_NOT_INTRA = 10,
    VAXEMBRO_OUT_OF_RANGE = 11,     /* width, height, data too long, start past its end */
    VAXEMBRO_CONTEXT = 12,          /* quantiser, depth, a zero in the matrix under method 1 */
    VAXEMBRO_PREDICTOR = 13,        /* a neighbour's DC, AC value or quantiser */
    VAXEMBRO_TOO_SHORT = 14,        /* lent memory */
    VAXEMBRO_COMPLETE = 15,         /* width times height macroblocks were accepted */
    VAXEMBRO_INVALID_HEADER = 16,   /* as 2, of a header's mcbpc or cbpy; no figure */
    VAXEMBRO_ENDED_INSIDE_CODE = 17 /* all bits that are left begin a code that has more */
};

/* How an event is spelled. */
enum {
    VAXEMBRO_PLAIN = 0, /* a code and its sign, reversible or not */
    VAXEMBRO_TYPE1 = 1,
    VAXEMBRO_TYPE2 = 2,
    VAXEMBRO_TYPE3 = 3,
    VAXEMBRO_RVLC_ESCAPE = 4
};

/* Opens a picture in `state`: 1 to 45 by 1 to 36 macroblocks, 4 to 12 bits a sample, quant_type 0 for method 2 and any other for method 1.
 * Gives 0, 11, 12 or 14; on a refusal the state is as it was. The store need not be cleared. */
uint32_t vaxembro_open(uint32_t width, uint32_t height, uint32_t bits_per_pixel, uint32_t quant_type, uint32_t *state, size_t state_len);

/* Decodes the macroblock that is due in the picture of `state`, from bit `at` of `data` on. Gives 0 or the number of the refusal; state,
 * samples and store are written only when it gives 0. Of cbpy the low four bits count, of cbpc the low two. */
uint32_t vaxembro_decode_macroblock(uint32_t *state, size_t state_len, const uint8_t *data, size_t data_len, size_t at, uint32_t mb_type,
                                    uint8_t cbpy, uint8_t cbpc, uint32_t quantiser_scale, uint32_t flags, const uint8_t *matrix,
                                    size_t matrix_len, int32_t *samples, size_t samples_len, int32_t *store, size_t store_len,
                                    size_t *answer, size_t answer_len);

/* Decodes one macroblock alone, its six blocks with the same neighbours: the DCs of A (left), B (above left) and C (above); the quantisers
 * of A and C; whether A's column and C's row are there (0 or not); A's first column and C's first row, 7 numbers each. A missing neighbour
 * has DC 2^(depth+2) and the present quantiser. The samples are written only when it gives 0. */
uint32_t vaxembro_decode_intra_macroblock(const uint8_t *data, size_t data_len, size_t at, uint32_t mb_type, uint8_t cbpy, uint8_t cbpc,
                                          uint32_t quantiser_scale, uint32_t bits_per_pixel, uint32_t flags, const int32_t *neighbours,
                                          size_t neighbours_len, const uint8_t *matrix, size_t matrix_len, int32_t *samples,
                                          size_t samples_len, size_t *answer, size_t answer_len);

/* Reads the header of a macroblock of an I-VOP, from bit `at` of `data` on: mcbpc, any number of stuffing codes before it skipped,
 * ac_pred_flag, cbpy, and dquant where the type has a quantiser change. quantiser_scale is the quantiser before the header, 1 to 31.
 * `header` becomes the type (VAXEMBRO_INTRA or VAXEMBRO_INTRA_Q), cbpc, ac_pred_flag, cbpy, what dquant changes the quantiser by (-2 to 2;
 * 0 where there is none), and the quantiser after it, limited to 1 to 31. The answer's bits are those of the header, its stuffing among
 * them, and it has no events.
 *
 * Gives 0 or, in this order, 14, 11, 12, and then by the bits 1, 16 or 17; `header` is written only when it gives 0. */
uint32_t vaxembro_parse_macroblock_header(const uint8_t *data, size_t data_len, size_t at, uint32_t quantiser_scale, int32_t *header,
                                          size_t header_len, size_t *answer, size_t answer_len);

/* As vaxembro_decode_macroblock, with the header in the bits. quantiser_scale is the quantiser before the header; samples and store are
 * worked out with the header's ac_pred_flag and the quantiser after it, which the store keeps. VAXEMBRO_NOT_CODED and VAXEMBRO_AC_PRED of
 * the flags are not looked at. `header` becomes as above; the answer's bits are the header's and those of the blocks.
 *
 * Gives 0 or, in this order, 14 of state, matrix, header or answer, 11, 12, 14 of samples or store, 15, 13, then by the header 1, 16 or 17,
 * and then by the blocks 1 to 8 or 17. State, samples, store and header are written only when it gives 0. */
uint32_t vaxembro_decode_macroblock_with_header(uint32_t *state, size_t state_len, const uint8_t *data, size_t data_len, size_t at,
                                                uint32_t quantiser_scale, uint32_t flags, const uint8_t *matrix, size_t matrix_len,
                                                int32_t *samples, size_t samples_len, int32_t *store, size_t store_len, int32_t *header,
                                                size_t header_len, size_t *answer, size_t answer_len);

/* As vaxembro_decode_intra_macroblock, with the header in the bits; quantiser, flags, `header` and bits are as in the call above.
 *
 * Gives 0 or, in this order, 14 of neighbours, matrix, header or answer, 11, 12, 13, 14 of samples, then by the header 1, 16 or 17, and
 * then by the blocks 1 to 8 or 17. Samples and header are written only when it gives 0. */
uint32_t vaxembro_decode_intra_macroblock_with_header(const uint8_t *data, size_t data_len, size_t at, uint32_t quantiser_scale,
                                                      uint32_t bits_per_pixel, uint32_t flags, const int32_t *neighbours,
                                                      size_t neighbours_len, const uint8_t *matrix, size_t matrix_len, int32_t *samples,
                                                      size_t samples_len, int32_t *header, size_t header_len, size_t *answer,
                                                      size_t answer_len);

/* What an answer holds; 0 where it is too short. */
uint32_t vaxembro_number(const size_t *answer, size_t answer_len);
uint32_t vaxembro_figure(const size_t *answer, size_t answer_len);
size_t vaxembro_bits(const size_t *answer, size_t answer_len);
size_t vaxembro_position(const size_t *answer, size_t answer_len);

/* How many events of an accepted macroblock are spelled as `which` says; 0 of any other spelling, and where the answer is too short. An
 * escape counts once, a DC part is no event. */
uint32_t vaxembro_spelling(const size_t *answer, size_t answer_len, uint32_t which);

#ifdef __cplusplus
}
#endif

#endif
