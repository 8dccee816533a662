/*
 * Rumqeshi for C and C++: the entry points of the crate exports. `rt lib` in crates/exports writes
 * crates/exports/out/libexports.a (Linux, x86-64-v2); link it beside your program.
 *
 * A slice is two arguments, a pointer to its first element and the count of its elements. The
 * caller owes what no function can test:
 *  - each pointer is not null and aligned for its type, also where the count is 0;
 *  - behind it are as many elements as the count says, which nothing else changes during the call;
 *  - what a call may write (a pointer without const) overlaps nothing else lent to that call.
 *
 * Every function takes any value of its types: a call that can't be answered is refused with a
 * number. "01" is document 01, the scope paper, "02" document 02, the requests after it. The functions
 * keep no state between calls.
 */
#ifndef RUMQESHI_H
#define RUMQESHI_H

#include <stddef.h>
#include <stdint.h>

#ifdef __cplusplus
extern "C" {
#endif

/* Answers: 01, "Answers that turn a call away, in checking order"; 2 with 02, (iii). */
enum {
    VC2_ACCEPTED = 0,
    VC2_BAD_WAVELET = 1,         /* a wavelet index is above 6 */
    VC2_BAD_DEPTH = 2,           /* the two depths sum to more than 8, or than 5 if a wavelet index is not 1, 3 or 4 */
    VC2_BAD_SLICES = 3,          /* slices across or down are 0 or above 65,535, or their product is above 1,048,576 */
    VC2_BAD_SCALER = 4,          /* the scaler is 0 or above 65,535, or prefix bytes are above 255 */
    VC2_NO_TARGET = 5,           /* low delay without a picture's bytes */
    VC2_BAD_INDEX = 6,           /* a quantisation index is above 255 */
    VC2_BAD_TARGET = 7,          /* the picture's bytes are above 1,073,741,824 */
    VC2_BAD_FRAME = 8,           /* format, mode, frame side or excursion is out of range, or a component side is 0 */
    VC2_BAD_MATRIX = 9,          /* a custom matrix has a wrong count of values, or one above 255 */
    VC2_NO_DEFAULT_MATRIX = 10,  /* Annex D has no default matrix for these wavelets and depths */
    VC2_BAD_AREA = 11,           /* the padded luma area is above 67,108,864 */
    VC2_BAD_PLANE = 12,          /* a plane's count is not its width times its height */
    VC2_SHORT_WORK = 13,         /* the work slice is too short */
    VC2_SHORT_OUTPUT = 14,       /* the unit is longer than the output or than 4,294,967,295 bytes */
    VC2_LONG_ROW = 15,           /* row analysis only: the row has more than 65,536 numbers */
    VC2_NO_SETTINGS = 100        /* picture call only, no number of 01: the words are no settings */
};

/* The settings' words, in the order of 01's job kind 0. */
enum {
    VC2_KIND = 0,                 /* 0 low delay, 1 high quality */
    VC2_WAVELET_INDEX = 1,
    VC2_WAVELET_INDEX_HO = 2,     /* horizontal-only wavelet index */
    VC2_DWT_DEPTH = 3,
    VC2_DWT_DEPTH_HO = 4,         /* horizontal-only depth */
    VC2_SLICES_X = 5,
    VC2_SLICES_Y = 6,
    VC2_SLICE_PREFIX_BYTES = 7,
    VC2_SLICE_SIZE_SCALER = 8,
    VC2_RATE = 9,                 /* 0 lossless, 1 a fixed index, 2 a picture's bytes */
    VC2_RATE_NUMBER = 10,         /* the index or the bytes; not looked at if lossless */
    VC2_FRAME_WIDTH = 11,
    VC2_FRAME_HEIGHT = 12,
    VC2_COLOR_DIFF_FORMAT = 13,   /* 0 4:4:4, 1 4:2:2, 2 4:2:0 */
    VC2_PICTURE_CODING_MODE = 14, /* 0 frames, 1 fields */
    VC2_LUMA_EXCURSION = 15,
    VC2_COLOR_DIFF_EXCURSION = 16,
    VC2_EXTENDED = 17,            /* 0 no, 1 yes */
    VC2_CUSTOM_MATRIX = 18,       /* 0 the default matrix, 1 the lent one */
    VC2_PICTURE_NUMBER = 19,
    VC2_PREV_UNIT_LEN = 20,
    VC2_SETTINGS = 21             /* how many words there are */
};

/* How many bits the code word of v has, unsigned and signed. Never refused. */
uint32_t vc2_uint_code_len(uint32_t v);
uint32_t vc2_sint_code_len(int64_t v);

/*
 * The quantiser. Each writes its result behind value and answers VC2_ACCEPTED, or answers
 * VC2_BAD_INDEX where index is above 255 and leaves *value as it was.
 */

/* The quantisation factor of an index, at most 2^63 - 1. */
uint32_t vc2_quant_factor(uint32_t index, int64_t *value);

/* The offset of an index. */
uint32_t vc2_quant_offset(uint32_t index, int64_t *value);

/* The quantised number of a coefficient. */
uint32_t vc2_forward_quant(int64_t coeff, uint32_t index, int64_t *value);

/* The coefficient rebuilt from a quantised number. */
uint32_t vc2_inverse_quant(int64_t number, uint32_t index, int64_t *value);

/*
 * One-dimensional analysis of a row in place, by wavelet index; sums and products wrap at 64 bits.
 * VC2_ACCEPTED, or VC2_BAD_WAVELET, or VC2_LONG_ROW; a refused row stays as it was.
 */
uint32_t vc2_oned_analysis(int64_t *row, size_t row_count, uint32_t index);

/*
 * Encodes one picture as one picture data unit.
 *
 * settings  VC2_SETTINGS words in the order above.
 * matrix    the custom matrix in subband order, 1 + VC2_DWT_DEPTH_HO + 3 * VC2_DWT_DEPTH values;
 *           not looked at where VC2_CUSTOM_MATRIX is 0, and may then have count 0.
 * y, c1, c2 the planes, row by row: as many samples as the component's width times its height.
 * work      scratch: at least three times the sum of the three components' padded areas. A padded
 *           width is the width rounded up to a multiple of 2^(VC2_DWT_DEPTH_HO + VC2_DWT_DEPTH), a
 *           padded height the height rounded up to one of 2^VC2_DWT_DEPTH.
 * out       where the unit goes.
 *
 * Answers, the first that applies:
 *  - VC2_NO_SETTINGS: there are not VC2_SETTINGS words, or the word of kind, rate, extended or
 *    custom is none of its values. Nothing is changed.
 *  - 1 to 13: refused. Nothing is changed.
 *  - VC2_SHORT_OUTPUT: refused. out and work are filled with zeros.
 *  - VC2_ACCEPTED: the unit stands at the start of out and the rest of out is as it was; work is
 *    filled with zeros.
 * *written (the unit's length, in bytes), *cut_slices (slices of which a quantised number that is
 * not 0 is not written; 0 in high quality) and *slice_size_scaler (the final scaler; in low delay
 * the setting's) are set only where VC2_ACCEPTED is answered. Otherwise they stay as they were.
 */
uint32_t vc2_encode_picture(const uint32_t *settings, size_t settings_count,
                            const uint32_t *matrix, size_t matrix_count,
                            const uint16_t *y, size_t y_count,
                            const uint16_t *c1, size_t c1_count,
                            const uint16_t *c2, size_t c2_count,
                            int64_t *work, size_t work_count,
                            uint8_t *out, size_t out_count,
                            uint32_t *written, uint32_t *cut_slices, uint32_t *slice_size_scaler);

#ifdef __cplusplus
}
#endif

#endif
