/* Encodes document 01's example picture, prints the unit as its job program does, and makes a call that is refused. */
#include <inttypes.h>
#include <stdio.h>

#include "rumqeshi.h"

int main(void)
{
    const uint32_t settings[VC2_SETTINGS] = {
        [VC2_KIND] = 1, [VC2_WAVELET_INDEX] = 1, [VC2_WAVELET_INDEX_HO] = 1,
        [VC2_SLICES_X] = 1, [VC2_SLICES_Y] = 1, [VC2_SLICE_SIZE_SCALER] = 1,
        [VC2_FRAME_WIDTH] = 1, [VC2_FRAME_HEIGHT] = 1,
        [VC2_LUMA_EXCURSION] = 255, [VC2_COLOR_DIFF_EXCURSION] = 255, [VC2_PICTURE_NUMBER] = 7
    };
    const uint32_t matrix[1] = {0}; /* the default matrix is wanted: lent with count 0 */
    const uint16_t y[1] = {130}, c1[1] = {128}, c2[1] = {125};
    int64_t work[9];
    uint8_t out[64];
    uint32_t written, cut_slices, scaler;

    uint32_t answer = vc2_encode_picture(settings, VC2_SETTINGS, matrix, 0, y, 1, c1, 1, c2, 1, work, 9, out, sizeof out,
                                         &written, &cut_slices, &scaler);
    if (answer != VC2_ACCEPTED) {
        printf("%" PRIu32 "\n", answer);
        return 1;
    }
    printf("%" PRIu32 " %" PRIu32 " %" PRIu32 " %" PRIu32 "\n", answer, written, cut_slices, scaler);
    for (uint32_t i = 0; i < written; i++)
        printf("%02X%c", (unsigned)out[i], i % 16 == 15 || i + 1 == written ? '\n' : ' ');

    /* one byte too few for the unit */
    answer = vc2_encode_picture(settings, VC2_SETTINGS, matrix, 0, y, 1, c1, 1, c2, 1, work, 9, out, written - 1,
                                &written, &cut_slices, &scaler);
    printf("%" PRIu32 "\n", answer);
    return answer == VC2_SHORT_OUTPUT ? 0 : 1;
}
