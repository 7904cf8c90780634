/* Decodes the specification's worked case: one macroblock of a picture of 1 by 1. */
#include <stdio.h>

#include <vaxembro.h>

/* The default matrix for intra blocks. */
static const uint8_t matrix[VAXEMBRO_MATRIX] = {
    8,  17, 18, 19, 21, 23, 25, 27, 17, 18, 19, 21, 23, 25, 27, 28, 20, 21, 22, 23, 24, 26, 28, 30, 21, 22, 23, 24, 26, 28, 30, 32,
    22, 23, 24, 26, 28, 30, 32, 35, 23, 24, 26, 28, 30, 32, 35, 38, 25, 26, 28, 30, 32, 35, 38, 41, 27, 28, 30, 32, 35, 38, 41, 45,
};

int main(void)
{
    static const uint8_t data[] = {0x6D, 0xBF};
    uint32_t state[VAXEMBRO_STATE];
    int32_t samples[VAXEMBRO_SAMPLES], store[VAXEMBRO_STORE * 1] = {0};
    size_t answer[VAXEMBRO_ANSWER] = {0};
    uint32_t number = vaxembro_open(1, 1, 8, 0, state, VAXEMBRO_STATE);
    if (number == VAXEMBRO_ACCEPTED)
        number = vaxembro_decode_macroblock(state, VAXEMBRO_STATE, data, sizeof data, 0, VAXEMBRO_INTRA, 0, 0, 8, VAXEMBRO_USE_INTRA_DC_VLC,
                                            matrix, VAXEMBRO_MATRIX, samples, VAXEMBRO_SAMPLES, store, VAXEMBRO_STORE * 1, answer,
                                            VAXEMBRO_ANSWER);
    if (number != VAXEMBRO_ACCEPTED) {
        printf("(refused %u)\n", (unsigned)number);
        return 1;
    }
    int32_t least = samples[0], greatest = samples[0];
    for (size_t k = 1; k < VAXEMBRO_SAMPLES; k++) {
        if (samples[k] < least) least = samples[k];
        if (samples[k] > greatest) greatest = samples[k];
    }
    printf("(bits %zu), %d %d\n", vaxembro_bits(answer, VAXEMBRO_ANSWER), (int)least, (int)greatest);
    return 0;
}
