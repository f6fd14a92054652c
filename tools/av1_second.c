/* Answers a stream of the calls 34 and 35 by libaom's own functions. Only accepted cases may be asked: libaom refuses nothing.
   Its WHT adds to samples of 12 bits, so each result must lie in -2048 .. 2047. */
#include <stdint.h>
#include <stdio.h>
#include <string.h>

typedef void transform(const int32_t *input, int32_t *output, int8_t cos_bit, const int8_t *stage_range);
transform av1_idct4, av1_idct8, av1_idct16, av1_idct32, av1_idct64;
void av1_highbd_iwht4x4_16_add_c(const int32_t *input, uint8_t *dest, int stride, int bits);

static int word(uint64_t *w) { return fread(w, 8, 1, stdin) == 1; }

static void dct(uint64_t length, uint64_t bits, int32_t *t) {
    int32_t out[64];
    int8_t range[16];
    memset(range, (int)bits, sizeof range);
    transform *f = length == 4 ? av1_idct4 : length == 8 ? av1_idct8 : length == 16 ? av1_idct16 : length == 32 ? av1_idct32 : av1_idct64;
    f(t, out, 12, range);
    memcpy(t, out, 4 * length);
}

/* libaom's list goes down the columns; a picture of 16 bits is named by half of its address. */
static void wht(int32_t *t) {
    int32_t turned[16];
    uint16_t picture[16];
    for (int i = 0; i < 16; i++) {
        turned[i] = t[TURNED ? i % 4 * 4 + i / 4 : i];
        picture[i] = 2048;
    }
    av1_highbd_iwht4x4_16_add_c(turned, (uint8_t *)((uintptr_t)picture >> 1), 4, 12);
    for (int i = 0; i < 16; i++) t[i] = picture[i] - 2048;
}

int main(void) {
    uint64_t call, length, bits, count, done[3] = {0, 0, 0};
    int32_t t[64];
    while (word(&call)) {
        if (call != 34 && call != 35) return 1;
        length = 16;
        if ((call == 34 && !word(&length)) || !word(&bits) || !word(&count) || count != length || count > 64) return 1;
        if (fread(t, 4, count, stdin) != count) return 1;
        if (call == 34) dct(length, bits, t);
        else wht(t);
        fwrite(done, 8, 3, stdout);
        fwrite(t, 4, count, stdout);
    }
    return 0;
}
