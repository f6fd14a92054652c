/* One accepted call of ours, or one of dav1d's: `av1 SIDE LENGTH`, SIDE 0 ours, 1 dav1d's; LENGTH 0 is the WHT.
   `av1 2 0` compares 200 lists of each kind and ends with status 1 where one differs. At 64 points dav1d reads 32 inputs: the others are 0. */
#include <stdint.h>
#include <stdio.h>
#include <stdlib.h>
#include <string.h>
#include "panel.h"

void dav1d_inv_dct4_1d_c(int32_t *, ptrdiff_t, int, int);
void dav1d_inv_dct8_1d_c(int32_t *, ptrdiff_t, int, int);
void dav1d_inv_dct16_1d_c(int32_t *, ptrdiff_t, int, int);
void dav1d_inv_dct32_1d_c(int32_t *, ptrdiff_t, int, int);
void dav1d_inv_dct64_1d_c(int32_t *, ptrdiff_t, int, int);
void dav1d_inv_wht4_1d_c(int32_t *, ptrdiff_t);

__attribute__((noinline)) static panel_answer ours(int n, int32_t *t) {
    return n == 0 ? panel_av1_inv_wht4x4(16, t, 16) : panel_av1_inv_dct(n, 16, t, n);
}

__attribute__((noinline)) static void theirs(int n, int32_t *t) {
    switch (n) {
    case 0:
        for (int i = 0; i < 16; i++) t[i] >>= 2;
        for (int y = 0; y < 4; y++) dav1d_inv_wht4_1d_c(t + 4 * y, 1);
        for (int x = 0; x < 4; x++) dav1d_inv_wht4_1d_c(t + x, 4);
        break;
    case 4: dav1d_inv_dct4_1d_c(t, 1, -32768, 32767); break;
    case 8: dav1d_inv_dct8_1d_c(t, 1, -32768, 32767); break;
    case 16: dav1d_inv_dct16_1d_c(t, 1, -32768, 32767); break;
    case 32: dav1d_inv_dct32_1d_c(t, 1, -32768, 32767); break;
    default: dav1d_inv_dct64_1d_c(t, 1, -32768, 32767);
    }
}

static uint32_t seed = 7;

static void fill(int n, int32_t *t) {
    for (int i = 0; i < 64; i++) {
        seed = seed * 1103515245u + 12345u;
        t[i] = i < (n == 0 ? 16 : n) && i < 32 ? (int)(seed >> 20) % 500 - 250 : 0;
    }
}

static int compare(int n) {
    int32_t a[64], b[64];
    int differ = 0;
    for (int round = 0; round < 200; round++) {
        fill(n, a);
        memcpy(b, a, sizeof a);
        panel_answer answer = ours(n, a);
        theirs(n, b);
        differ += answer.number != 0 || memcmp(a, b, sizeof a) != 0;
    }
    return differ;
}

int main(int count, char **word) {
    static int32_t t[64];
    if (count != 3) return 2;
    int side = atoi(word[1]), n = atoi(word[2]);
    if (side == 2) {
        int differ = compare(0) + compare(4) + compare(8) + compare(16) + compare(32) + compare(64);
        printf("1200 lists beside dav1d: %d differ\n", differ);
        return differ != 0;
    }
    fill(n, t);
    if (side == 0) ours(n, t);
    else theirs(n, t);
    return 0;
}
