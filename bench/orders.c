/* One block through the add call, for bench/orders: argv is a size number and the call (add, rows, clamped, and each with _lanes; the fast form; bytes).
   The coefficients fill the block; those of the row order are the same block turned. Prints a sum of the picture. */
#include "panel.h"
#include <stdio.h>
#include <stdlib.h>
#include <string.h>

static const int W[25] = {4, 8, 16, 32, 64, 4, 8, 8, 16, 16, 32, 32, 64, 4, 16, 8, 32, 16, 64, 4, 32, 8, 64, 4, 64};
static const int H[25] = {4, 8, 16, 32, 64, 8, 4, 16, 8, 32, 16, 64, 32, 16, 4, 32, 8, 64, 16, 32, 4, 64, 8, 64, 4};
static int32_t columns[1024], rows[1024], picture[64 * 64];
static uint8_t bytes[64 * 64];

int main(int argc, char **argv) {
    int size = argc > 1 ? atoi(argv[1]) : 0, w = W[size], h = H[size], sw = w < 32 ? w : 32, sh = h < 32 ? h : 32;
    const char *what = argc > 2 ? argv[2] : "add";
    unsigned seed = 1, sum = 0;
    panel_answer a = {1, 0, 0};
    for (int i = 0; i < sw * sh; i++) {
        seed = seed * 1103515245u + 12345u;
        columns[i] = (int)(seed >> 16) % 2001 - 1000;
    }
    for (int r = 0; r < sh; r++)
        for (int x = 0; x < sw; x++) rows[r * sw + x] = columns[r + x * sh];
    for (int i = 0; i < 64 * 64; i++) picture[i] = bytes[i] = 100;
#define CALL_ON(plane, name, list) \
    if (!strcmp(what, #name)) a = panel_inv_txfm_##name(plane, 64 * 64, 64, list, sw * sh, 0, size, 8)
#define CALL(name, list) CALL_ON(picture, name, list)
    CALL(add, columns);
    CALL(add_lanes, columns);
    CALL(add_rows, rows);
    CALL(add_rows_lanes, rows);
    CALL(add_clamped, columns);
    CALL(add_clamped_lanes, columns);
    CALL(add_fast, columns);
    CALL(add_rows_fast, rows);
    CALL_ON(bytes, add_bytes, columns);
    CALL_ON(bytes, add_bytes_fast, columns);
    CALL_ON(bytes, add_rows_bytes_fast, rows);
    if (strstr(what, "bytes"))
        for (int i = 0; i < 64 * 64; i++) picture[i] = bytes[i];
    for (int i = 0; i < 64 * 64; i++) sum = sum * 31 + (unsigned)picture[i];
    printf("%u %u\n", a.number, sum);
    return a.number != 0;
}
