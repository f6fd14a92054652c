/* driver FORM TX TXTP W H LIVE DEPTH ROUNDS: runs one form of a pixel call on a block that depends on nothing else, and writes
   the nanoseconds of the quickest of ROUNDS rounds (a line), then the pixels' bytes. FORM: 0 the Rust's add, 1 one lane, 2 four
   lanes, 3 eight, 4 fast; 5 to 9 the same for the float call. LIVE: 0 every coefficient, 1 the first four of the first row and of the first
   column, 2 those of the first four rows and columns. With 0 rounds the call is made once. No C library: memcpy and memset are
   the ones below, for both sides. Everything but those, the Rust and the archive is in section .driver, which is not counted. */
#include "panel.h"
#define DRIVER __attribute__((section(".driver")))

void rust_add(int32_t *, size_t, size_t, const int32_t *, size_t, size_t, size_t, uint32_t);
void rust_float(float *, size_t, const int32_t *, size_t, size_t, size_t, uint32_t, const int32_t *, size_t);

typedef long long pair __attribute__((vector_size(16), aligned(1), may_alias));
typedef char bytes __attribute__((vector_size(16)));

void *memcpy(void *to, const void *from, size_t n) {
    char *a = to;
    const char *b = from;
    for (; n >= 16; a += 16, b += 16, n -= 16) *(pair *)a = *(pair *)b;
    for (; n; n--) {
        *a++ = *b++;
        __asm__ volatile("" ::: "memory");
    }
    return to;
}

void *memset(void *to, int value, size_t n) {
    char *a = to, c = (char)value;
    bytes v = {c, c, c, c, c, c, c, c, c, c, c, c, c, c, c, c};
    for (; n >= 16; a += 16, n -= 16) *(pair *)a = (pair)v;
    for (; n; n--) {
        *a++ = c;
        __asm__ volatile("" ::: "memory");
    }
    return to;
}

static int32_t coeff[1024], plane[4096], pred[4096];
static float out[4096];

DRIVER static long call(long number, long a, long b, long c) {
    long r;
    __asm__ volatile("syscall" : "=a"(r) : "0"(number), "D"(a), "S"(b), "d"(c) : "rcx", "r11", "memory");
    return r;
}

DRIVER static void finish(int code) {
    for (;;) call(60, code, 0, 0);
}

DRIVER static size_t number(const char *s) {
    size_t v = 0;
    while (*s) v = v * 10 + (size_t)(*s++ - '0');
    return v;
}

DRIVER static long nanoseconds(void) {
    long t[2];
    call(228, 1, (long)t, 0);
    return t[0] * 1000000000 + t[1];
}

/* One call; what it runs outside this section is counted. */
DRIVER static uint32_t one(size_t form, size_t txtp, size_t tx, size_t n, size_t cells, uint32_t bd) {
    switch (form) {
    case 0: rust_add(plane, 4096, 64, coeff, n, txtp, tx, bd); return 0;
    case 1: return panel_inv_txfm_add(plane, 4096, 64, coeff, n, txtp, tx, bd).number;
    case 2: return panel_inv_txfm_add_lanes(plane, 4096, 64, coeff, n, txtp, tx, bd).number;
    case 3: return panel_inv_txfm_add_lanes8(plane, 4096, 64, coeff, n, txtp, tx, bd).number;
    case 4: return panel_inv_txfm_add_fast(plane, 4096, 64, coeff, n, txtp, tx, bd).number;
    case 5: rust_float(out, cells, coeff, n, txtp, tx, bd, pred, cells); return 0;
    case 6: return panel_inv_txfm_recon_f32(out, cells, coeff, n, txtp, tx, bd, pred, cells).number;
    case 7: return panel_inv_txfm_recon_f32_lanes(out, cells, coeff, n, txtp, tx, bd, pred, cells).number;
    case 8: return panel_inv_txfm_recon_f32_lanes8(out, cells, coeff, n, txtp, tx, bd, pred, cells).number;
    default: return panel_inv_txfm_recon_f32_fast(out, cells, coeff, n, txtp, tx, bd, pred, cells).number;
    }
}

DRIVER static void line(long v) {
    char text[24];
    int at = 24;
    text[--at] = '\n';
    do text[--at] = (char)('0' + v % 10); while (v /= 10);
    call(1, 1, (long)(text + at), 24 - at);
}

DRIVER void begin(long *stack) {
    char **argv = (char **)(stack + 1);
    if (stack[0] != 9) finish(2);
    size_t form = number(argv[1]), tx = number(argv[2]), txtp = number(argv[3]), w = number(argv[4]), h = number(argv[5]);
    size_t live = number(argv[6]), depth = number(argv[7]), rounds = number(argv[8]);
    size_t sw = w < 32 ? w : 32, sh = h < 32 ? h : 32, n = sw * sh;
    uint32_t seed = 1;
    for (size_t i = 0; i < n; i++) {
        size_t r = i % sh, x = i / sh;
        seed = seed * 1103515245 + 12345;
        int32_t v = (int32_t)((seed >> 16) % 2001) - 1000;
        coeff[i] = !live || (r < 4 && x < 4 && (live == 2 || !r || !x)) ? v : 0;
    }
    for (size_t i = 0; i < 4096; i++) plane[i] = pred[i] = i & ((1 << depth) - 1);
    long best = 0;
    if (!rounds && one(form, txtp, tx, n, w * h, (uint32_t)depth)) finish(3);
    for (size_t k = 0; k < rounds; k++) {
        long start = nanoseconds();
        for (int i = 0; i < 100; i++) one(form, txtp, tx, n, w * h, (uint32_t)depth);
        long took = nanoseconds() - start;
        if (!k || took < best) best = took;
    }
    line(best);
    call(1, 1, form < 5 ? (long)plane : (long)out, 4096 * 4);
    finish(0);
}

__asm__(".section .driver,\"ax\"\n.globl _start\n_start: mov %rsp,%rdi\n and $-16,%rsp\n call begin\n");
