/* The calls of panel.h on planes of bytes: the sums of document 01, each refusal of each call, and guards. Each plane ends where
   a page ends that nothing may touch, and begins after bytes that have to stay. What is expected is the text of documents 01 and
   02, never an answer of the library. The last line is 'N passed, N failed'. */
#include "panel.h"
#include <sys/mman.h>

int printf(const char *format, ...);

typedef panel_answer add_call(uint8_t *, size_t, size_t, const int32_t *, size_t, size_t, size_t, uint32_t);
typedef panel_answer block_call(uint32_t, uint8_t *, size_t, size_t, size_t, size_t, size_t, const int32_t *, size_t);

/* A page of bytes, with a page behind it that can't be read or written. */
#define PAGE ((size_t)4096)
static uint8_t *page;
static uint8_t before[PAGE];
static int32_t numbers[1040];
static int passed, failed;

static void expect(int ok, const char *call, const char *what) {
    if (ok) {
        passed++;
    } else {
        failed++;
        printf("failed: %s: %s\n", call, what);
    }
}

static int is(panel_answer a, uint32_t number, uint32_t slice, size_t place) {
    return a.number == number && a.slice == slice && a.place == place;
}

/* The whole page, so that one comparison shows what a call left alone: the plane, and the guards before it. */
static void keep(void) {
    for (size_t i = 0; i < PAGE; i++) before[i] = page[i];
}

static int same(void) {
    for (size_t i = 0; i < PAGE; i++)
        if (page[i] != before[i]) return 0;
    return 1;
}

/* Bytes of 100, guards of 165, numbers of 0. The plane is the last `count` bytes of the page. */
static uint8_t *fresh(size_t count) {
    for (size_t i = 0; i < PAGE; i++) page[i] = i < PAGE - count ? 165 : 100;
    for (size_t i = 0; i < 1040; i++) numbers[i] = 0;
    keep();
    return page + PAGE - count;
}

/* ---- The add calls */

static const struct form {
    const char *name;
    add_call *call;
    int rows;
} forms[] = {
    {"panel_inv_txfm_add_bytes", panel_inv_txfm_add_bytes, 0},
    {"panel_inv_txfm_add_bytes_lanes", panel_inv_txfm_add_bytes_lanes, 0},
    {"panel_inv_txfm_add_bytes_fast", panel_inv_txfm_add_bytes_fast, 0},
    {"panel_inv_txfm_add_rows_bytes", panel_inv_txfm_add_rows_bytes, 1},
    {"panel_inv_txfm_add_rows_bytes_lanes", panel_inv_txfm_add_rows_bytes_lanes, 1},
    {"panel_inv_txfm_add_rows_bytes_fast", panel_inv_txfm_add_rows_bytes_fast, 1},
};

/* One coefficient by its row and column: the pixels are `rest`, but for the first `count` of row `row`. */
static const struct sum {
    const char *name;
    size_t tx, w, h, txtp, r, x;
    int32_t value, rest;
    size_t row, count;
    int32_t first[4];
} sums[] = {
    {"P1", 0, 4, 4, 0, 0, 0, 15, 101, 0, 0, {0}},
    {"P2", 0, 4, 4, 0, 0, 0, 14, 100, 0, 0, {0}},
    {"P3", 0, 4, 4, 0, 0, 0, -18, 99, 0, 0, {0}},
    {"P4", 0, 4, 4, 0, 0, 0, -17, 100, 0, 0, {0}},
    {"P5", 19, 4, 32, 0, 0, 0, 256, 103, 0, 0, {0}},
    {"P6", 0, 4, 4, 34, 0, 0, 128, 100, 0, 4, {102, 106, 109, 111}},
    {"P7", 0, 4, 4, 35, 0, 1, 128, 100, 0, 4, {109, 98, 89, 94}},
    {"P8", 5, 4, 8, 33, 1, 0, 256, 100, 1, 1, {132}},
    {"as dark as can be", 0, 4, 4, 0, 0, 0, -32768, 0, 0, 0, {0}},
    {"as light as can be", 0, 4, 4, 0, 0, 0, 32767, 255, 0, 0, {0}},
};

/* A plane three wider than the block, whose last row ends with the block. */
static void try_sum(const struct form *f, const struct sum *s) {
    size_t stride = s->w + 3, reach = (s->h - 1) * stride + s->w;
    uint8_t *plane = fresh(reach);
    numbers[f->rows ? s->r * s->w + s->x : s->r + s->x * s->h] = s->value;
    for (size_t i = s->w * s->h; i < s->w * s->h + 5; i++) numbers[i] = 2147483647;
    for (size_t r = 0; r < s->h; r++)
        for (size_t x = 0; x < s->w; x++)
            before[PAGE - reach + r * stride + x] = (uint8_t)(r == s->row && x < s->count ? s->first[x] : s->rest);
    panel_answer a = f->call(plane, reach, stride, numbers, s->w * s->h + 5, s->txtp, s->tx, 8);
    expect(is(a, 0, 0, 0) && same(), f->name, s->name);
}

/* Size 5, 4x8, at stride 9: every length is the shortest that is taken. */
struct arguments {
    size_t plane_len, stride, coeff_len, txtp, tx;
    uint32_t depth;
};

static const struct arguments usual = {67, 9, 32, 0, 5, 8};

static void refuse(const struct form *f, struct arguments a, size_t at, int32_t value, uint32_t number, uint32_t slice, size_t place,
                   const char *what) {
    uint8_t *plane = fresh(a.plane_len);
    numbers[at] = value;
    panel_answer answer = f->call(plane, a.plane_len, a.stride, numbers, a.coeff_len, a.txtp, a.tx, a.depth);
    expect(is(answer, number, slice, place) && same(), f->name, what);
}

static void add_refusals(const struct form *f) {
    struct arguments a;
#define WITH(field, value, number, slice, place, what) \
    a = usual, a.field = value, refuse(f, a, 0, 0, number, slice, place, what)
    for (uint32_t depth = 0; depth < 20; depth++)
        if (depth != 8) WITH(depth, depth, 1, 0, 0, "a depth other than 8");
    WITH(tx, 25, 2, 0, 0, "size 25");
    const size_t wide[] = {4, 11, 12, 17, 18, 21, 22, 23, 24};
    for (size_t i = 0; i < sizeof wide / sizeof *wide; i++) {
        WITH(tx, wide[i], 11, 0, 0, "a side of 64");
        a.txtp = 256;
        refuse(f, a, 0, 0, 11, 0, 0, "a side of 64 before a type");
        a.depth = 9;
        refuse(f, a, 0, 0, 1, 0, 0, "a depth before a side of 64");
    }
    WITH(txtp, 256, 3, 0, 0, "type 256");
    WITH(txtp, 4, 4, 0, 0, "a DDT along 4");
    WITH(txtp, 192, 4, 0, 1, "vertical kind 6");
    WITH(stride, 3, 5, 0, 0, "stride 3");
    WITH(stride, 65537, 5, 0, 0, "stride 65,537");
    WITH(coeff_len, 31, 6, 1, 0, "31 coefficients");
    WITH(plane_len, 66, 6, 2, 0, "a plane of 66");
    a.coeff_len = 31;
    refuse(f, a, 0, 0, 6, 1, 0, "both short");
#undef WITH
    refuse(f, usual, 3, 32768, 7, 1, 3, "a coefficient of 32,768");
    refuse(f, usual, 31, -32769, 7, 1, 31, "a coefficient of -32,769");
    refuse(f, usual, 0, 0, 0, 0, 0, "coefficients of 0");
    expect(is(f->call(NULL, 0, 9, NULL, 0, 0, 5, 8), 6, 1, 0), f->name, "null pointers");
}

/* ---- Lossless steps */

/* P10 to P12: the residuals and their levels. */
static const struct pair {
    const char *name;
    int32_t resid[16], level[16];
} pairs[] = {
    {"P10", {1, 2, 3, 4}, {3, -1, 0, 0, 2, -1, 0, -1, 2, -1, 0, -1, 2, -1, 0, -1}},
    {"P11", {-1}, {0, 0, 0, 0, 0, -1, -1, -1, 0, -1, -1, -1, 0, -1, -1, -1}},
    {"P12", {1, 1, 1, 1, 1, 1, 1, 1, 1, 1, 1, 1, 1, 1, 1, 1}, {4}},
};

/* A block at row 1, column 2 of stride 8 and width 6: columns 6 and 7 are pad. The plane ends with the block. */
static const struct block {
    uint32_t depth;
    size_t plane_len, stride, width, row, column, level_len;
} block = {8, 38, 8, 6, 1, 2, 16};

static panel_answer gain(block_call *call, uint8_t *plane, struct block b) {
    return call(b.depth, plane, b.plane_len, b.stride, b.width, b.row, b.column, numbers, b.level_len);
}

static void leave(block_call *call, const char *name, struct block b, size_t at, int32_t value, uint32_t number, uint32_t slice,
                  size_t place, const char *what) {
    uint8_t *plane = fresh(b.plane_len);
    numbers[at] = value;
    panel_answer a = gain(call, plane, b);
    expect(is(a, number, slice, place) && same(), name, what);
}

/* A step by the levels of known residuals, then its undo. */
static void there_and_back(const struct pair *p) {
    uint8_t *plane = fresh(block.plane_len);
    for (int i = 0; i < 16; i++) numbers[i] = p->level[i];
    for (size_t r = 0; r < 4; r++)
        for (size_t x = 0; x < 4; x++) before[PAGE - 38 + 8 * (1 + r) + 2 + x] = (uint8_t)(100 + p->resid[4 * r + x]);
    expect(is(gain(panel_lossless_step_bytes, plane, block), 0, 0, 0) && same(), "panel_lossless_step_bytes", p->name);
    for (size_t i = PAGE - 38; i < PAGE; i++) before[i] = 100;
    expect(is(gain(panel_lossless_undo_bytes, plane, block), 0, 0, 0) && same(), "panel_lossless_undo_bytes", p->name);
}

/* A byte at the end of its range, which sixteen residuals of 1 would take out of it: refused, and every byte stays. */
static void at_the_end(block_call *call, const char *name, uint8_t end) {
    uint8_t *plane = fresh(38);
    plane[21] = plane[37] = end;
    numbers[0] = 4;
    keep();
    expect(is(gain(call, plane, block), 10, 2, 21) && same(), name, "a byte that would leave its range");
}

static void block_refusals(block_call *call, const char *name) {
    struct block b;
#define WITH(field, value, number, slice, place, what) b = block, b.field = value, leave(call, name, b, 0, 0, number, slice, place, what)
    for (uint32_t depth = 0; depth < 20; depth++)
        if (depth != 8) WITH(depth, depth, 1, 0, 0, "a depth other than 8");
    WITH(stride, 3, 5, 0, 0, "stride 3");
    WITH(stride, 65537, 5, 0, 0, "stride 65,537");
    WITH(width, 3, 5, 0, 0, "width 3");
    WITH(width, 9, 5, 0, 0, "width 9");
    WITH(plane_len, 37, 6, 2, 0, "a plane of 37");
    WITH(row, 65536, 6, 2, 0, "row 65,536");
    WITH(column, 3, 6, 2, 0, "column 3");
    WITH(column, (size_t)-4, 6, 2, 0, "a column that wraps");
    WITH(level_len, 15, 6, 1, 0, "fifteen levels");
    WITH(level_len, 17, 6, 1, 0, "seventeen levels");
    WITH(depth, 8, 0, 0, 0, "sixteen zero levels");
#undef WITH
    leave(call, name, block, 2, 262145, 7, 1, 2, "a level of 262,145");
    leave(call, name, block, 15, -262145, 7, 1, 15, "a level of -262,145");
    expect(is(call(8, NULL, 0, 8, 8, 1, 4, numbers, 16), 6, 2, 0), name, "a null plane");
    expect(is(call(8, page, 40, 8, 8, 1, 4, NULL, 0), 6, 1, 0), name, "null levels");
}

int main(void) {
    page = mmap(NULL, 2 * PAGE, PROT_READ | PROT_WRITE, MAP_PRIVATE | MAP_ANONYMOUS, -1, 0);
    expect(page != MAP_FAILED && mprotect(page + PAGE, PAGE, PROT_NONE) == 0, "mmap", "a page and its guard");
    if (failed) return 1;
    for (size_t f = 0; f < sizeof forms / sizeof *forms; f++) {
        for (size_t s = 0; s < sizeof sums / sizeof *sums; s++) try_sum(&forms[f], &sums[s]);
        add_refusals(&forms[f]);
    }
    for (size_t p = 0; p < sizeof pairs / sizeof *pairs; p++) there_and_back(&pairs[p]);
    block_refusals(panel_lossless_step_bytes, "panel_lossless_step_bytes");
    block_refusals(panel_lossless_undo_bytes, "panel_lossless_undo_bytes");
    at_the_end(panel_lossless_step_bytes, "panel_lossless_step_bytes", 255);
    at_the_end(panel_lossless_undo_bytes, "panel_lossless_undo_bytes", 0);
    printf("%d passed, %d failed\n", passed, failed);
    return failed != 0;
}
