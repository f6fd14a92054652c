/* The calls of panel.h from C: the sums of document 01, each refusal of each call with its slice, null pointers with
   count 0, the longest plane; and the sentences of panel_words.h. What is expected is the text of documents 01 and 02, never
   an answer of the library. The last line is 'N passed, N failed'. */
#include "panel.h"
#include "panel_words.h"
#include <sys/mman.h>

int printf(const char *format, ...);
int memcmp(const void *a, const void *b, size_t count);
int strcmp(const char *a, const char *b);
int seen_from_cplusplus(void);

_Static_assert(sizeof(panel_answer) == 16, "an answer comes back in two registers");

typedef panel_answer add_call(int32_t *, size_t, size_t, const int32_t *, size_t, size_t, size_t, uint32_t);
typedef panel_answer float_call(float *, size_t, const int32_t *, size_t, size_t, size_t, uint32_t, const int32_t *, size_t);
typedef panel_answer wht_call(const int32_t *, size_t, int32_t *, size_t);
typedef panel_answer block_call(uint32_t, int32_t *, size_t, size_t, size_t, size_t, size_t, const int32_t *, size_t);

/* Everything that is lent, in one place, so that one comparison shows that a refused call left all of it alone. */
static struct lent {
    int32_t plane[4608], coeff[1032], pred[4104], u[8], v[8], from[20], to[20];
    float out[4104];
} now, before;

static int passed, failed;

static void expect(int ok, const char *call, const char *what) {
    if (ok) {
        passed++;
    } else {
        failed++;
        printf("failed: %s: %s\n", call, what);
    }
}

static void fill(int32_t *list, size_t count, int32_t value) {
    for (size_t i = 0; i < count; i++) list[i] = value;
}

/* Samples of 100, coefficients and levels of 0, pairs of 0, an output that no pixel equals. */
static void fresh(void) {
    fill(now.plane, 4608, 100);
    fill(now.coeff, 1032, 0);
    fill(now.pred, 4104, 100);
    fill(now.u, 8, 0);
    fill(now.v, 8, 0);
    fill(now.from, 20, 0);
    fill(now.to, 20, 77);
    for (size_t i = 0; i < 4104; i++) now.out[i] = -1.0f;
}

static int same(void) { return memcmp(&now, &before, sizeof now) == 0; }

static int is(panel_answer a, uint32_t number, uint32_t slice, size_t place) {
    return a.number == number && a.slice == slice && a.place == place;
}

static int done(panel_answer a) { return is(a, 0, 0, 0); }

/* ---- The pixel calls */

struct pixel_arguments {
    size_t coeff_len, txtp, tx, stride, plane_len, pred_len, out_len;
    uint32_t depth;
};

static const struct pixel_form {
    const char *name;
    add_call *add;
    float_call *floats;
    int clamps, rows;
} forms[] = {
#define ADD(name, clamps, rows) {#name, name, NULL, clamps, rows}
#define RECON(name, clamps, rows) {#name, NULL, name, clamps, rows}
    ADD(panel_inv_txfm_add, 0, 0),
    ADD(panel_inv_txfm_add_lanes, 0, 0),
    ADD(panel_inv_txfm_add_lanes8, 0, 0),
    ADD(panel_inv_txfm_add_fast, 0, 0),
    ADD(panel_inv_txfm_add_rows, 0, 1),
    ADD(panel_inv_txfm_add_rows_lanes, 0, 1),
    ADD(panel_inv_txfm_add_rows_lanes8, 0, 1),
    ADD(panel_inv_txfm_add_rows_fast, 0, 1),
    ADD(panel_inv_txfm_add_clamped, 1, 0),
    ADD(panel_inv_txfm_add_clamped_lanes, 1, 0),
    RECON(panel_inv_txfm_recon_f32, 0, 0),
    RECON(panel_inv_txfm_recon_f32_lanes, 0, 0),
    RECON(panel_inv_txfm_recon_f32_lanes8, 0, 0),
    RECON(panel_inv_txfm_recon_f32_fast, 0, 0),
    RECON(panel_inv_txfm_recon_f32_rows, 0, 1),
    RECON(panel_inv_txfm_recon_f32_rows_lanes, 0, 1),
    RECON(panel_inv_txfm_recon_f32_rows_lanes8, 0, 1),
    RECON(panel_inv_txfm_recon_f32_rows_fast, 0, 1),
    RECON(panel_inv_txfm_recon_f32_clamped, 1, 0),
    RECON(panel_inv_txfm_recon_f32_clamped_lanes, 1, 0),
#undef ADD
#undef RECON
};

static panel_answer pixels(const struct pixel_form *f, struct pixel_arguments a) {
    if (f->add) return f->add(now.plane, a.plane_len, a.stride, now.coeff, a.coeff_len, a.txtp, a.tx, a.depth);
    return f->floats(now.out, a.out_len, now.coeff, a.coeff_len, a.txtp, a.tx, a.depth, now.pred, a.pred_len);
}

/* Depth 8, prediction 100, one coefficient: the pixels are `rest`, but for the first `count` of row `row`. */
static const struct sum {
    const char *name;
    size_t tx, w, h, txtp, r, x; /* the coefficient's row and column */
    int32_t value, rest;
    size_t row, count;
    int32_t first[4];
} sums[] = {
    {"P1", 0, 4, 4, 0, 0, 0, 15, 101, 0, 0, {0}},
    {"P2", 0, 4, 4, 0, 0, 0, 14, 100, 0, 0, {0}},
    {"P3", 0, 4, 4, 0, 0, 0, -18, 99, 0, 0, {0}},
    {"P4", 0, 4, 4, 0, 0, 0, -17, 100, 0, 0, {0}},
    {"P5", 19, 4, 32, 0, 0, 0, 256, 103, 0, 0, {0}},
    {"P6", 0, 4, 4, 34, 0, 0, 128, 100, 0, 4, {102, 106, 109, 111}},
    {"P7", 0, 4, 4, 35, 0, 1, 128, 100, 0, 4, {109, 98, 89, 94}},
    {"P8", 5, 4, 8, 33, 1, 0, 256, 100, 1, 1, {132}},
    {"64x64, number 0 = 64", 4, 64, 64, 0, 0, 0, 64, 101, 0, 0, {0}},
    {"64x64, number 0 = 63", 4, 64, 64, 0, 0, 0, 63, 100, 0, 0, {0}},
};

/* A plane three wider than the block, and numbers beyond those used, which no sample may be: neither read nor written. */
static void try_sum(const struct pixel_form *f, const struct sum *s) {
    const int32_t pad = -12345;
    size_t cells = s->w * s->h, stride = s->w + 3, reach = (s->h - 1) * stride + s->w;
    size_t sw = s->w < 32 ? s->w : 32, sh = s->h < 32 ? s->h : 32, used = sw * sh;
    struct pixel_arguments a = {used + 5, s->txtp, s->tx, stride, reach + 5, cells + 5, cells + 5, 8};
    fresh();
    fill(now.plane, reach + 5, pad);
    fill(now.pred + cells, 5, pad);
    fill(now.coeff + used, 5, 2147483647);
    for (size_t r = 0; r < s->h; r++) fill(now.plane + r * stride, s->w, 100);
    now.coeff[f->rows ? s->r * sw + s->x : s->r + s->x * sh] = s->value;
    before = now;
    for (size_t r = 0; r < s->h; r++) {
        for (size_t x = 0; x < s->w; x++) {
            int32_t pixel = r == s->row && x < s->count ? s->first[x] : s->rest;
            if (f->add) before.plane[r * stride + x] = pixel;
            if (f->floats) before.out[r * s->w + x] = (float)pixel;
        }
    }
    panel_answer answer = pixels(f, a);
    expect(done(answer) && same(), f->name, s->name);
}

/* Size 5, 4x8, has the rectangular scaling; every length is the shortest that is taken. */
static const struct pixel_arguments usual = {32, 0, 5, 9, 67, 32, 32, 8};

static void refuse(const struct pixel_form *f, struct pixel_arguments a, uint32_t number, uint32_t slice, size_t place,
                   const char *what) {
    before = now;
    panel_answer answer = pixels(f, a);
    expect(is(answer, number, slice, place) && same(), f->name, what);
    fresh();
}

/* Size 0: document 01 has 2,147,483,647 for a clamping call; document 02, section 5, has the ends of each depth for the others. */
static void coefficient_ends(const struct pixel_form *f) {
    struct pixel_arguments a = usual;
    a.tx = 0;
    for (a.depth = 8; a.depth <= 12; a.depth++) {
        const int32_t end = 128 << a.depth;
        now.coeff[0] = f->clamps ? 2147483647 : end - 1;
        now.coeff[15] = f->clamps ? -2147483647 - 1 : -end;
        expect(done(pixels(f, a)), f->name, "size 0 takes both ends of the range");
        fresh();
        if (f->clamps) continue;
        now.coeff[7] = end;
        refuse(f, a, 7, 1, 7, "size 0, a coefficient above the range");
        now.coeff[15] = -end - 1;
        refuse(f, a, 7, 1, 15, "size 0, a coefficient below the range");
    }
}

static void pixel_refusals(const struct pixel_form *f) {
    const int32_t low = f->clamps ? -11864550 : -32768, high = f->clamps ? 11864549 : 32767;
    struct pixel_arguments a;
    fresh();
#define WITH(field, value, number, slice, place, what) a = usual, a.field = value, refuse(f, a, number, slice, place, what)
    WITH(depth, 7, 1, 0, 0, "depth 7");
    WITH(depth, 13, 1, 0, 0, "depth 13");
    WITH(tx, 25, 2, 0, 0, "size 25");
    WITH(txtp, 256, 3, 0, 0, "type 256");
    WITH(txtp, 4, 4, 0, 0, "a DDT along 4");
    WITH(txtp, 192, 4, 0, 1, "vertical kind 6");
    WITH(txtp, 228, 4, 0, 0, "neither kind is there");
    WITH(coeff_len, 31, 6, 1, 0, "31 coefficients");
    if (f->add) {
        WITH(stride, 3, 5, 0, 0, "stride 3");
        WITH(stride, 65537, 5, 0, 0, "stride 65,537");
        WITH(plane_len, 66, 6, 2, 0, "a plane of 66");
    } else {
        WITH(pred_len, 31, 6, 2, 0, "a prediction of 31");
        WITH(out_len, 31, 6, 3, 0, "an output of 31");
    }
    a = usual;
    a.plane_len = 66, a.pred_len = a.out_len = 31;
    refuse(f, a, 6, 2, 0, "all but the coefficients short");
    a.coeff_len = 31;
    refuse(f, a, 6, 1, 0, "all buffers short");
    a = usual;
    now.coeff[3] = high + 1;
    refuse(f, a, 7, 1, 3, "a coefficient above the range");
    now.coeff[30] = low - 1;
    now.coeff[31] = high + 1;
    refuse(f, a, 7, 1, 30, "a coefficient below the range");
    now.plane[19] = now.pred[19] = 256;
    now.plane[20] = now.pred[20] = -1;
    refuse(f, a, 8, 2, 19, "a sample of 256");
    now.plane[66] = now.pred[31] = -1;
    refuse(f, a, 8, 2, f->add ? 66 : 31, "a last sample of -1");
    now.coeff[31] = high + 1;
    now.plane[0] = now.pred[0] = 256;
    refuse(f, a, 7, 1, 31, "a coefficient before a sample");
    a.depth = 7;
    a.tx = 25;
    refuse(f, a, 1, 0, 0, "a depth before a size");
#undef WITH
    a = usual;
    now.coeff[0] = high, now.coeff[31] = low;
    expect(done(pixels(f, a)), f->name, "size 5 takes both ends of the range");
    fresh();
    coefficient_ends(f);
    panel_answer nothing = f->add ? f->add(NULL, 0, 9, NULL, 0, 0, 5, 8) : f->floats(NULL, 0, NULL, 0, 0, 5, 8, NULL, 0);
    expect(is(nothing, 6, 1, 0), f->name, "null pointers");
}

/* ---- Chroma */

static void chroma(size_t u_len, size_t v_len, int32_t sine, int32_t cosine, uint32_t depth, uint32_t number, uint32_t slice,
                   size_t place, const char *what) {
    before = now;
    panel_answer answer = panel_cctx(now.u, u_len, now.v, v_len, sine, cosine, depth);
    expect(is(answer, number, slice, place) && same(), "panel_cctx", what);
    fresh();
}

static void chroma_calls(void) {
    const int32_t u[4] = {128, -128, 127, -127}, turned[4] = {1, -1, 0, 0};
    fresh();
    for (int i = 0; i < 4; i++) now.u[i] = u[i];
    before = now;
    for (int i = 0; i < 4; i++) before.u[i] = turned[i];
    panel_answer answer = panel_cctx(now.u, 4, now.v, 4, 0, 1, 8);
    expect(done(answer) && same(), "panel_cctx", "P9");
    /* sin 256, cos 0: u' = -v, v' = u. */
    fresh();
    now.u[0] = 5, now.v[0] = 7;
    before = now;
    before.u[0] = -7, before.v[0] = 5;
    answer = panel_cctx(now.u, 1, now.v, 1, 256, 0, 8);
    expect(done(answer) && same(), "panel_cctx", "a quarter turn");
    fresh();
    chroma(4, 4, 0, 1, 7, 1, 0, 0, "depth 7");
    chroma(4, 4, 0, 1, 13, 1, 0, 0, "depth 13");
    chroma(3, 4, 0, 1, 8, 6, 4, 0, "one u too few");
    chroma(4, 3, 0, 1, 8, 6, 5, 0, "one v too few");
    chroma(0, 4, 0, 1, 8, 6, 4, 0, "no u");
    chroma(4, 0, 0, 1, 8, 6, 5, 0, "no v");
    now.u[2] = 32768;
    chroma(4, 4, 0, 1, 8, 7, 4, 2, "u of 32,768");
    now.u[3] = 32768, now.v[1] = -32769;
    chroma(4, 4, 0, 1, 8, 7, 5, 1, "v of -32,769");
    now.u[2] = -32769, now.v[2] = 32768;
    chroma(4, 4, 0, 1, 8, 7, 4, 2, "both of a pair");
    now.v[0] = 32768, now.u[1] = 32768;
    chroma(4, 4, 0, 1, 8, 7, 5, 0, "v in pair 0, u in pair 1");
    chroma(4, 4, -257, 257, 8, 9, 0, 0, "sine -257");
    chroma(4, 4, 256, 257, 8, 9, 0, 1, "cosine 257");
    chroma(0, 0, 0, 1, 8, 0, 0, 0, "no pairs");
    expect(done(panel_cctx(NULL, 0, NULL, 0, 0, 1, 8)), "panel_cctx", "null pointers");
}

/* ---- Walsh-Hadamard */

/* P10 to P12: the residuals and their levels. */
static const struct pair {
    const char *name;
    int32_t resid[16], level[16];
} pairs[] = {
    {"P10", {1, 2, 3, 4}, {3, -1, 0, 0, 2, -1, 0, -1, 2, -1, 0, -1, 2, -1, 0, -1}},
    {"P11", {-1}, {0, 0, 0, 0, 0, -1, -1, -1, 0, -1, -1, -1, 0, -1, -1, -1}},
    {"P12", {1, 1, 1, 1, 1, 1, 1, 1, 1, 1, 1, 1, 1, 1, 1, 1}, {4}},
};

static void load(int32_t *to, const int32_t *from) {
    for (int i = 0; i < 16; i++) to[i] = from[i];
}

static void turn(wht_call *call, const char *name, size_t from, size_t to, uint32_t number, uint32_t slice, size_t place,
                 const char *what) {
    before = now;
    panel_answer answer = call(now.from, from, now.to, to);
    expect(is(answer, number, slice, place) && same(), name, what);
    fresh();
}

static void wht_refusals(wht_call *call, const char *name, int32_t end) {
    fresh();
    turn(call, name, 15, 16, 6, 1, 0, "fifteen numbers read");
    turn(call, name, 17, 16, 6, 1, 0, "seventeen numbers read");
    turn(call, name, 16, 15, 6, 3, 0, "fifteen numbers written");
    turn(call, name, 16, 17, 6, 3, 0, "seventeen numbers written");
    turn(call, name, 17, 15, 6, 1, 0, "seventeen read, fifteen written");
    now.from[2] = end + 1, now.from[3] = -end - 1;
    turn(call, name, 16, 16, 7, 1, 2, "a number above the range");
    now.from[15] = -end - 1;
    turn(call, name, 16, 16, 7, 1, 15, "a number below the range");
    fill(now.from, 16, end);
    expect(done(call(now.from, 16, now.to, 16)), name, "the end of the range");
    expect(is(call(NULL, 0, NULL, 0), 6, 1, 0), name, "null pointers");
}

static void wht_sums(const struct pair *p) {
    fresh();
    load(now.from, p->resid);
    before = now;
    load(before.to, p->level);
    panel_answer answer = panel_fwht4x4(now.from, 16, now.to, 16);
    expect(done(answer) && same(), "panel_fwht4x4", p->name);
    fresh();
    load(now.from, p->level);
    before = now;
    load(before.to, p->resid);
    answer = panel_iwht4x4(now.from, 16, now.to, 16);
    expect(done(answer) && same(), "panel_iwht4x4", p->name);
}

/* ---- Lossless steps */

struct block_arguments {
    uint32_t depth;
    size_t plane_len, stride, width, row, column, level_len;
};

/* A block at row 1, column 4 of a plane of stride and width 8, which reaches no further. */
static const struct block_arguments block = {8, 40, 8, 8, 1, 4, 16};

static panel_answer gain(block_call *call, struct block_arguments a) {
    return call(a.depth, now.plane, a.plane_len, a.stride, a.width, a.row, a.column, now.from, a.level_len);
}

static void leave(block_call *call, const char *name, struct block_arguments a, uint32_t number, uint32_t slice, size_t place,
                  const char *what) {
    before = now;
    panel_answer answer = gain(call, a);
    expect(is(answer, number, slice, place) && same(), name, what);
    fresh();
}

static void block_refusals(block_call *call, const char *name, int32_t edge) {
    struct block_arguments a;
    fresh();
#define WITH(field, value, number, slice, place, what) a = block, a.field = value, leave(call, name, a, number, slice, place, what)
    WITH(depth, 7, 1, 0, 0, "depth 7");
    WITH(depth, 13, 1, 0, 0, "depth 13");
    WITH(stride, 3, 5, 0, 0, "stride 3");
    WITH(stride, 65537, 5, 0, 0, "stride 65,537");
    WITH(width, 3, 5, 0, 0, "width 3");
    WITH(width, 9, 5, 0, 0, "width 9");
    WITH(width, 7, 6, 2, 0, "width 7");
    WITH(plane_len, 39, 6, 2, 0, "a plane of 39");
    WITH(row, 65536, 6, 2, 0, "row 65,536");
    WITH(column, 5, 6, 2, 0, "column 5");
    WITH(column, (size_t)-4, 6, 2, 0, "a column that wraps");
    WITH(level_len, 15, 6, 1, 0, "fifteen levels");
    WITH(level_len, 17, 6, 1, 0, "seventeen levels");
    a.plane_len = 39;
    leave(call, name, a, 6, 1, 0, "seventeen levels and a plane of 39");
    WITH(depth, 8, 0, 0, 0, "sixteen zero levels");
#undef WITH
    a = block;
    now.from[2] = 262145, now.from[3] = -262145;
    leave(call, name, a, 7, 1, 2, "a level of 262,145");
    now.from[15] = -262145;
    leave(call, name, a, 7, 1, 15, "a level of -262,145");
    now.plane[20] = 256, now.plane[21] = -1;
    leave(call, name, a, 8, 2, 20, "a sample of 256");
    now.plane[39] = -1;
    leave(call, name, a, 8, 2, 39, "a last sample of -1");
    now.from[0] = 4, now.plane[22] = edge, now.plane[39] = edge;
    leave(call, name, a, 10, 2, 22, "a sample that would leave");
    now.plane[11] = -1, now.plane[16] = 999, now.plane[40] = -1;
    leave(call, name, a, 0, 0, 0, "bad samples outside the block");
    expect(is(call(8, NULL, 0, 8, 8, 1, 4, now.from, 16), 6, 2, 0), name, "a null plane");
    expect(is(call(8, now.plane, 40, 8, 8, 1, 4, NULL, 0), 6, 1, 0), name, "null levels");
}

/* A step by the levels of known residuals, then its undo, with the same arguments. */
static void block_sums(const struct pair *p) {
    struct lent start;
    fresh();
    load(now.from, p->level);
    start = before = now;
    for (int r = 0; r < 4; r++)
        for (int x = 0; x < 4; x++) before.plane[(1 + r) * 8 + 4 + x] += p->resid[r * 4 + x];
    panel_answer answer = gain(panel_lossless_step, block);
    expect(done(answer) && same(), "panel_lossless_step", p->name);
    before = start;
    answer = gain(panel_lossless_undo, block);
    expect(done(answer) && same(), "panel_lossless_undo", p->name);
}

/* Width 6 at stride 8: column 2 fits and column 3 doesn't, and what stands in the pad is neither read nor written (P12). */
static void narrow(block_call *call, const char *name, int32_t gained) {
    struct block_arguments a = {8, 64, 8, 6, 2, 2, 16};
    fresh();
    for (size_t r = 0; r < 8; r++) fill(now.plane + r * 8 + 6, 2, -12345);
    now.from[0] = 4;
    before = now;
    a.column = 3;
    panel_answer answer = gain(call, a);
    expect(is(answer, 6, 2, 0) && same(), name, "width 6, column 3");
    for (size_t r = 2; r < 6; r++) fill(before.plane + r * 8 + 2, 4, 100 + gained);
    a.column = 2;
    answer = gain(call, a);
    expect(done(answer) && same(), name, "width 6, column 2");
}

/* ---- Histories */

/* A plane of 8 by 8 samples and the memory of its history; `was` is what is expected. */
static struct kept {
    int32_t plane[64];
    uint32_t steps[PANEL_HISTORY_STEPS + 1];
    int32_t levels[PANEL_HISTORY_LEVELS + 1];
    uint32_t index[5];
} kept, was;

static const struct kept_arguments {
    uint32_t depth, number;
    size_t plane_len, stride, width, rows, row, column, level_len, steps_len, levels_len, index_len;
} kept_usual = {8, 1, 64, 8, 8, 8, 0, 0, 16, PANEL_HISTORY_STEPS, PANEL_HISTORY_LEVELS, PANEL_HISTORY_INDEX(8, 8)};

static const int32_t one_up[16] = {4}; /* P12: sixteen residuals of 1 */

static panel_answer kept_step(struct kept_arguments a) {
    return panel_history_step(a.depth, kept.plane, a.plane_len, a.stride, a.width, a.rows, a.row, a.column, one_up, a.level_len,
                              kept.steps, a.steps_len, kept.levels, a.levels_len, kept.index, a.index_len);
}

static panel_answer kept_undo(struct kept_arguments a) {
    return panel_history_undo(kept.plane, a.plane_len, a.stride, a.width, a.rows, kept.steps, a.steps_len, kept.levels,
                              a.levels_len, kept.index, a.index_len);
}

static panel_answer kept_withdraw(struct kept_arguments a) {
    return panel_history_withdraw(kept.plane, a.plane_len, a.stride, a.width, a.rows, a.number, kept.steps, a.steps_len,
                                  kept.levels, a.levels_len, kept.index, a.index_len);
}

static panel_answer kept_can_withdraw(struct kept_arguments a) {
    return panel_history_can_withdraw(kept.plane, a.plane_len, a.stride, a.width, a.rows, a.number, kept.steps, a.steps_len,
                                      kept.levels, a.levels_len, kept.index, a.index_len);
}

static panel_answer kept_rebuild(struct kept_arguments a) {
    return panel_history_rebuild(kept.plane, a.plane_len, a.stride, a.width, a.rows, kept.steps, a.steps_len, kept.levels,
                                 a.levels_len, kept.index, a.index_len);
}

static panel_answer kept_fold(struct kept_arguments a) {
    return panel_history_fold(kept.plane, a.plane_len, a.stride, a.width, a.rows, kept.steps, a.steps_len, kept.levels,
                              a.levels_len, kept.index, a.index_len);
}

typedef panel_answer kept_call(struct kept_arguments);

static void expect_kept(panel_answer answer, uint32_t number, uint32_t slice, size_t place, const char *what) {
    expect(is(answer, number, slice, place) && memcmp(&kept, &was, sizeof kept) == 0, "histories", what);
    kept = was;
}

static void forget(void) {
    static const struct kept none;
    kept = none;
    fill(kept.plane, 64, 100);
    was = kept;
}

/* What a step or its undo is expected to leave of the plane. */
static void expect_block(size_t row, size_t column, int32_t gained) {
    for (size_t r = row; r < row + 4; r++)
        for (size_t x = column; x < column + 4; x++) was.plane[8 * r + x] += gained;
}

static void expect_entry(size_t i, uint32_t number, uint32_t row, uint32_t column) {
    const uint32_t words[4] = {number, 8, row, column};
    for (int k = 0; k < 4; k++) was.steps[1 + 4 * i + k] = words[k];
    was.levels[16 * i] = 4;
}

static void expect_index(uint32_t a, uint32_t b, uint32_t c, uint32_t d) {
    was.index[0] = a, was.index[1] = b, was.index[2] = c, was.index[3] = d;
}

/* Steps at 0,0 and 2,2 share a sample; one at 4,0 shares none with the first. */
static void kept_session(void) {
    struct kept_arguments a = kept_usual;
    forget();
    expect_block(0, 0, 1), expect_entry(0, 1, 0, 0), expect_index(1, 0, 0, 0), was.steps[0] = 1;
    expect_kept(kept_step(a), 0, 0, 0, "the first step");
    a.row = a.column = 2;
    expect_block(2, 2, 1), expect_entry(1, 2, 2, 2), expect_index(2, 2, 2, 2), was.steps[0] = 2;
    expect_kept(kept_step(a), 0, 0, 0, "a step over it");
    expect_kept(kept_can_withdraw(a), 13, 0, 1, "an overlapped step, asked");
    expect_kept(kept_withdraw(a), 13, 0, 1, "an overlapped step, withdrawn");
    a.number = 7;
    expect_kept(kept_withdraw(a), 13, 0, 7, "a step that doesn't remain");
    expect_block(2, 2, -1), expect_index(1, 0, 0, 0), was.steps[0] = 1;
    expect_kept(kept_undo(a), 0, 0, 0, "the newest undone");
    a.row = 4, a.column = 0;
    expect_block(4, 0, 1), expect_entry(1, 2, 4, 0), expect_index(1, 0, 2, 0), was.steps[0] = 2;
    expect_kept(kept_step(a), 0, 0, 0, "a step beside it");
    a.number = 1;
    expect_kept(kept_can_withdraw(a), 0, 0, 0, "a free step, asked");
    expect_block(0, 0, -1), expect_entry(0, 2, 4, 0), expect_index(0, 0, 2, 0), was.steps[0] = 1;
    expect_kept(kept_withdraw(a), 0, 0, 0, "a step out of the middle");
    a.row = a.column = 0;
    expect_block(0, 0, 1), expect_entry(1, 3, 0, 0), expect_index(3, 0, 2, 0), was.steps[0] = 2;
    expect_kept(kept_step(a), 0, 0, 0, "a number above the largest");
    kept.index[0] = kept.index[1] = kept.index[2] = kept.index[3] = 9;
    expect_kept(kept_rebuild(a), 0, 0, 0, "a rebuild");
    expect_block(0, 0, -1), expect_index(0, 0, 2, 0), was.steps[0] = 1;
    expect_kept(kept_undo(a), 0, 0, 0, "an undo");
    expect_block(4, 0, -1), expect_index(0, 0, 0, 0), was.steps[0] = 0;
    expect_kept(kept_undo(a), 0, 0, 0, "the last undo");
    expect_kept(kept_undo(a), 13, 0, 0, "nothing to undo");
}

/* Two steps on one block with one beside between them: their levels are 4 and `level`, in a list that begins at number 3. */
static void two_on_a_block(int32_t level) {
    forget();
    expect_entry(0, 3, 0, 0), expect_entry(1, 5, 4, 4), expect_entry(2, 9, 0, 0);
    was.levels[32] = level;
    was.steps[0] = 3;
    kept = was;
}

static void kept_folds(void) {
    struct kept_arguments a = kept_usual;
    forget();
    expect_kept(kept_fold(a), 0, 0, 0, "nothing folded");
    two_on_a_block(4);
    expect_entry(0, 1, 0, 0), expect_entry(1, 2, 4, 4), expect_index(1, 0, 0, 2), was.steps[0] = 2, was.levels[0] = 8;
    expect_kept(kept_fold(a), 0, 0, 0, "a pair folded");
    expect_kept(kept_fold(a), 0, 0, 0, "folded again");
    two_on_a_block(-4);
    expect_entry(0, 1, 4, 4), expect_index(0, 0, 0, 1), was.steps[0] = 1;
    expect_kept(kept_fold(a), 0, 0, 0, "a pair that sums to zero");
    two_on_a_block(4 * 254);
    expect_entry(0, 1, 0, 0), expect_entry(1, 2, 4, 4), expect_index(1, 0, 0, 2), was.steps[0] = 2, was.levels[0] = 4 * 255;
    expect_kept(kept_fold(a), 0, 0, 0, "a sum of 255");
    two_on_a_block(4 * 255);
    expect_kept(kept_fold(a), 12, 0, 0, "a sum of 256");
}

static void kept_refusals(void) {
    kept_call *const calls[] = {kept_step, kept_undo, kept_withdraw, kept_can_withdraw, kept_rebuild, kept_fold};
    struct kept_arguments a;
    forget();
#define WITH(field, value, number, slice, what) \
    a = kept_usual, a.field = value, expect_kept(calls[k](a), number, slice, 0, what)
    for (size_t k = 0; k < sizeof calls / sizeof *calls; k++) {
        WITH(stride, 3, 5, 0, "stride 3");
        WITH(stride, 65537, 5, 0, "stride 65,537");
        WITH(width, 3, 5, 0, "width 3");
        WITH(width, 9, 5, 0, "width 9");
        WITH(rows, 3, 5, 0, "3 rows");
        WITH(rows, 65537, 5, 0, "65,537 rows");
        WITH(steps_len, PANEL_HISTORY_STEPS - 1, 12, 0, "a short list of steps");
        WITH(steps_len, PANEL_HISTORY_STEPS + 1, 12, 0, "a long list of steps");
        WITH(levels_len, PANEL_HISTORY_LEVELS - 1, 12, 0, "a short list of levels");
        WITH(levels_len, PANEL_HISTORY_LEVELS + 1, 12, 0, "a long list of levels");
        WITH(index_len, 3, 12, 0, "a short index");
        WITH(index_len, 5, 12, 0, "a long index");
        was.steps[0] = kept.steps[0] = 4097;
        WITH(depth, 8, 12, 0, "a count of 4,097");
        forget();
        expect_entry(0, 0, 0, 0), was.steps[0] = 1, kept = was;
        WITH(depth, 8, 12, 0, "a step of number 0");
        expect_entry(0, 1, 5, 0), kept = was;
        WITH(depth, 8, 12, 0, "a step below the rows");
        forget();
    }
    size_t k = 0;
    WITH(depth, 7, 1, 0, "depth 7");
    WITH(depth, 13, 1, 0, "depth 13");
    WITH(level_len, 15, 6, 1, "fifteen levels");
    WITH(row, 5, 6, 2, "row 5");
    WITH(column, 5, 6, 2, "column 5");
    WITH(plane_len, 27, 6, 2, "a plane of 27");
    expect_entry(0, 0xffffffffu, 0, 0), was.steps[0] = 1, kept = was;
    WITH(depth, 8, 14, 0, "the last number");
    forget();
    was.steps[0] = 4096;
    for (uint32_t i = 0; i < 4096; i++) expect_entry(i, i + 1, 4, 4);
    kept = was;
    WITH(depth, 8, 14, 0, "4,096 steps");
#undef WITH
}

/* ---- The older edition */

/* The inverse DCT of a list whose number `index` is 4096 and the others 0: the turned number, by hand. */
static const struct older_sum {
    size_t n, index;
    int32_t result[4];
} older_sums[] = {
    {4, 0, {2896, 2896, 2896, 2896}},
    {4, 1, {3784, 1567, -1567, -3784}},
    {4, 2, {2896, -2896, -2896, 2896}},
    {4, 3, {1567, -3784, 3784, -1567}},
};

static void older(size_t n, uint32_t bits, size_t len, uint32_t number, uint32_t slice, size_t place, const char *what) {
    before = now;
    panel_answer answer = panel_av1_inv_dct(n, bits, now.coeff, len);
    expect(is(answer, number, slice, place) && same(), "panel_av1_inv_dct", what);
    fresh();
}

static void older_wht(uint32_t bits, size_t len, uint32_t number, uint32_t slice, size_t place, const char *what) {
    before = now;
    panel_answer answer = panel_av1_inv_wht4x4(bits, now.coeff, len);
    expect(is(answer, number, slice, place) && same(), "panel_av1_inv_wht4x4", what);
    fresh();
}

static void older_calls(void) {
    const size_t lengths[5] = {4, 8, 16, 32, 64};
    panel_answer answer;
    for (size_t s = 0; s < sizeof older_sums / sizeof *older_sums; s++) {
        fresh();
        now.coeff[older_sums[s].index] = 4096;
        before = now;
        for (size_t i = 0; i < 4; i++) before.coeff[i] = older_sums[s].result[i];
        answer = panel_av1_inv_dct(older_sums[s].n, 16, now.coeff, older_sums[s].n);
        expect(done(answer) && same(), "panel_av1_inv_dct", "4096 at one place of four");
    }
    for (size_t i = 0; i < 5; i++) {
        fresh();
        now.coeff[0] = 4096;
        before = now;
        fill(before.coeff, lengths[i], 2896);
        answer = panel_av1_inv_dct(lengths[i], 20, now.coeff, lengths[i]);
        expect(done(answer) && same(), "panel_av1_inv_dct", "4096 at place 0");
        fresh();
        older(lengths[i], 16, lengths[i] - 1, 6, 1, 0, "one number too few");
        older(lengths[i], 16, lengths[i] + 1, 6, 1, 0, "one number too many");
        older(lengths[i], 15, lengths[i], 1, 0, 0, "bits 15");
        older(lengths[i], 21, lengths[i], 1, 0, 0, "bits 21");
    }
    older(12, 16, 12, 2, 0, 0, "length 12");
    older(0, 16, 0, 2, 0, 0, "length 0");
    now.coeff[3] = 32768;
    older(4, 16, 4, 15, 0, 3, "an input of 32,768 at 16 bits");
    now.coeff[0] = now.coeff[2] = 32767;
    older(4, 16, 4, 15, 0, 4, "a sum that leaves 16 bits");
    for (size_t p = 0; p < sizeof pairs / sizeof *pairs; p++) {
        fresh();
        for (int i = 0; i < 16; i++) now.coeff[i] = 4 * pairs[p].level[i];
        before = now;
        load(before.coeff, pairs[p].resid);
        answer = panel_av1_inv_wht4x4(16, now.coeff, 16);
        expect(done(answer) && same(), "panel_av1_inv_wht4x4", pairs[p].name);
    }
    fresh();
    older_wht(15, 16, 1, 0, 0, "bits 15");
    older_wht(21, 16, 1, 0, 0, "bits 21");
    older_wht(16, 15, 6, 1, 0, "fifteen numbers");
    older_wht(16, 17, 6, 1, 0, "seventeen numbers");
    now.coeff[9] = -32769;
    older_wht(16, 16, 15, 0, 9, "an input of -32,769 at 16 bits");
    expect(is(panel_av1_inv_dct(4, 16, NULL, 0), 6, 1, 0), "panel_av1_inv_dct", "null pointer");
    expect(is(panel_av1_inv_wht4x4(16, NULL, 0), 6, 1, 0), "panel_av1_inv_wht4x4", "null pointer");
}

/* ---- The longest plane */

/* Rows 65,535 and 65,536 of a plane of stride 65,536 need 16 GiB: a mapping of which only the pages that are touched exist. */
#define STRIDE ((size_t)65536)
#define REACH ((size_t)4295163904) /* what a block at row 65,535, column 65,532 reaches: 65,539 strides */
#define BYTES ((REACH + STRIDE) * sizeof(int32_t))

/* Whether the sixteen samples of a block are all of one value. */
static int shows(const int32_t *plane, size_t stride, size_t row, size_t column, int32_t value) {
    for (size_t r = 0; r < 4; r++)
        for (size_t x = 0; x < 4; x++)
            if (plane[(row + r) * stride + column + x] != value) return 0;
    return 1;
}

/* Sixteen residuals of 1 (P12), so that a block of zeros becomes one of ones; the undo takes it back. */
static void last_rows(int32_t *plane) {
    const int32_t ones[16] = {4};
    const char *step = "panel_lossless_step", *undo = "panel_lossless_undo";
    size_t last = STRIDE - 4;
    panel_answer answer = panel_lossless_step(8, plane, REACH - 1, STRIDE, STRIDE, 65535, last, ones, 16);
    expect(is(answer, 6, 2, 0) && shows(plane, STRIDE, 65535, last, 0), step, "row 65,535, one sample short");
    answer = panel_lossless_step(8, plane, REACH, STRIDE, STRIDE, 65535, last, ones, 16);
    expect(done(answer) && shows(plane, STRIDE, 65535, last, 1), step, "row 65,535");
    expect(plane[REACH - 5] == 0 && plane[REACH] == 0, step, "beside row 65,535");
    answer = panel_lossless_undo(8, plane, REACH - 1, STRIDE, STRIDE, 65535, last, ones, 16);
    expect(is(answer, 6, 2, 0) && shows(plane, STRIDE, 65535, last, 1), undo, "row 65,535, one sample short");
    answer = panel_lossless_undo(8, plane, REACH, STRIDE, STRIDE, 65535, last, ones, 16);
    expect(done(answer) && shows(plane, STRIDE, 65535, last, 0), undo, "row 65,535");
    answer = panel_lossless_step(8, plane, REACH + STRIDE, STRIDE, STRIDE, 65536, 0, ones, 16);
    expect(is(answer, 6, 2, 0) && shows(plane, STRIDE, 65536, 0, 0), step, "row 65,536, which the plane reaches");
    answer = panel_lossless_undo(8, plane, REACH + STRIDE, STRIDE, STRIDE, 65536, 0, ones, 16);
    expect(is(answer, 6, 2, 0) && shows(plane, STRIDE, 65536, 0, 0), undo, "row 65,536, which the plane reaches");
    answer = panel_lossless_step(8, plane, REACH, STRIDE + 1, STRIDE, 0, 0, ones, 16);
    expect(is(answer, 5, 0, 0) && shows(plane, STRIDE + 1, 0, 0, 0), step, "stride 65,537");
}

/* P1 on samples of 0, at the widest stride. */
static void widest_stride(add_call *call, const char *name, int32_t *plane) {
    const int32_t coeff[16] = {15};
    size_t reach = 3 * STRIDE + 4;
    panel_answer answer = call(plane, reach - 1, STRIDE, coeff, 16, 0, 0, 8);
    expect(is(answer, 6, 2, 0) && shows(plane, STRIDE, 0, 0, 0), name, "stride 65,536, one sample short");
    answer = call(plane, REACH, STRIDE + 1, coeff, 16, 0, 0, 8);
    expect(is(answer, 5, 0, 0) && shows(plane, STRIDE + 1, 0, 0, 0), name, "stride 65,537");
    answer = call(plane, reach, STRIDE, coeff, 16, 0, 0, 8);
    expect(done(answer) && shows(plane, STRIDE, 0, 0, 1), name, "stride 65,536");
    expect(plane[4] == 0 && plane[STRIDE - 1] == 0 && plane[reach] == 0, name, "beside stride 65,536");
    for (size_t r = 0; r < 4; r++) fill(plane + r * STRIDE, 4, 0);
}

static void longest_plane(void) {
    int32_t *plane = mmap(NULL, BYTES, PROT_READ | PROT_WRITE, MAP_PRIVATE | MAP_ANONYMOUS | MAP_NORESERVE, -1, 0);
    expect(plane != MAP_FAILED, "mmap", "room for the longest plane");
    if (plane == MAP_FAILED) return;
    last_rows(plane);
    for (size_t f = 0; f < sizeof forms / sizeof *forms; f++)
        if (forms[f].add) widest_stride(forms[f].add, forms[f].name, plane);
    munmap(plane, BYTES);
}

/* ---- Words */

typedef const char *words(uint32_t);

/* Numbers up to the last known one have sentences of their own, all different; the others share one. */
static void sentences(words *of, const char *name, uint32_t last) {
    const char *other = of(last + 1);
    expect(other[0] != 0 && strcmp(of(0xffffffffu), other) == 0, name, "the largest number");
    for (uint32_t n = 0; n <= 20; n++) {
        int ok = of(n)[0] != 0 && (strcmp(of(n), other) == 0) == (n > last);
        for (uint32_t m = 0; m < n && n <= last; m++) ok = ok && strcmp(of(m), of(n)) != 0;
        expect(ok, name, of(n));
    }
}

int main(void) {
    for (size_t f = 0; f < sizeof forms / sizeof *forms; f++) {
        for (size_t s = 0; s < sizeof sums / sizeof *sums; s++) try_sum(&forms[f], &sums[s]);
        pixel_refusals(&forms[f]);
    }
    chroma_calls();
    for (size_t p = 0; p < sizeof pairs / sizeof *pairs; p++) {
        wht_sums(&pairs[p]);
        block_sums(&pairs[p]);
    }
    wht_refusals(panel_fwht4x4, "panel_fwht4x4", 65535);
    wht_refusals(panel_iwht4x4, "panel_iwht4x4", 262144);
    block_refusals(panel_lossless_step, "panel_lossless_step", 255);
    block_refusals(panel_lossless_undo, "panel_lossless_undo", 0);
    narrow(panel_lossless_step, "panel_lossless_step", 1);
    narrow(panel_lossless_undo, "panel_lossless_undo", -1);
    kept_session();
    kept_refusals();
    kept_folds();
    older_calls();
    longest_plane();
    sentences(panel_refusal_words, "panel_refusal_words", 15);
    sentences(panel_slice_words, "panel_slice_words", 5);
    expect(seen_from_cplusplus(), "panel_cctx", "from C++");
    printf("%d passed, %d failed\n", passed, failed);
    return failed != 0;
}
