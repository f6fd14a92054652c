/* For every sine s and cosine c with 0 <= s <= c <= 256: a pair u, v with the largest drift |65,536 u'' - (s^2 + c^2) u|. Prints a line
 * "s c u v" for each. Called by tools/drift, which computes the drift of each pair by the rule.
 *
 * With a = u c - v s and b = u s + v c, rounded to p and q, and w = p c + q s, rounded to u'', the drift is 256 e + f c + g s, where
 * e = 256 u'' - w, f = 256 p - a, g = 256 q - b. The errors f and g are known from u and v modulo 256. With u = x + 256 i and v = y + 256 j,
 * w is that of the pair x, y and i (s^2 + c^2) more; j cancels. So 65,536 pairs x, y tell everything: e takes every number from -128 to 128
 * that is as -w modulo the largest power of two, 256 at most, in s^2 + c^2. At a half the error is 128 or -128, by the sign of what is
 * rounded: both are tried, and a drift counts only with a pair that has it. */
#include <stdio.h>
#include <stdlib.h>

/* A drift, the pair modulo 256 that has it, and what it is made of. */
struct candidate {
    int drift, x, y, p, q, e;
};

/* z modulo a power of two */
static int modulo(int z, int m) { return z & (m - 1); }

/* the largest power of two, 256 at most, that divides n */
static int two_in(int n) { return n % 256 == 0 ? 256 : n & -n; }

/* z / 256, halves away from zero */
static int rounded(int z) { return z < 0 ? -((128 - z) / 256) : (z + 128) / 256; }

/* 0, -1, 1, -2, 2, .. */
static int by_size(int k) { return k % 2 ? -(k + 1) / 2 : k / 2; }

static long long drift(int s, int c, int u, int v)
{
    int p = rounded(u * c - v * s), q = rounded(u * s + v * c);
    return 65536LL * rounded(p * c + q * s) - (long long)(s * s + c * c) * u;
}

/* Whether some pair of size 2^17 at most has the candidate's drift; then that pair. */
static int has_pair(int s, int c, struct candidate d, int *u, int *v)
{
    int w = d.p * c + d.q * s;
    for (int k = 0; k < 1024; k++) {
        int i = by_size(k);
        for (int m = 0; m < 512 && modulo(w + i * (s * s + c * c) + d.e, 256) == 0; m++) {
            int tried_u = d.x + 256 * i, tried_v = d.y + 256 * by_size(m);
            if (drift(s, c, tried_u, tried_v) == d.drift) {
                *u = tried_u;
                *v = tried_v;
                return 1;
            }
        }
    }
    return 0;
}

static void search(int s, int c)
{
    int largest = -1, u = 0, v = 0, step = two_in(s * s + c * c);
    for (int x = 0; x < 256; x++) {
        for (int y = 0; y < 256; y++) {
            int a = x * c - y * s, b = x * s + y * c;
            int low_p = (a + 127) >> 8, low_q = (b + 127) >> 8;
            int high_p = (a + 128) >> 8, high_q = (b + 128) >> 8;
            for (int p = low_p; p <= high_p; p++) {
                for (int q = low_q; q <= high_q; q++) {
                    int w = p * c + q * s;
                    int ends[2] = {-128 + modulo(128 - w, step), 128 - modulo(128 + w, step)};
                    for (int k = 0; k < 2; k++) {
                        int sum = 256 * ends[k] + (256 * p - a) * c + (256 * q - b) * s;
                        struct candidate d = {sum, x, y, p, q, ends[k]};
                        if (abs(sum) > largest && has_pair(s, c, d, &u, &v))
                            largest = abs(sum);
                    }
                }
            }
        }
    }
    printf("%d %d %d %d\n", s, c, u, v);
}

int main(void)
{
    for (int c = 0; c <= 256; c++)
        for (int s = 0; s <= c; s++)
            search(s, c);
    return 0;
}
