/* X25519 by the algorithm of crates/field25519 and crates/x25519: five digits of 51 bits, two runs of carries, one swap a
   step, and the same chain for the inverse. */
#include <stdint.h>
#include <string.h>

typedef unsigned __int128 wide;
typedef struct { uint64_t v[5]; } element;

#define MASK ((UINT64_C(1) << 51) - 1)

static inline element carry(wide p, wide q, wide r, wide s, wide t) {
    s += (uint64_t)(r >> 51);
    q += (uint64_t)(p >> 51);
    t += (uint64_t)(s >> 51);
    uint64_t c = ((uint64_t)r & MASK) + (uint64_t)(q >> 51);
    uint64_t a = ((uint64_t)p & MASK) + 19 * (uint64_t)(t >> 51);
    element out = {{a & MASK, ((uint64_t)q & MASK) + (a >> 51), c & MASK, ((uint64_t)s & MASK) + (c >> 51), (uint64_t)t & MASK}};
    return out;
}

static inline element multiply(element x, element y) {
    const uint64_t *a = x.v, *b = y.v;
    uint64_t b1 = 19 * b[1], b2 = 19 * b[2], b3 = 19 * b[3], b4 = 19 * b[4];
    wide p = (wide)a[0] * b[0] + (wide)a[1] * b4 + (wide)a[2] * b3 + (wide)a[3] * b2 + (wide)a[4] * b1;
    wide q = (wide)a[0] * b[1] + (wide)a[1] * b[0] + (wide)a[2] * b4 + (wide)a[3] * b3 + (wide)a[4] * b2;
    wide r = (wide)a[0] * b[2] + (wide)a[1] * b[1] + (wide)a[2] * b[0] + (wide)a[3] * b4 + (wide)a[4] * b3;
    wide s = (wide)a[0] * b[3] + (wide)a[1] * b[2] + (wide)a[2] * b[1] + (wide)a[3] * b[0] + (wide)a[4] * b4;
    wide t = (wide)a[0] * b[4] + (wide)a[1] * b[3] + (wide)a[2] * b[2] + (wide)a[3] * b[1] + (wide)a[4] * b[0];
    return carry(p, q, r, s, t);
}

static inline element square(element x) {
    const uint64_t *a = x.v;
    uint64_t a0 = 2 * a[0], a1 = 2 * a[1], a2 = 2 * a[2], a3 = 2 * a[3], d = 19 * a[3], e = 19 * a[4];
    wide p = (wide)a[0] * a[0] + (wide)a1 * e + (wide)a2 * d;
    wide q = (wide)a0 * a[1] + (wide)a2 * e + (wide)a[3] * d;
    wide r = (wide)a0 * a[2] + (wide)a[1] * a[1] + (wide)a3 * e;
    wide s = (wide)a0 * a[3] + (wide)a1 * a[2] + (wide)a[4] * e;
    wide t = (wide)a0 * a[4] + (wide)a1 * a[3] + (wide)a[2] * a[2];
    return carry(p, q, r, s, t);
}

static inline element scale(element x, uint64_t k) {
    const uint64_t *a = x.v;
    return carry((wide)a[0] * k, (wide)a[1] * k, (wide)a[2] * k, (wide)a[3] * k, (wide)a[4] * k);
}

static inline element add(element x, element y) {
    element out;
    for (int i = 0; i < 5; i++) out.v[i] = x.v[i] + y.v[i];
    return out;
}

static inline element subtract(element x, element y) {
    element out;
    out.v[0] = x.v[0] + UINT64_C(4503599627370458) - y.v[0];
    for (int i = 1; i < 5; i++) out.v[i] = x.v[i] + UINT64_C(4503599627370494) - y.v[i];
    return out;
}

static inline void swap(uint64_t bit, element *x, element *y) {
    for (int i = 0; i < 5; i++) {
        uint64_t change = (0 - bit) & (x->v[i] ^ y->v[i]);
        x->v[i] ^= change;
        y->v[i] ^= change;
    }
}

static element square_times(element x, int times) {
    for (int i = 0; i < times; i++) x = square(x);
    return x;
}

static element invert(element z) {
    element z2 = square(z), z9 = multiply(z, square_times(z2, 2)), z11 = multiply(z2, z9);
    element five = multiply(z9, square(z11)), ten = multiply(square_times(five, 5), five);
    element twenty = multiply(square_times(ten, 10), ten), forty = multiply(square_times(twenty, 20), twenty);
    element fifty = multiply(square_times(forty, 10), ten), hundred = multiply(square_times(fifty, 50), fifty);
    element two_hundred = multiply(square_times(hundred, 100), hundred);
    element most = multiply(square_times(two_hundred, 50), fifty);
    return multiply(square_times(most, 5), z11);
}

void x25519_same(uint8_t out[32], const uint8_t scalar[32], const uint8_t point[32]) {
    uint64_t k[4], w[4], last = 0;
    memcpy(k, scalar, 32);
    memcpy(w, point, 32);
    k[0] &= ~UINT64_C(7);
    k[3] = (k[3] & ((UINT64_C(1) << 62) - 1)) | (UINT64_C(1) << 62);
    element u = {{w[0] & MASK, (w[0] >> 51 | w[1] << 13) & MASK, (w[1] >> 38 | w[2] << 26) & MASK,
                  (w[2] >> 25 | w[3] << 39) & MASK, w[3] >> 12 & MASK}};
    element x2 = {{1}}, z2 = {{0}}, x3 = u, z3 = {{1}};
    for (int i = 254; i >= 0; i--) {
        uint64_t bit = k[i >> 6] >> (i & 63) & 1;
        swap(last ^ bit, &x2, &x3);
        swap(last ^ bit, &z2, &z3);
        last = bit;
        element a = add(x2, z2), aa = square(a), b = subtract(x2, z2), bb = square(b), e = subtract(aa, bb);
        element c = add(x3, z3), d = subtract(x3, z3), da = multiply(d, a), cb = multiply(c, b);
        x2 = multiply(aa, bb);
        z2 = multiply(e, add(aa, scale(e, 121665)));
        x3 = square(add(da, cb));
        z3 = multiply(u, square(subtract(da, cb)));
    }
    swap(last, &x2, &x3);
    swap(last, &z2, &z3);
    element ratio = multiply(x2, invert(z2));
    uint64_t *v = ratio.v, over = (v[0] + 19) >> 51;
    for (int i = 1; i < 5; i++) over = (v[i] + over) >> 51;
    v[0] += 19 * over;
    for (int i = 1; i < 5; i++) v[i] += v[i - 1] >> 51;
    for (int i = 0; i < 5; i++) v[i] &= MASK;
    uint64_t words[4] = {v[0] | v[1] << 51, v[1] >> 13 | v[2] << 38, v[2] >> 26 | v[3] << 25, v[3] >> 39 | v[4] << 12};
    memcpy(out, words, 32);
}
