/* Portable SHA-256 in C, unrolled: 16 words of the schedule at a time, and the working variables renamed and not moved. */
#include "tables.inc"

#define ROUND(a, b, c, d, e, f, g, h, k, w) \
    do { \
        uint32_t t1 = h + BSIG1(e) + CH(e, f, g) + (k) + (w); \
        d += t1; \
        h = t1 + BSIG0(a) + MAJ(a, b, c); \
    } while (0)
#define NEXT(i) (w[i] += SSIG1(w[((i) + 14) & 15]) + w[((i) + 9) & 15] + SSIG0(w[((i) + 1) & 15]))
#define EIGHT(W, t, i) \
    ROUND(a, b, c, d, e, f, g, h, K[(t) + (i)], W(i)); \
    ROUND(h, a, b, c, d, e, f, g, K[(t) + (i) + 1], W((i) + 1)); \
    ROUND(g, h, a, b, c, d, e, f, K[(t) + (i) + 2], W((i) + 2)); \
    ROUND(f, g, h, a, b, c, d, e, K[(t) + (i) + 3], W((i) + 3)); \
    ROUND(e, f, g, h, a, b, c, d, K[(t) + (i) + 4], W((i) + 4)); \
    ROUND(d, e, f, g, h, a, b, c, K[(t) + (i) + 5], W((i) + 5)); \
    ROUND(c, d, e, f, g, h, a, b, K[(t) + (i) + 6], W((i) + 6)); \
    ROUND(b, c, d, e, f, g, h, a, K[(t) + (i) + 7], W((i) + 7))
#define GIVEN(i) w[i]

static void blocks_unrolled(uint32_t s[8], const uint8_t *data, size_t count) {
    for (; count; count--, data += 64) {
        uint32_t w[16];
        for (int t = 0; t < 16; t++) w[t] = WORD(data + 4 * t);
        uint32_t a = s[0], b = s[1], c = s[2], d = s[3], e = s[4], f = s[5], g = s[6], h = s[7];
        EIGHT(GIVEN, 0, 0);
        EIGHT(GIVEN, 0, 8);
        for (int t = 16; t < 64; t += 16) {
            EIGHT(NEXT, t, 0);
            EIGHT(NEXT, t, 8);
        }
        s[0] += a; s[1] += b; s[2] += c; s[3] += d; s[4] += e; s[5] += f; s[6] += g; s[7] += h;
    }
}

#define BLOCKS blocks_unrolled
#define DIGEST digest_unrolled
#define HMAC_NAME c_unrolled_hmac
#include "sha256_c.inc"
