/* Portable SHA-256 in C, as RFC 6234 writes it: a schedule of 64 words, and a loop of 64 rounds. */
#include "tables.inc"

static void blocks_loop(uint32_t s[8], const uint8_t *data, size_t count) {
    for (; count; count--, data += 64) {
        uint32_t w[64];
        for (int t = 0; t < 16; t++) w[t] = WORD(data + 4 * t);
        for (int t = 16; t < 64; t++) w[t] = SSIG1(w[t - 2]) + w[t - 7] + SSIG0(w[t - 15]) + w[t - 16];
        uint32_t a = s[0], b = s[1], c = s[2], d = s[3], e = s[4], f = s[5], g = s[6], h = s[7];
        for (int t = 0; t < 64; t++) {
            uint32_t t1 = h + BSIG1(e) + CH(e, f, g) + K[t] + w[t];
            uint32_t t2 = BSIG0(a) + MAJ(a, b, c);
            h = g; g = f; f = e; e = d + t1; d = c; c = b; b = a; a = t1 + t2;
        }
        s[0] += a; s[1] += b; s[2] += c; s[3] += d; s[4] += e; s[5] += f; s[6] += g; s[7] += h;
    }
}

#define BLOCKS blocks_loop
#define DIGEST digest_loop
#define HMAC_NAME c_loop_hmac
#include "sha256_c.inc"
