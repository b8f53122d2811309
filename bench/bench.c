/* Times of one key-chain step, a walk, a chain and a tag, for each implementation, and of one Ed25519 verification. */
#define _GNU_SOURCE
#define OPENSSL_SUPPRESS_DEPRECATED
#include <openssl/evp.h>
#include <openssl/hmac.h>
#include <openssl/sha.h>
#include <stdint.h>
#include <stdio.h>
#include <stdlib.h>
#include <string.h>
#include <time.h>

typedef void hmac_fn(const uint8_t *key, size_t key_len, const uint8_t *text, size_t len, uint8_t out[32]);

hmac_fn sha256_hmac; /* Rattle, of the crate sha256_c: `out` has to lie apart from the key and the text */
hmac_fn c_loop_hmac, c_unrolled_hmac, rust_hmac;

/* HMAC over OpenSSL's SHA256_Init, _Update and _Final, for keys of at most 64 bytes */
static void openssl_low(const uint8_t *key, size_t key_len, const uint8_t *text, size_t len, uint8_t out[32]) {
    uint8_t block[64] = {0}, pad[64], inner[32];
    SHA256_CTX c;
    memcpy(block, key, key_len);
    for (int i = 0; i < 64; i++) pad[i] = block[i] ^ 0x36;
    SHA256_Init(&c);
    SHA256_Update(&c, pad, 64);
    SHA256_Update(&c, text, len);
    SHA256_Final(inner, &c);
    for (int i = 0; i < 64; i++) pad[i] = block[i] ^ 0x5c;
    SHA256_Init(&c);
    SHA256_Update(&c, pad, 64);
    SHA256_Update(&c, inner, 32);
    SHA256_Final(out, &c);
}

/* OpenSSL's one-shot HMAC() */
static void openssl_oneshot(const uint8_t *key, size_t key_len, const uint8_t *text, size_t len, uint8_t out[32]) {
    unsigned n = 32;
    HMAC(EVP_sha256(), key, (int)key_len, text, len, out, &n);
}

/* processor time of this process, so that others on the machine count less */
static double now(void) {
    struct timespec t;
    clock_gettime(CLOCK_PROCESS_CPUTIME_ID, &t);
    return t.tv_sec + 1e-9 * t.tv_nsec;
}

enum { STEPS = 1024, CHAIN = 16384, ROUNDS = 25 };
static uint8_t chain[CHAIN + 1][32];

static void step(hmac_fn *f, const uint8_t key[32], uint8_t out[32]) {
    static const uint8_t one[1] = {1};
    f(key, 32, one, 1, out);
}

static void tag(hmac_fn *f, const uint8_t key[32], const uint8_t text[205], uint8_t out[32]) {
    static const uint8_t two[1] = {2};
    uint8_t mac_key[32];
    f(key, 32, two, 1, mac_key);
    f(mac_key, 32, text, 205, out);
}

static double run_step(hmac_fn *f) {
    uint8_t k[2][32] = {{7}};
    double t = now();
    for (int i = 0; i < 2000; i++) step(f, k[i % 2], k[(i + 1) % 2]);
    return (now() - t) / 2000;
}

static double run_walk(hmac_fn *f) {
    uint8_t k[2][32] = {{7}};
    double t = now();
    for (int i = 0; i < STEPS; i++) step(f, k[i % 2], k[(i + 1) % 2]);
    return now() - t;
}

/* every key is kept; the buffer was cleared, so its pages are there */
static double run_chain(hmac_fn *f) {
    memset(chain, 0, sizeof chain);
    double t = now();
    for (int i = CHAIN; i > 0; i--) step(f, chain[i], chain[i - 1]);
    return now() - t;
}

static double run_tag(hmac_fn *f) {
    uint8_t k[32] = {7}, text[205] = {1}, out[32];
    double t = now();
    for (int i = 0; i < 1000; i++) {
        tag(f, k, text, out);
        memcpy(text, out, 16);
    }
    return (now() - t) / 1000;
}

static EVP_PKEY *pkey;
static uint8_t sig[64], msg[205];

static double run_ed25519(hmac_fn *f) {
    (void)f;
    int n = 100;
    double t = now();
    for (int i = 0; i < n; i++) {
        EVP_MD_CTX *m = EVP_MD_CTX_new();
        if (EVP_DigestVerifyInit(m, NULL, NULL, NULL, pkey) != 1 || EVP_DigestVerify(m, sig, 64, msg, 205) != 1) exit(3);
        EVP_MD_CTX_free(m);
    }
    return (now() - t) / n;
}

static int by_size(const void *a, const void *b) {
    double x = *(const double *)a, y = *(const double *)b;
    return x < y ? -1 : x > y;
}

int main(int argc, char **argv) {
    const char *label = argc > 1 ? argv[1] : "";
    struct { const char *name; hmac_fn *f; } who[] = {
        {"Rattle (proved)", sha256_hmac},
        {"C, loop", c_loop_hmac},
        {"C, unrolled", c_unrolled_hmac},
        {"Rust", rust_hmac},
        {"OpenSSL SHA256_*", openssl_low},
        {"OpenSSL HMAC()", openssl_oneshot},
    };
    enum { N = sizeof who / sizeof who[0] };
    struct { const char *name; double (*run)(hmac_fn *); } what[] = {
        {"step", run_step}, {"walk of 1,024", run_walk}, {"chain of 16,384", run_chain}, {"tag of 200 bytes", run_tag}};
    enum { M = sizeof what / sizeof what[0] };

    /* all agree: 4,000 random keys and texts of every short length */
    uint32_t x = 1;
    for (int i = 0; i < 4000; i++) {
        uint8_t key[64], text[300], a[32], b[32];
        size_t kl = i % 65, tl = i % 300;
        for (size_t j = 0; j < sizeof key; j++) key[j] = (uint8_t)((x = x * 1664525 + 1013904223) >> 24);
        for (size_t j = 0; j < sizeof text; j++) text[j] = (uint8_t)((x = x * 1664525 + 1013904223) >> 24);
        who[0].f(key, kl, text, tl, a);
        for (int w = 1; w < N; w++) {
            who[w].f(key, kl, text, tl, b);
            if (memcmp(a, b, 32)) {
                printf("%s differs from Rattle at key length %zu, text length %zu\n", who[w].name, kl, tl);
                return 1;
            }
        }
    }

    size_t sl = 64;
    pkey = EVP_PKEY_Q_keygen(NULL, NULL, "ED25519");
    EVP_MD_CTX *m = EVP_MD_CTX_new();
    if (!pkey || EVP_DigestSignInit(m, NULL, NULL, NULL, pkey) != 1 || EVP_DigestSign(m, sig, &sl, msg, 205) != 1) return 2;

    static double t[N][M][ROUNDS], ed[ROUNDS];
    for (int r = 0; r < ROUNDS; r++) {
        for (int w = 0; w < N; w++)
            for (int k = 0; k < M; k++) t[w][k][r] = what[k].run(who[w].f);
        ed[r] = run_ed25519(NULL);
    }
    printf("%s: median of %d rounds (least), microseconds; ratio of Rattle's median to this one's (of the least)\n", label, ROUNDS);
    for (int k = 0; k < M; k++) {
        for (int w = 0; w < N; w++) qsort(t[w][k], ROUNDS, sizeof(double), by_size);
        for (int w = 0; w < N; w++)
            printf("%-17s %-18s %10.3f (%10.3f)  ratio %5.2f (%5.2f)\n", what[k].name, who[w].name, 1e6 * t[w][k][ROUNDS / 2],
                   1e6 * t[w][k][0], t[0][k][ROUNDS / 2] / t[w][k][ROUNDS / 2], t[0][k][0] / t[w][k][0]);
    }
    qsort(ed, ROUNDS, sizeof(double), by_size);
    printf("%-17s %-18s %10.3f (%10.3f)  ratio of a Rattle tag to it %5.3f\n", "verification", "OpenSSL Ed25519", 1e6 * ed[ROUNDS / 2], 1e6 * ed[0],
           t[0][3][ROUNDS / 2] / ed[ROUNDS / 2]);
    return 0;
}
