/* AES-CMAC of one part of 50,000 bytes: the proved library beside a plain table-driven C version, best of many runs in turn.
 *   (cd crates/bench_c && rt lib)
 *   gcc -O2 -o crates/bench_c/out/cmac measure/cmac.c crates/bench_c/out/libbench_c.a && crates/bench_c/out/cmac
 */
#include <stdint.h>
#include <stdio.h>
#include <string.h>
#include <time.h>

uint8_t bench_cmac(const uint8_t *key, size_t key_len, const uint8_t *message, size_t message_len, uint8_t *out,
                   size_t out_len);

static uint8_t S[256];
static uint32_t T[4][256];

static uint8_t xtime(uint8_t x) { return (x << 1) ^ (x & 0x80 ? 0x1b : 0); }

/* the S-box by running through the powers of 3 and of its inverse */
static void make_tables(void) {
    uint8_t p = 1, q = 1;
    do {
        p ^= xtime(p);
        q ^= q << 1, q ^= q << 2, q ^= q << 4;
        if (q & 0x80) q ^= 0x09;
        S[p] = q ^ (uint8_t)(q << 1 | q >> 7) ^ (uint8_t)(q << 2 | q >> 6) ^ (uint8_t)(q << 3 | q >> 5) ^
               (uint8_t)(q << 4 | q >> 4) ^ 0x63;
    } while (p != 1);
    S[0] = 0x63;
    for (int i = 0; i < 256; i++) {
        uint8_t s = S[i], d = xtime(s);
        T[0][i] = (uint32_t)d << 24 | (uint32_t)s << 16 | (uint32_t)s << 8 | (uint8_t)(d ^ s);
        for (int t = 1; t < 4; t++) T[t][i] = T[t - 1][i] >> 8 | T[t - 1][i] << 24;
    }
}

static uint32_t load(const uint8_t *p) {
    return (uint32_t)p[0] << 24 | (uint32_t)p[1] << 16 | (uint32_t)p[2] << 8 | p[3];
}

static void expand(const uint8_t key[16], uint32_t w[44]) {
    uint8_t rcon = 1;
    for (int i = 0; i < 4; i++) w[i] = load(key + 4 * i);
    for (int i = 4; i < 44; i++) {
        uint32_t t = w[i - 1];
        if (i % 4 == 0) {
            t = t << 8 | t >> 24;
            t = (uint32_t)S[t >> 24] << 24 | (uint32_t)S[t >> 16 & 255] << 16 | (uint32_t)S[t >> 8 & 255] << 8 | S[t & 255];
            t ^= (uint32_t)rcon << 24;
            rcon = xtime(rcon);
        }
        w[i] = w[i - 4] ^ t;
    }
}

#define COLUMN(a, b, c, d, k) (T[0][(a) >> 24] ^ T[1][(b) >> 16 & 255] ^ T[2][(c) >> 8 & 255] ^ T[3][(d) & 255] ^ (k))
#define LAST(a, b, c, d, k)                                                                                           \
    (((uint32_t)S[(a) >> 24] << 24 | (uint32_t)S[(b) >> 16 & 255] << 16 | (uint32_t)S[(c) >> 8 & 255] << 8 |           \
      S[(d) & 255]) ^ (k))

static void store(uint32_t x, uint8_t *p) { p[0] = x >> 24, p[1] = x >> 16, p[2] = x >> 8, p[3] = x; }

static void encrypt(const uint32_t w[44], const uint8_t in[16], uint8_t out[16]) {
    uint32_t s0 = load(in) ^ w[0], s1 = load(in + 4) ^ w[1], s2 = load(in + 8) ^ w[2], s3 = load(in + 12) ^ w[3];
    for (const uint32_t *k = w + 4; k < w + 40; k += 4) {
        uint32_t t0 = COLUMN(s0, s1, s2, s3, k[0]), t1 = COLUMN(s1, s2, s3, s0, k[1]);
        uint32_t t2 = COLUMN(s2, s3, s0, s1, k[2]), t3 = COLUMN(s3, s0, s1, s2, k[3]);
        s0 = t0, s1 = t1, s2 = t2, s3 = t3;
    }
    store(LAST(s0, s1, s2, s3, w[40]), out), store(LAST(s1, s2, s3, s0, w[41]), out + 4);
    store(LAST(s2, s3, s0, s1, w[42]), out + 8), store(LAST(s3, s0, s1, s2, w[43]), out + 12);
}

static void twice(const uint8_t in[16], uint8_t out[16]) {
    for (int i = 0; i < 16; i++) out[i] = in[i] << 1 | (i < 15 ? in[i + 1] >> 7 : 0);
    if (in[0] & 0x80) out[15] ^= 0x87;
}

static void plain_cmac(const uint8_t key[16], const uint8_t *m, size_t n, uint8_t out[16]) {
    uint32_t w[44];
    uint8_t l[16] = {0}, k1[16], k2[16], x[16] = {0}, last[16] = {0};
    expand(key, w);
    encrypt(w, l, l);
    twice(l, k1), twice(k1, k2);
    for (; n > 16; m += 16, n -= 16) {
        for (int i = 0; i < 16; i++) x[i] ^= m[i];
        encrypt(w, x, x);
    }
    memcpy(last, m, n);
    if (n < 16) last[n] = 0x80;
    for (int i = 0; i < 16; i++) x[i] ^= last[i] ^ (n < 16 ? k2 : k1)[i];
    encrypt(w, x, out);
}

static double now(void) {
    struct timespec t;
    clock_gettime(CLOCK_MONOTONIC, &t);
    return t.tv_sec * 1e9 + t.tv_nsec;
}

int main(void) {
    static uint8_t m[50000];
    uint8_t key[16], a[32], b[16];
    double best_proved = 1e18, best_plain = 1e18;
    make_tables();
    for (size_t i = 0; i < sizeof m; i++) m[i] = i % 251;
    memset(key, 0x5a, sizeof key);
    for (int run = 0; run < 2000; run++) {
        double t0 = now();
        if (bench_cmac(key, 16, m, sizeof m, a, 32) != 0) return 1;
        double t1 = now();
        plain_cmac(key, m, sizeof m, b);
        double t2 = now();
        if (memcmp(a, b, 16) != 0) return 1;
        if (t1 - t0 < best_proved) best_proved = t1 - t0;
        if (t2 - t1 < best_plain) best_plain = t2 - t1;
    }
    printf("proved %.0f ns, plain C %.0f ns, ratio %.2f\n", best_proved, best_plain, best_plain / best_proved);
    return 0;
}
