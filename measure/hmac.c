/* HMAC-SHA-256 of one part of 50,000 bytes: the proved library beside a plain C version, best of many runs in turn.
 *   (cd crates/bench_c && rt lib)
 *   gcc -O2 -o crates/bench_c/out/hmac measure/hmac.c crates/bench_c/out/libbench_c.a && crates/bench_c/out/hmac
 */
#include <stdint.h>
#include <stdio.h>
#include <string.h>
#include <time.h>

uint8_t bench_hmac(const uint8_t *key, size_t key_len, const uint8_t *message, size_t message_len, uint8_t *out,
                   size_t out_len);

static const uint32_t K[64] = {
    0x428a2f98, 0x71374491, 0xb5c0fbcf, 0xe9b5dba5, 0x3956c25b, 0x59f111f1, 0x923f82a4, 0xab1c5ed5,
    0xd807aa98, 0x12835b01, 0x243185be, 0x550c7dc3, 0x72be5d74, 0x80deb1fe, 0x9bdc06a7, 0xc19bf174,
    0xe49b69c1, 0xefbe4786, 0x0fc19dc6, 0x240ca1cc, 0x2de92c6f, 0x4a7484aa, 0x5cb0a9dc, 0x76f988da,
    0x983e5152, 0xa831c66d, 0xb00327c8, 0xbf597fc7, 0xc6e00bf3, 0xd5a79147, 0x06ca6351, 0x14292967,
    0x27b70a85, 0x2e1b2138, 0x4d2c6dfc, 0x53380d13, 0x650a7354, 0x766a0abb, 0x81c2c92e, 0x92722c85,
    0xa2bfe8a1, 0xa81a664b, 0xc24b8b70, 0xc76c51a3, 0xd192e819, 0xd6990624, 0xf40e3585, 0x106aa070,
    0x19a4c116, 0x1e376c08, 0x2748774c, 0x34b0bcb5, 0x391c0cb3, 0x4ed8aa4a, 0x5b9cca4f, 0x682e6ff3,
    0x748f82ee, 0x78a5636f, 0x84c87814, 0x8cc70208, 0x90befffa, 0xa4506ceb, 0xbef9a3f7, 0xc67178f2};

#define ROR(x, n) (((x) >> (n)) | ((x) << (32 - (n))))

static void compress(uint32_t s[8], const uint8_t *p) {
    uint32_t w[64], a = s[0], b = s[1], c = s[2], d = s[3], e = s[4], f = s[5], g = s[6], h = s[7];
    for (int t = 0; t < 16; t++)
        w[t] = (uint32_t)p[4 * t] << 24 | (uint32_t)p[4 * t + 1] << 16 | (uint32_t)p[4 * t + 2] << 8 | p[4 * t + 3];
    for (int t = 16; t < 64; t++) {
        uint32_t x = w[t - 2], y = w[t - 15];
        w[t] = (ROR(x, 17) ^ ROR(x, 19) ^ (x >> 10)) + w[t - 7] + (ROR(y, 7) ^ ROR(y, 18) ^ (y >> 3)) + w[t - 16];
    }
    for (int t = 0; t < 64; t++) {
        uint32_t t1 = h + (ROR(e, 6) ^ ROR(e, 11) ^ ROR(e, 25)) + ((e & f) ^ (~e & g)) + K[t] + w[t];
        uint32_t t2 = (ROR(a, 2) ^ ROR(a, 13) ^ ROR(a, 22)) + ((a & b) ^ (a & c) ^ (b & c));
        h = g, g = f, f = e, e = d + t1, d = c, c = b, b = a, a = t1 + t2;
    }
    s[0] += a, s[1] += b, s[2] += c, s[3] += d, s[4] += e, s[5] += f, s[6] += g, s[7] += h;
}

static void finish(uint32_t s[8], const uint8_t *rest, size_t n, uint64_t bits, uint8_t out[32]) {
    uint8_t last[128] = {0};
    for (; n >= 64; rest += 64, n -= 64) compress(s, rest);
    memcpy(last, rest, n);
    last[n] = 0x80;
    size_t end = n < 56 ? 64 : 128;
    for (int i = 0; i < 8; i++) last[end - 1 - i] = bits >> (8 * i);
    compress(s, last);
    if (end == 128) compress(s, last + 64);
    for (int i = 0; i < 32; i++) out[i] = s[i / 4] >> (24 - 8 * (i % 4));
}

static void plain_hmac(const uint8_t key[32], const uint8_t *m, size_t n, uint8_t out[32]) {
    static const uint32_t initial[8] = {0x6a09e667, 0xbb67ae85, 0x3c6ef372, 0xa54ff53a,
                                        0x510e527f, 0x9b05688c, 0x1f83d9ab, 0x5be0cd19};
    uint8_t pad[64], inner[32];
    uint32_t s[8];
    for (int i = 0; i < 64; i++) pad[i] = (i < 32 ? key[i] : 0) ^ 0x36;
    memcpy(s, initial, 32);
    compress(s, pad);
    finish(s, m, n, 8 * (64 + (uint64_t)n), inner);
    for (int i = 0; i < 64; i++) pad[i] = (i < 32 ? key[i] : 0) ^ 0x5c;
    memcpy(s, initial, 32);
    compress(s, pad);
    finish(s, inner, 32, 768, out);
}

static double now(void) {
    struct timespec t;
    clock_gettime(CLOCK_MONOTONIC, &t);
    return t.tv_sec * 1e9 + t.tv_nsec;
}

int main(void) {
    static uint8_t m[50000];
    uint8_t key[32], a[32], b[32];
    double best_proved = 1e18, best_plain = 1e18;
    for (size_t i = 0; i < sizeof m; i++) m[i] = i % 251;
    memset(key, 0x5a, sizeof key);
    for (int run = 0; run < 2000; run++) {
        double t0 = now();
        if (bench_hmac(key, 32, m, sizeof m, a, 32) != 0) return 1;
        double t1 = now();
        plain_hmac(key, m, sizeof m, b);
        double t2 = now();
        if (memcmp(a, b, 32) != 0) return 1;
        if (t1 - t0 < best_proved) best_proved = t1 - t0;
        if (t2 - t1 < best_plain) best_plain = t2 - t1;
    }
    printf("proved %.0f ns, plain C %.0f ns, ratio %.2f\n", best_proved, best_plain, best_plain / best_proved);
    return 0;
}
