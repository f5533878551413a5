// Times the proved SHA-256 of the crate digest against SHA-256 in plain C, block for block, in one run.
#include <stdbool.h>
#include <stddef.h>
#include <stdint.h>
#include <stdio.h>
#include <stdlib.h>
#include <string.h>
#include <time.h>
#include "sha256_functions.h"

// from libdigest.a: a slice is a pointer and a length
bool digest_sha256(const uint8_t *message, size_t message_len, uint8_t *out, size_t out_len);

static inline uint32_t word(const uint8_t *p) {
    return (uint32_t)p[0] << 24 | (uint32_t)p[1] << 16 | (uint32_t)p[2] << 8 | p[3];
}

// section 6.2.2 of FIPS 180-4 as it stands: 64 words of schedule, 64 rounds
static void compress_c(uint32_t s[8], const uint8_t *block) {
    uint32_t w[64];
    for (int t = 0; t < 16; t++) w[t] = word(block + 4 * t);
    for (int t = 16; t < 64; t++) w[t] = small1(w[t - 2]) + w[t - 7] + small0(w[t - 15]) + w[t - 16];
    uint32_t a = s[0], b = s[1], c = s[2], d = s[3], e = s[4], f = s[5], g = s[6], h = s[7];
    for (int t = 0; t < 64; t++) {
        uint32_t t1 = h + big1(e) + ch(e, f, g) + K[t] + w[t];
        uint32_t t2 = big0(a) + maj(a, b, c);
        h = g; g = f; f = e; e = d + t1; d = c; c = b; b = a; a = t1 + t2;
    }
    s[0] += a; s[1] += b; s[2] += c; s[3] += d; s[4] += e; s[5] += f; s[6] += g; s[7] += h;
}

// the same with the schedule in 16 words and sixteen rounds written out, as the proved code has it
static void compress_written_out(uint32_t s[8], const uint8_t *block) {
    uint32_t w[16];
    for (int t = 0; t < 16; t++) w[t] = word(block + 4 * t);
    uint32_t a = s[0], b = s[1], c = s[2], d = s[3], e = s[4], f = s[5], g = s[6], h = s[7];
    for (int i = 0; i < 4; i++) {
        if (i > 0)
            for (int t = 0; t < 16; t++)
                w[t] = small1(w[(t + 14) & 15]) + w[(t + 9) & 15] + small0(w[(t + 1) & 15]) + w[t];
#define R(a, b, c, d, e, f, g, h, t) { uint32_t t1 = h + big1(e) + ch(e, f, g) + K[16 * i + t] + w[t]; d += t1; h = t1 + big0(a) + maj(a, b, c); }
        R(a, b, c, d, e, f, g, h, 0) R(h, a, b, c, d, e, f, g, 1) R(g, h, a, b, c, d, e, f, 2) R(f, g, h, a, b, c, d, e, 3)
        R(e, f, g, h, a, b, c, d, 4) R(d, e, f, g, h, a, b, c, 5) R(c, d, e, f, g, h, a, b, 6) R(b, c, d, e, f, g, h, a, 7)
        R(a, b, c, d, e, f, g, h, 8) R(h, a, b, c, d, e, f, g, 9) R(g, h, a, b, c, d, e, f, 10) R(f, g, h, a, b, c, d, e, 11)
        R(e, f, g, h, a, b, c, d, 12) R(d, e, f, g, h, a, b, c, 13) R(c, d, e, f, g, h, a, b, 14) R(b, c, d, e, f, g, h, a, 15)
    }
    s[0] += a; s[1] += b; s[2] += c; s[3] += d; s[4] += e; s[5] += f; s[6] += g; s[7] += h;
}

static void sha256_with(void (*compress)(uint32_t *, const uint8_t *), const uint8_t *m, size_t n, uint8_t out[32]) {
    uint32_t s[8] = {0x6a09e667, 0xbb67ae85, 0x3c6ef372, 0xa54ff53a, 0x510e527f, 0x9b05688c, 0x1f83d9ab, 0x5be0cd19};
    size_t whole = n - n % 64;
    for (size_t i = 0; i < whole; i += 64) compress(s, m + i);
    uint8_t tail[128] = {0};
    memcpy(tail, m + whole, n - whole);
    tail[n - whole] = 0x80;
    size_t end = n - whole < 56 ? 64 : 128;
    for (int i = 0; i < 8; i++) tail[end - 1 - i] = (uint8_t)((uint64_t)n * 8 >> (8 * i));
    for (size_t i = 0; i < end; i += 64) compress(s, tail + i);
    for (int i = 0; i < 32; i++) out[i] = (uint8_t)(s[i / 4] >> (24 - 8 * (i % 4)));
}

static double now(void) {
    struct timespec t;
    clock_gettime(CLOCK_PROCESS_CPUTIME_ID, &t);
    return t.tv_sec + t.tv_nsec * 1e-9;
}

// a message of 1,023 whole blocks takes 1,024 compressions
enum { SIZE = 1023 * 64, BLOCKS = 1024, TIMES = 4000 };

static double best_of(double best, double time) { return time < best ? time : best; }

int main(void) {
    uint8_t *m = malloc(SIZE), a[32], b[32], c[32];
    for (size_t i = 0; i < SIZE; i++) m[i] = (uint8_t)(i * 131 + 7);
    double proved = 1e9, plain = 1e9, written_out = 1e9;
    for (int k = 0; k < TIMES; k++) {
        m[0] = (uint8_t)k;
        double t0 = now();
        digest_sha256(m, SIZE, a, 32);
        double t1 = now();
        sha256_with(compress_c, m, SIZE, b);
        double t2 = now();
        sha256_with(compress_written_out, m, SIZE, c);
        double t3 = now();
        if (memcmp(a, b, 32) != 0 || memcmp(a, c, 32) != 0) return puts("the digests differ"), 1;
        proved = best_of(proved, t1 - t0);
        plain = best_of(plain, t2 - t1);
        written_out = best_of(written_out, t3 - t2);
    }
    printf("nanoseconds for a block: proved %.1f, plain C %.1f, plain C with rounds written out %.1f\n",
           proved / BLOCKS * 1e9, plain / BLOCKS * 1e9, written_out / BLOCKS * 1e9);
    printf("ratio of the proved code to plain C %.3f, to plain C with rounds written out %.3f\n", proved / plain, proved / written_out);
    return 0;
}
