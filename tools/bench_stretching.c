// PBKDF2 with HMAC-SHA-256 in plain C, its key absorbed once, for tools/bench_stretching.sh to time beside the proved code.
#include <stddef.h>
#include <stdint.h>
#include <string.h>
#include "sha256_functions.h"

typedef struct { uint32_t h[8]; } State;

static const State INITIAL = {{0x6a09e667, 0xbb67ae85, 0x3c6ef372, 0xa54ff53a, 0x510e527f, 0x9b05688c, 0x1f83d9ab, 0x5be0cd19}};

// the block's words, then section 6.2.2 of FIPS 180-4 as it stands: 64 words of schedule, 64 rounds
static void compress(State *s, const uint32_t block[16]) {
    uint32_t w[64];
    memcpy(w, block, 64);
    for (int t = 16; t < 64; t++) w[t] = small1(w[t - 2]) + w[t - 7] + small0(w[t - 15]) + w[t - 16];
    uint32_t a = s->h[0], b = s->h[1], c = s->h[2], d = s->h[3], e = s->h[4], f = s->h[5], g = s->h[6], h = s->h[7];
    for (int t = 0; t < 64; t++) {
        uint32_t t1 = h + big1(e) + ch(e, f, g) + K[t] + w[t];
        uint32_t t2 = big0(a) + maj(a, b, c);
        h = g; g = f; f = e; e = d + t1; d = c; c = b; b = a; a = t1 + t2;
    }
    s->h[0] += a; s->h[1] += b; s->h[2] += c; s->h[3] += d; s->h[4] += e; s->h[5] += f; s->h[6] += g; s->h[7] += h;
}

static void compress_bytes(State *s, const uint8_t *p) {
    uint32_t block[16];
    for (int t = 0; t < 16; t++)
        block[t] = (uint32_t)p[4 * t] << 24 | (uint32_t)p[4 * t + 1] << 16 | (uint32_t)p[4 * t + 2] << 8 | p[4 * t + 3];
    compress(s, block);
}

// the digest of a message that has 64 bytes before it, which led to the state
static State finish(State s, const uint8_t *message, size_t n) {
    uint8_t tail[128] = {0};
    size_t whole = n - n % 64;
    for (size_t i = 0; i < whole; i += 64) compress_bytes(&s, message + i);
    memcpy(tail, message + whole, n - whole);
    tail[n - whole] = 0x80;
    size_t end = n - whole < 56 ? 64 : 128;
    for (int i = 0; i < 8; i++) tail[end - 1 - i] = (uint8_t)((uint64_t)(64 + n) * 8 >> (8 * i));
    for (size_t i = 0; i < end; i += 64) compress_bytes(&s, tail + i);
    return s;
}

// the same for a message that is a digest: one compression
static State finish_digest(State s, State message) {
    uint32_t block[16] = {0};
    memcpy(block, message.h, 32);
    block[8] = 0x80000000;
    block[15] = 768;
    compress(&s, block);
    return s;
}

static void to_bytes(State s, uint8_t out[32]) {
    for (int i = 0; i < 32; i++) out[i] = (uint8_t)(s.h[i / 4] >> (24 - 8 * (i % 4)));
}

// One block of 32 bytes. The password has at most 64 bytes, and the salt at most 124.
void pbkdf2_plain(const uint8_t *password, size_t password_length, const uint8_t *salt, size_t salt_length, uint32_t count, uint8_t out[32]) {
    uint8_t pad[64], text[128], digest[32];
    State inner = INITIAL, outer = INITIAL;
    for (int i = 0; i < 64; i++) pad[i] = 0x36 ^ ((size_t)i < password_length ? password[i] : 0);
    compress_bytes(&inner, pad);
    for (int i = 0; i < 64; i++) pad[i] ^= 0x36 ^ 0x5c;
    compress_bytes(&outer, pad);
    memcpy(text, salt, salt_length);
    memcpy(text + salt_length, "\0\0\0\1", 4);
    to_bytes(finish(inner, text, salt_length + 4), digest);
    State link = finish(outer, digest, 32), total = link;
    for (uint32_t i = 1; i < count; i++) {
        link = finish_digest(outer, finish_digest(inner, link));
        for (int j = 0; j < 8; j++) total.h[j] ^= link.h[j];
    }
    to_bytes(total, out);
}
