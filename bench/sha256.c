/* What a scalar SHA-256 takes: `sha256 BYTES` digests so many bytes in pieces of 64 KiB, by FIPS 180-4 with all rounds
 * written out, and prints the digest and nanoseconds a byte; `sha256 BYTES library` has OpenSSL's libcrypto do it, where
 * it was compiled with -DLIBRARY, by whichever instructions that picks. */
#define _POSIX_C_SOURCE 199309L
#include <stdint.h>
#include <stdio.h>
#include <stdlib.h>
#include <string.h>
#include <time.h>
#ifdef LIBRARY
#include <openssl/sha.h>
#endif

enum { PIECE = 65536 };

static const uint32_t K[64] = {
    0x428a2f98, 0x71374491, 0xb5c0fbcf, 0xe9b5dba5, 0x3956c25b, 0x59f111f1, 0x923f82a4, 0xab1c5ed5, 0xd807aa98, 0x12835b01, 0x243185be,
    0x550c7dc3, 0x72be5d74, 0x80deb1fe, 0x9bdc06a7, 0xc19bf174, 0xe49b69c1, 0xefbe4786, 0x0fc19dc6, 0x240ca1cc, 0x2de92c6f, 0x4a7484aa,
    0x5cb0a9dc, 0x76f988da, 0x983e5152, 0xa831c66d, 0xb00327c8, 0xbf597fc7, 0xc6e00bf3, 0xd5a79147, 0x06ca6351, 0x14292967, 0x27b70a85,
    0x2e1b2138, 0x4d2c6dfc, 0x53380d13, 0x650a7354, 0x766a0abb, 0x81c2c92e, 0x92722c85, 0xa2bfe8a1, 0xa81a664b, 0xc24b8b70, 0xc76c51a3,
    0xd192e819, 0xd6990624, 0xf40e3585, 0x106aa070, 0x19a4c116, 0x1e376c08, 0x2748774c, 0x34b0bcb5, 0x391c0cb3, 0x4ed8aa4a, 0x5b9cca4f,
    0x682e6ff3, 0x748f82ee, 0x78a5636f, 0x84c87814, 0x8cc70208, 0x90befffa, 0xa4506ceb, 0xbef9a3f7, 0xc67178f2};

#define ROR(x, n) ((x) >> (n) | (x) << (32 - (n)))
/* A round, with rotations within one another, which takes fewer copies, and with the a ^ b of the round before. */
#define ROUND(a, b, c, d, e, f, g, h, t, w)                                                          \
    h += ROR(e ^ ROR(e ^ ROR(e, 14), 5), 6) + (g ^ (e & (f ^ g))) + K[t] + (w);                     \
    d += h, now = a ^ b;                                                                             \
    h += ROR(a ^ ROR(a ^ ROR(a, 9), 11), 2) + (b ^ (now & before)), before = now
#define NEXT(t) (w[(t) & 15] += s1(w[((t) - 2) & 15]) + w[((t) - 7) & 15] + s0(w[((t) - 15) & 15]))
#define EIGHT(t, W)                                                                                  \
    ROUND(a, b, c, d, e, f, g, h, t, W(t)); ROUND(h, a, b, c, d, e, f, g, t + 1, W(t + 1));        \
    ROUND(g, h, a, b, c, d, e, f, t + 2, W(t + 2)); ROUND(f, g, h, a, b, c, d, e, t + 3, W(t + 3)); \
    ROUND(e, f, g, h, a, b, c, d, t + 4, W(t + 4)); ROUND(d, e, f, g, h, a, b, c, t + 5, W(t + 5)); \
    ROUND(c, d, e, f, g, h, a, b, t + 6, W(t + 6)); ROUND(b, c, d, e, f, g, h, a, t + 7, W(t + 7))
#define FIRST(t) (w[t] = load(bytes + 4 * (t)))

static inline uint32_t s0(uint32_t x) { return ROR(x ^ ROR(x, 11), 7) ^ x >> 3; }
static inline uint32_t s1(uint32_t x) { return ROR(x ^ ROR(x, 2), 17) ^ x >> 10; }
static inline uint32_t load(const uint8_t *b) { return (uint32_t)b[0] << 24 | b[1] << 16 | b[2] << 8 | b[3]; }

static void block(uint32_t state[8], const uint8_t *bytes) {
    uint32_t w[16], a = state[0], b = state[1], c = state[2], d = state[3], e = state[4], f = state[5], g = state[6], h = state[7];
    uint32_t before = b ^ c, now;
    EIGHT(0, FIRST); EIGHT(8, FIRST);
    EIGHT(16, NEXT); EIGHT(24, NEXT); EIGHT(32, NEXT); EIGHT(40, NEXT); EIGHT(48, NEXT); EIGHT(56, NEXT);
    state[0] += a, state[1] += b, state[2] += c, state[3] += d, state[4] += e, state[5] += f, state[6] += g, state[7] += h;
}

static void scalar(long count, const uint8_t *piece, uint8_t digest[32]) {
    uint32_t state[8] = {0x6a09e667, 0xbb67ae85, 0x3c6ef372, 0xa54ff53a, 0x510e527f, 0x9b05688c, 0x1f83d9ab, 0x5be0cd19};
    uint8_t last[64] = {0x80};
    uint64_t bits = (uint64_t)count * PIECE * 8;
    int n;
    for (; count; count--)
        for (n = 0; n < PIECE; n += 64) block(state, piece + n);
    for (n = 0; n < 8; n++) last[63 - n] = (uint8_t)(bits >> 8 * n);
    block(state, last);
    for (n = 0; n < 32; n++) digest[n] = (uint8_t)(state[n / 4] >> (24 - n % 4 * 8));
}

#ifdef LIBRARY
static void library(long count, const uint8_t *piece, uint8_t digest[32]) {
    SHA256_CTX it;
    SHA256_Init(&it);
    for (; count; count--) SHA256_Update(&it, piece, PIECE);
    SHA256_Final(digest, &it);
}
#else
static void library(long count, const uint8_t *piece, uint8_t digest[32]) { (void)count, (void)piece, (void)digest, exit(2); }
#endif

int main(int argc, char **argv) {
    static uint8_t piece[PIECE];
    struct timespec from, to;
    uint8_t digest[32];
    long count = argc > 1 ? atol(argv[1]) / PIECE : 0;
    int n;
    for (n = 0; n < PIECE; n++) piece[n] = (uint8_t)(n * 7 + n / 251);
    clock_gettime(CLOCK_MONOTONIC, &from);
    (argc > 2 ? library : scalar)(count, piece, digest);
    clock_gettime(CLOCK_MONOTONIC, &to);
    for (n = 0; n < 32; n++) printf("%02x", digest[n]);
    if (count) printf(" %.2f\n", ((double)(to.tv_sec - from.tv_sec) * 1e9 + (double)(to.tv_nsec - from.tv_nsec)) / ((double)count * PIECE));
    return 0;
}
