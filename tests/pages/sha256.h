/* SHA-256 (FIPS 180-4): tests/sweep/expected.txt keeps long listings as digests. */
#ifndef SHA256_H
#define SHA256_H

#include <stddef.h>
#include <stdint.h>
#include <string.h>

enum { SHA256_BYTES = 32, SHA256_BLOCK = 64, SHA256_ROUNDS = 64, SHA256_STATE = 8, SHA256_LENGTH_AT = 56 };

static const uint32_t sha256_constants[SHA256_ROUNDS] = {
    0x428a2f98, 0x71374491, 0xb5c0fbcf, 0xe9b5dba5, 0x3956c25b, 0x59f111f1, 0x923f82a4, 0xab1c5ed5,
    0xd807aa98, 0x12835b01, 0x243185be, 0x550c7dc3, 0x72be5d74, 0x80deb1fe, 0x9bdc06a7, 0xc19bf174,
    0xe49b69c1, 0xefbe4786, 0x0fc19dc6, 0x240ca1cc, 0x2de92c6f, 0x4a7484aa, 0x5cb0a9dc, 0x76f988da,
    0x983e5152, 0xa831c66d, 0xb00327c8, 0xbf597fc7, 0xc6e00bf3, 0xd5a79147, 0x06ca6351, 0x14292967,
    0x27b70a85, 0x2e1b2138, 0x4d2c6dfc, 0x53380d13, 0x650a7354, 0x766a0abb, 0x81c2c92e, 0x92722c85,
    0xa2bfe8a1, 0xa81a664b, 0xc24b8b70, 0xc76c51a3, 0xd192e819, 0xd6990624, 0xf40e3585, 0x106aa070,
    0x19a4c116, 0x1e376c08, 0x2748774c, 0x34b0bcb5, 0x391c0cb3, 0x4ed8aa4a, 0x5b9cca4f, 0x682e6ff3,
    0x748f82ee, 0x78a5636f, 0x84c87814, 0x8cc70208, 0x90befffa, 0xa4506ceb, 0xbef9a3f7, 0xc67178f2,
};

static uint32_t sha256_turned(uint32_t x, int bits)
{
    return x >> bits | x << (32 - bits);
}

/* The words of a block, and as many more as there are rounds. */
static void sha256_words(const uint8_t *block, uint32_t *w)
{
    for (int i = 0; i < 16; i++) {
        const uint8_t *at = block + 4 * i;
        w[i] = (uint32_t)at[0] << 24 | (uint32_t)at[1] << 16 | (uint32_t)at[2] << 8 | at[3];
    }
    for (int i = 16; i < SHA256_ROUNDS; i++) {
        uint32_t low = sha256_turned(w[i - 15], 7) ^ sha256_turned(w[i - 15], 18) ^ w[i - 15] >> 3;
        uint32_t high = sha256_turned(w[i - 2], 17) ^ sha256_turned(w[i - 2], 19) ^ w[i - 2] >> 10;
        w[i] = w[i - 16] + low + w[i - 7] + high;
    }
}

static void sha256_block(uint32_t *state, const uint8_t *block)
{
    uint32_t w[SHA256_ROUNDS], s[SHA256_STATE];
    sha256_words(block, w);
    memcpy(s, state, sizeof s);
    for (int i = 0; i < SHA256_ROUNDS; i++) {
        uint32_t high = sha256_turned(s[4], 6) ^ sha256_turned(s[4], 11) ^ sha256_turned(s[4], 25);
        uint32_t low = sha256_turned(s[0], 2) ^ sha256_turned(s[0], 13) ^ sha256_turned(s[0], 22);
        uint32_t first = s[7] + high + ((s[4] & s[5]) ^ (~s[4] & s[6])) + sha256_constants[i] + w[i];
        uint32_t second = low + ((s[0] & s[1]) ^ (s[0] & s[2]) ^ (s[1] & s[2]));
        memmove(s + 1, s, sizeof s - sizeof s[0]);
        s[4] += first;
        s[0] = first + second;
    }
    for (int i = 0; i < SHA256_STATE; i++) {
        state[i] += s[i];
    }
}

/* What is left of the bytes, a one bit, zeros, and the length in bits: a block or two. */
static void sha256_end(uint32_t *state, const uint8_t *left, size_t count, uint64_t bits)
{
    uint8_t last[2 * SHA256_BLOCK] = {0};
    size_t size = count < SHA256_LENGTH_AT ? SHA256_BLOCK : 2 * SHA256_BLOCK;
    memcpy(last, left, count);
    last[count] = 0x80;
    for (size_t i = 0; i < sizeof bits; i++) {
        last[size - 1 - i] = (uint8_t)(bits >> 8 * i);
    }
    for (size_t at = 0; at < size; at += SHA256_BLOCK) {
        sha256_block(state, last + at);
    }
}

static void sha256(const uint8_t *bytes, size_t length, uint8_t *digest)
{
    uint32_t state[SHA256_STATE] = {
        0x6a09e667, 0xbb67ae85, 0x3c6ef372, 0xa54ff53a, 0x510e527f, 0x9b05688c, 0x1f83d9ab, 0x5be0cd19,
    };
    size_t at = 0;
    for (; length - at >= SHA256_BLOCK; at += SHA256_BLOCK) {
        sha256_block(state, bytes + at);
    }
    sha256_end(state, bytes + at, length - at, (uint64_t)length * 8);
    for (int i = 0; i < SHA256_BYTES; i++) {
        digest[i] = (uint8_t)(state[i / 4] >> (24 - i % 4 * 8));
    }
}

#endif
