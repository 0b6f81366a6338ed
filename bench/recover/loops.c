// The plain loops that the proved code is compared with: a stripe's columns stand one after the other, data, P and Q.
#include <stdint.h>
#define memcpy __builtin_memcpy

enum { BLOCK = 512, K = 10 };

static uint8_t products[256][256];
static uint8_t powers[255];
static uint8_t inverses[256];

static uint8_t twice(uint8_t x) { return (uint8_t)(x << 1) ^ (x & 0x80 ? 0x1d : 0); }

// every product of two bytes, power of 2 and inverse, made once
void plain_prepare(void) {
    for (int a = 0; a < 256; a++) {
        for (int b = 0; b < 256; b++) {
            uint8_t sum = 0, x = (uint8_t)a;
            for (int bit = 0; bit < 8; bit++, x = twice(x)) if (b >> bit & 1) sum ^= x;
            products[a][b] = sum;
            if (sum == 1) inverses[a] = (uint8_t)b;
        }
    }
    powers[0] = 1;
    for (int i = 1; i < 255; i++) powers[i] = twice(powers[i - 1]);
}

// the data column that is missing alone
void plain_recover_one(const uint8_t *columns, int lost, uint8_t *block) {
    uint8_t sum[BLOCK];
    memcpy(sum, columns + K * BLOCK, BLOCK);
    for (int k = 0; k < K; k++) {
        if (k == lost) continue;
        const uint8_t *d = columns + k * BLOCK;
        for (int i = 0; i < BLOCK; i++) sum[i] ^= d[i];
    }
    memcpy(block, sum, BLOCK);
}

// the lower of two missing data columns
void plain_recover_byte(const uint8_t *columns, int low, int high, uint8_t *block) {
    uint8_t ps[BLOCK] = {0}, qs[BLOCK] = {0};
    for (int k = K - 1; k >= 0; k--) {
        const uint8_t *d = columns + k * BLOCK;
        if (k == low || k == high) {
            for (int i = 0; i < BLOCK; i++) qs[i] = twice(qs[i]);
        } else {
            for (int i = 0; i < BLOCK; i++) {
                ps[i] ^= d[i];
                qs[i] = twice(qs[i]) ^ d[i];
            }
        }
    }
    const uint8_t *p = columns + K * BLOCK, *q = p + BLOCK;
    uint8_t undo = inverses[1 ^ powers[high - low]];
    const uint8_t *of_p = products[undo], *of_q = products[products[undo][powers[(255 - low) % 255]]];
    for (int i = 0; i < BLOCK; i++) {
        uint8_t dp = ps[i] ^ p[i], dq = qs[i] ^ q[i];
        block[i] = of_p[dp] ^ of_q[dq] ^ dp;
    }
}

// the word turned, with a seventeenth bit beside it
static inline uint16_t turned(uint16_t x, int by) {
    return (uint16_t)(x << by) ^ (x >> (17 - by)) ^ (x >> (16 - by) & 1 ? 0xffff : 0);
}

void plain_recover_shift(const uint8_t *columns, int low, int high, uint8_t *block) {
    enum { WORDS = BLOCK / 2 };
    uint16_t ps[WORDS] = {0}, qs[WORDS] = {0}, d[WORDS], sum[WORDS];
    for (int k = K - 1; k >= 0; k--) {
        if (k == low || k == high) {
            for (int i = 0; i < WORDS; i++) qs[i] = turned(qs[i], 1);
        } else {
            memcpy(d, columns + k * BLOCK, BLOCK);
            for (int i = 0; i < WORDS; i++) {
                ps[i] ^= d[i];
                qs[i] = turned(qs[i], 1) ^ d[i];
            }
        }
    }
    memcpy(d, columns + K * BLOCK, BLOCK);
    for (int i = 0; i < WORDS; i++) ps[i] ^= d[i];
    memcpy(d, columns + (K + 1) * BLOCK, BLOCK);
    for (int i = 0; i < WORDS; i++) {
        qs[i] = turned(qs[i] ^ d[i], (17 - low) % 17) ^ ps[i];
        sum[i] = ps[i];
    }
    for (int t = 0; t < 9; t++) {
        int by = 2 * t * (high - low) % 17;
        for (int i = 0; i < WORDS; i++) sum[i] ^= turned(qs[i], by);
    }
    memcpy(block, sum, BLOCK);
}
