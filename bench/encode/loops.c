// The plain loops that the proved code is compared with.
#include <stdint.h>
#define memcpy __builtin_memcpy

enum { BLOCK = 512, K = 10 };

void plain_encode_byte(const uint8_t *data, uint8_t *p, uint8_t *q) {
    uint8_t ps[BLOCK] = {0}, qs[BLOCK] = {0};
    for (int k = K - 1; k >= 0; k--) {
        const uint8_t *d = data + k * BLOCK;
        for (int i = 0; i < BLOCK; i++) {
            ps[i] ^= d[i];
            qs[i] = (uint8_t)(qs[i] << 1) ^ (qs[i] & 0x80 ? 0x1d : 0) ^ d[i];
        }
    }
    memcpy(p, ps, BLOCK);
    memcpy(q, qs, BLOCK);
}

void plain_encode_shift(const uint8_t *data, uint8_t *p, uint8_t *q) {
    uint16_t ps[BLOCK / 2] = {0}, qs[BLOCK / 2] = {0};
    for (int k = K - 1; k >= 0; k--) {
        uint16_t d[BLOCK / 2];
        memcpy(d, data + k * BLOCK, BLOCK);
        for (int i = 0; i < BLOCK / 2; i++) {
            ps[i] ^= d[i];
            qs[i] = (uint16_t)(qs[i] << 1) ^ (qs[i] & 0x8000 ? 0xffff : 0) ^ d[i];
        }
    }
    memcpy(p, ps, BLOCK);
    memcpy(q, qs, BLOCK);
}
