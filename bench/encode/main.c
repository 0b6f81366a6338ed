// Times encoding of ten columns by the proved code, by ISA-L and by plain loops in turn, and prints ratios to the fastest run of each.
#include <isa-l/raid.h>
#include <stdbool.h>
#include <stdint.h>
#include <stdio.h>
#include <stdlib.h>
#include <string.h>
#include <time.h>

enum { BLOCK = 512, K = 10, TURNS = 200, ROUNDS = 1000 };

bool rotyague_encode_byte(const uint8_t *data, uint8_t *p, uint8_t *q);
bool rotyague_encode_shift(const uint8_t *data, uint8_t *p, uint8_t *q);
void rotyague_maps_byte(uint8_t z, uint8_t *block);
void rotyague_maps_shift(uint8_t z, uint8_t *block);
void plain_encode_byte(const uint8_t *data, uint8_t *p, uint8_t *q);
void plain_encode_shift(const uint8_t *data, uint8_t *p, uint8_t *q);

static uint8_t blocks[K + 2][BLOCK] __attribute__((aligned(64)));

static void ours_byte(uint8_t *p, uint8_t *q) { if (!rotyague_encode_byte(blocks[0], p, q)) exit(1); }
static void ours_shift(uint8_t *p, uint8_t *q) { if (!rotyague_encode_shift(blocks[0], p, q)) exit(1); }
static void plain_byte(uint8_t *p, uint8_t *q) { plain_encode_byte(blocks[0], p, q); }
static void plain_shift(uint8_t *p, uint8_t *q) { plain_encode_shift(blocks[0], p, q); }
static void maps_byte(uint8_t *p, uint8_t *q) { (void)q; rotyague_maps_byte(3, p); }
static void maps_shift(uint8_t *p, uint8_t *q) { (void)q; rotyague_maps_shift(3, p); }
static void isal_byte(uint8_t *p, uint8_t *q) {
    void *vectors[K + 2];
    for (int k = 0; k < K; k++) vectors[k] = blocks[k];
    vectors[K] = p;
    vectors[K + 1] = q;
    if (pq_gen(K + 2, BLOCK, vectors) != 0) exit(1);
    // ISA-L leaves the upper halves of the vector registers in use, which would slow down every loop after it that is compiled for any x86-64
    __asm__ volatile("vzeroupper");
}

typedef void run(uint8_t *p, uint8_t *q);

static double seconds(run *f, uint8_t *p, uint8_t *q) {
    struct timespec a, b;
    clock_gettime(CLOCK_MONOTONIC, &a);
    for (int i = 0; i < TURNS; i++) {
        blocks[i % K][i % BLOCK] ^= (uint8_t)i;
        f(p, q);
    }
    clock_gettime(CLOCK_MONOTONIC, &b);
    return (double)(b.tv_sec - a.tv_sec) + (double)(b.tv_nsec - a.tv_nsec) / 1e9;
}

int main(void) {
    static uint8_t p[2][BLOCK] __attribute__((aligned(64))), q[2][BLOCK] __attribute__((aligned(64)));
    static run *const runs[] = {ours_byte, isal_byte, plain_byte, ours_shift, plain_shift, maps_byte, maps_shift};
    static const char *const names[] = {"byte code, proved", "byte code, ISA-L", "byte code, plain C", "shift code, proved", "shift code, plain C", "byte code, two maps prepared and applied", "shift code, two maps prepared and applied"};
    enum { COUNT = sizeof runs / sizeof *runs };
    uint32_t state = 1;
    for (int k = 0; k < K; k++) for (int i = 0; i < BLOCK; i++) {
        state = state * 1103515245u + 12345u;
        blocks[k][i] = state >> 16 & 0xff;
    }
    // all answers agree
    ours_byte(p[0], q[0]);
    isal_byte(p[1], q[1]);
    if (memcmp(p[0], p[1], BLOCK) || memcmp(q[0], q[1], BLOCK)) return 1;
    plain_byte(p[1], q[1]);
    if (memcmp(p[0], p[1], BLOCK) || memcmp(q[0], q[1], BLOCK)) return 1;
    ours_shift(p[0], q[0]);
    plain_shift(p[1], q[1]);
    if (memcmp(p[0], p[1], BLOCK) || memcmp(q[0], q[1], BLOCK)) return 1;
    double best[COUNT];
    for (int r = 0; r < COUNT; r++) best[r] = 1e9;
    for (int round = 0; round < ROUNDS; round++) {
        for (int r = 0; r < COUNT; r++) {
            double t = seconds(runs[r], p[0], q[0]);
            if (t < best[r]) best[r] = t;
        }
    }
    for (int r = 0; r < COUNT; r++) printf("%-45s %8.0f ns a stripe\n", names[r], best[r] / TURNS * 1e9);
    printf("byte code: proved / ISA-L %.2f, proved / plain C %.2f\n", best[0] / best[1], best[0] / best[2]);
    printf("shift code: proved / plain C %.2f\n", best[3] / best[4]);
    printf("two maps / encoding: byte code %.2f, shift code %.2f\n", best[5] / best[0], best[6] / best[3]);
    return 0;
}
