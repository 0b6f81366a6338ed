// Compares the proved codes with plain C loops: first their results, on many blocks, words and exponents, then their speed.
#include <stdint.h>
#include <stdio.h>
#include <string.h>
#include <time.h>

void rotyague_shift_block(uint8_t *block);
void rotyague_byte_block(uint8_t *block);
uint16_t rotyague_shift_multiply(uint16_t word, uint32_t exponent);
uint16_t rotyague_byte_multiply(uint16_t word, uint32_t exponent);

void c_shift_block(uint16_t *words);
void c_byte_block(uint8_t *bytes);
uint16_t c_shift_multiply(uint16_t word, uint32_t exponent);
uint16_t c_byte_multiply(uint16_t word, uint32_t exponent);

static void c_shift_bytes(uint8_t *block) { c_shift_block((uint16_t *)block); }

typedef void block_fn(uint8_t *);
typedef uint16_t word_fn(uint16_t, uint32_t);

static uint32_t seed = 1;
static uint32_t next(void) { return seed = seed * 1664525 + 1013904223; }

static double now(void)
{
    struct timespec t;
    clock_gettime(CLOCK_MONOTONIC, &t);
    return t.tv_sec * 1e9 + t.tv_nsec;
}

// nanoseconds a call, the best of many rounds on one block that stays in the cache
static double block_time(block_fn *f)
{
    static uint8_t block[512] __attribute__((aligned(64)));
    double best = 1e18;
    for (int i = 0; i < 512; i++) block[i] = (uint8_t)(next() >> 24);
    for (int round = 0; round < 40; round++) {
        double start = now();
        for (int i = 0; i < 10000; i++) {
            f(block);
            __asm__ volatile("" : : "r"(block) : "memory");
        }
        double time = (now() - start) / 10000;
        if (time < best) best = time;
    }
    return best;
}

static volatile uint16_t sink;

static double word_time(word_fn *f, uint32_t exponent)
{
    double best = 1e18;
    uint16_t word = 0x1234;
    for (int round = 0; round < 40; round++) {
        double start = now();
        for (int i = 0; i < 10000; i++) word ^= f((uint16_t)(word + i), exponent);
        double time = (now() - start) / 10000;
        if (time < best) best = time;
    }
    sink = word;
    return best;
}

static int same_blocks(block_fn *ours, block_fn *theirs)
{
    static uint8_t a[512] __attribute__((aligned(64))), b[512] __attribute__((aligned(64)));
    for (int round = 0; round < 20000; round++) {
        for (int i = 0; i < 512; i++) a[i] = b[i] = (uint8_t)(next() >> 24);
        ours(a);
        theirs(b);
        if (memcmp(a, b, 512) != 0) return 0;
    }
    return 1;
}

static int same_words(word_fn *ours, word_fn *theirs)
{
    for (uint32_t word = 0; word < 65536; word++)
        for (uint32_t k = 0; k < 18; k++)
            if (ours((uint16_t)word, k) != theirs((uint16_t)word, k)) return 0;
    for (int round = 0; round < 200000; round++) {
        uint16_t word = (uint16_t)(next() >> 16);
        uint32_t exponent = next();
        if (ours(word, exponent) != theirs(word, exponent)) return 0;
    }
    return 1;
}

static void report(const char *what, double ours, double theirs)
{
    printf("  %-34s %7.1f ns, C %7.1f ns, ratio %.2f\n", what, ours, theirs, ours / theirs);
}

int main(void)
{
    if (!same_blocks(rotyague_shift_block, c_shift_bytes) || !same_blocks(rotyague_byte_block, c_byte_block)
        || !same_words(rotyague_shift_multiply, c_shift_multiply) || !same_words(rotyague_byte_multiply, c_byte_multiply)) {
        printf("  results differ\n");
        return 1;
    }
    printf("  results agree\n");
    report("shift code, a block times g", block_time(rotyague_shift_block), block_time(c_shift_bytes));
    report("byte code, a block times g", block_time(rotyague_byte_block), block_time(c_byte_block));
    report("shift code, a word times g^16", word_time(rotyague_shift_multiply, 16), word_time(c_shift_multiply, 16));
    report("byte code, a word times g^254", word_time(rotyague_byte_multiply, 254), word_time(c_byte_multiply, 254));
    return 0;
}
