// Times recovery of a data column of ten by the proved code, by ISA-L and by plain loops in turn, and prints ratios of the fastest run of each.
#include <isa-l/erasure_code.h>
#include <isa-l/raid.h>
#include <stdbool.h>
#include <stdint.h>
#include <stdio.h>
#include <stdlib.h>
#include <string.h>
#include <time.h>

enum { BLOCK = 512, K = 10, LOW = 2, HIGH = 7, TURNS = 100, ROUNDS = 2000 };

bool rotyague_encode_byte(const uint8_t *data, uint8_t *p, uint8_t *q);
bool rotyague_encode_shift(const uint8_t *data, uint8_t *p, uint8_t *q);
bool rotyague_recover_byte(const uint8_t *columns, uint8_t column, uint32_t missing, uint8_t *block);
bool rotyague_recover_shift(const uint8_t *columns, uint8_t column, uint32_t missing, uint8_t *block);
void plain_prepare(void);
void plain_recover_one(const uint8_t *columns, int lost, uint8_t *block);
void plain_recover_byte(const uint8_t *columns, int low, int high, uint8_t *block);
void plain_recover_shift(const uint8_t *columns, int low, int high, uint8_t *block);

// a stripe of each code, and what its missing columns held: their own places hold other bytes while they are missing
static uint8_t byte_stripe[K + 2][BLOCK] __attribute__((aligned(64))), shift_stripe[K + 2][BLOCK] __attribute__((aligned(64)));
static uint8_t original[K][BLOCK], parities[2][BLOCK] __attribute__((aligned(64)));

static void check(bool fine) {
    if (fine) return;
    puts("refused");
    exit(1);
}

// ISA-L: the columns that are left, and the row of the inverse that gives a missing one of them
static uint8_t *left[K];
static uint8_t one_table[32 * K], two_table[32 * K];
static int rows_left[K];

static void isal_table(const int *missing, int count, int column, uint8_t *table) {
    uint8_t all[(K + 2) * K] = {0}, part[K * K], inverse[K * K];
    int n = 0;
    for (int k = 0; k < K; k++) {
        all[k * K + k] = 1;
        all[K * K + k] = 1;
        all[(K + 1) * K + k] = k == 0 ? 1 : gf_mul(2, all[(K + 1) * K + k - 1]);
    }
    for (int r = 0; r < K + 2 && n < K; r++) {
        bool lost = false;
        for (int m = 0; m < count; m++) lost = lost || missing[m] == r;
        if (lost) continue;
        rows_left[n] = r;
        memcpy(part + n++ * K, all + r * K, K);
    }
    if (gf_invert_matrix(part, inverse, K) != 0) exit(1);
    ec_init_tables(K, 1, inverse + column * K, table);
    for (int i = 0; i < K; i++) left[i] = byte_stripe[rows_left[i]];
}

// ISA-L leaves the upper halves of the vector registers in use, which would slow down every loop after it that is compiled for any x86-64
static void leave(void) { __asm__ volatile("vzeroupper"); }

static void isal_encode(uint8_t *block) {
    void *vectors[K + 2];
    (void)block;
    for (int k = 0; k < K; k++) vectors[k] = byte_stripe[k];
    vectors[K] = parities[0];
    vectors[K + 1] = parities[1];
    check(pq_gen(K + 2, BLOCK, vectors) == 0);
    leave();
}

static const int both[] = {LOW, HIGH}, alone[] = {LOW};
static uint8_t *left_of_two[K], *left_of_one[K];

static void ours_encode_byte(uint8_t *block) { (void)block; check(rotyague_encode_byte(byte_stripe[0], parities[0], parities[1])); }
static void ours_encode_shift(uint8_t *block) { (void)block; check(rotyague_encode_shift(shift_stripe[0], parities[0], parities[1])); }
static void ours_two_byte(uint8_t *block) { check(rotyague_recover_byte(byte_stripe[0], LOW, 1u << LOW | 1u << HIGH, block)); }
static void ours_two_shift(uint8_t *block) { check(rotyague_recover_shift(shift_stripe[0], LOW, 1u << LOW | 1u << HIGH, block)); }
static void ours_one_byte(uint8_t *block) { check(rotyague_recover_byte(byte_stripe[0], LOW, 1u << LOW, block)); }
static void ours_one_shift(uint8_t *block) { check(rotyague_recover_shift(shift_stripe[0], LOW, 1u << LOW, block)); }
static void plain_two_byte(uint8_t *block) { plain_recover_byte(byte_stripe[0], LOW, HIGH, block); }
static void plain_two_shift(uint8_t *block) { plain_recover_shift(shift_stripe[0], LOW, HIGH, block); }
static void plain_one(uint8_t *block) { plain_recover_one(byte_stripe[0], LOW, block); }
static void isal_two(uint8_t *block) { ec_encode_data(BLOCK, K, 1, two_table, left_of_two, &block); leave(); }
static void isal_two_from_scratch(uint8_t *block) {
    isal_table(both, 2, LOW, two_table);
    ec_encode_data(BLOCK, K, 1, two_table, left, &block);
    leave();
}
static void isal_one(uint8_t *block) { ec_encode_data(BLOCK, K, 1, one_table, left_of_one, &block); leave(); }

typedef void run(uint8_t *block);

static const struct { const char *name; run *run; bool recovers; } runs[] = {
    {"byte code, encoding, proved", ours_encode_byte, false},
    {"byte code, encoding, ISA-L", isal_encode, false},
    {"byte code, two data columns missing, proved", ours_two_byte, true},
    {"byte code, two data columns missing, plain C", plain_two_byte, true},
    {"byte code, two data columns missing, ISA-L", isal_two, true},
    {"byte code, the same with ISA-L's tables made each time", isal_two_from_scratch, true},
    {"byte code, one data column missing, proved", ours_one_byte, true},
    {"one data column missing, plain C", plain_one, true},
    {"byte code, one data column missing, ISA-L", isal_one, true},
    {"shift code, encoding, proved", ours_encode_shift, false},
    {"shift code, two data columns missing, proved", ours_two_shift, true},
    {"shift code, two data columns missing, plain C", plain_two_shift, true},
    {"shift code, one data column missing, proved", ours_one_shift, true},
};
enum { BYTE_ENCODE, ISAL_ENCODE, BYTE_TWO, BYTE_TWO_C, BYTE_TWO_ISAL, BYTE_TWO_ISAL_ALL, BYTE_ONE, ONE_C, BYTE_ONE_ISAL, SHIFT_ENCODE, SHIFT_TWO, SHIFT_TWO_C, SHIFT_ONE, COUNT };

static double seconds(run *f, uint8_t *block) {
    struct timespec a, b;
    clock_gettime(CLOCK_MONOTONIC, &a);
    for (int i = 0; i < TURNS; i++) {
        f(block);
        __asm__ volatile("" : : "r"(block) : "memory");
    }
    clock_gettime(CLOCK_MONOTONIC, &b);
    return (double)(b.tv_sec - a.tv_sec) + (double)(b.tv_nsec - a.tv_nsec) / 1e9;
}

static void ratio(const char *what, int a, int b, const double *best) { printf("%-55s %6.2f\n", what, best[a] / best[b]); }

int main(void) {
    static uint8_t block[BLOCK] __attribute__((aligned(64)));
    double best[COUNT];
    uint32_t state = 1;
    for (int k = 0; k < K; k++) for (int i = 0; i < BLOCK; i++) {
        state = state * 1103515245u + 12345u;
        original[k][i] = state >> 16 & 0xff;
    }
    memcpy(byte_stripe, original, sizeof original);
    memcpy(shift_stripe, original, sizeof original);
    check(rotyague_encode_byte(byte_stripe[0], byte_stripe[K], byte_stripe[K + 1]));
    check(rotyague_encode_shift(shift_stripe[0], shift_stripe[K], shift_stripe[K + 1]));
    plain_prepare();
    isal_table(both, 2, LOW, two_table);
    memcpy(left_of_two, left, sizeof left);
    isal_table(alone, 1, LOW, one_table);
    memcpy(left_of_one, left, sizeof left);
    // every pair of missing columns by the proved code and by plain C, then each run that is timed, while the missing columns hold other bytes
    for (int low = 0; low < K; low++) for (int high = low + 1; high < K; high++) {
        uint8_t *held[] = {byte_stripe[low], byte_stripe[high], shift_stripe[low], shift_stripe[high]};
        for (int i = 0; i < 4; i++) memset(held[i], 0x5a, BLOCK);
        uint32_t missing = 1u << low | 1u << high;
        uint8_t got[6][BLOCK];
        check(rotyague_recover_byte(byte_stripe[0], (uint8_t)low, missing, got[0]));
        check(rotyague_recover_shift(shift_stripe[0], (uint8_t)low, missing, got[1]));
        plain_recover_byte(byte_stripe[0], low, high, got[2]);
        plain_recover_shift(shift_stripe[0], low, high, got[3]);
        check(rotyague_recover_byte(byte_stripe[0], (uint8_t)high, missing, got[4]));
        check(rotyague_recover_shift(shift_stripe[0], (uint8_t)high, missing, got[5]));
        for (int i = 0; i < 4; i++) memcpy(held[i], original[i % 2 ? high : low], BLOCK);
        for (int i = 0; i < 6; i++) if (memcmp(got[i], original[i < 4 ? low : high], BLOCK) != 0) {
            printf("columns %d and %d: result %d differs\n", low, high, i);
            return 1;
        }
    }
    for (int r = 0; r < COUNT; r++) {
        if (!runs[r].recovers) continue;
        bool two = r != BYTE_ONE && r != ONE_C && r != BYTE_ONE_ISAL && r != SHIFT_ONE;
        memset(byte_stripe[LOW], 0x5a, BLOCK);
        memset(shift_stripe[LOW], 0x5a, BLOCK);
        if (two) memset(byte_stripe[HIGH], 0x5a, BLOCK), memset(shift_stripe[HIGH], 0x5a, BLOCK);
        memset(block, 0, BLOCK);
        runs[r].run(block);
        for (int i = 0; i < 2; i++) {
            memcpy(byte_stripe[both[i]], original[both[i]], BLOCK);
            memcpy(shift_stripe[both[i]], original[both[i]], BLOCK);
        }
        if (memcmp(block, original[LOW], BLOCK) != 0) {
            printf("%s: the result differs\n", runs[r].name);
            return 1;
        }
    }
    puts("all results are the original data");
    for (int r = 0; r < COUNT; r++) best[r] = 1e9;
    for (int round = 0; round < ROUNDS; round++) {
        for (int r = 0; r < COUNT; r++) {
            double t = seconds(runs[r].run, block);
            if (t < best[r]) best[r] = t;
        }
    }
    for (int r = 0; r < COUNT; r++) printf("%-55s %6.0f ns\n", runs[r].name, best[r] / TURNS * 1e9);
    ratio("byte code, two missing: proved / own encoding", BYTE_TWO, BYTE_ENCODE, best);
    ratio("byte code, two missing: proved / plain C", BYTE_TWO, BYTE_TWO_C, best);
    ratio("byte code, two missing: proved / ISA-L", BYTE_TWO, BYTE_TWO_ISAL, best);
    ratio("byte code, two missing: proved / ISA-L with its tables", BYTE_TWO, BYTE_TWO_ISAL_ALL, best);
    ratio("byte code, one missing: proved / own encoding", BYTE_ONE, BYTE_ENCODE, best);
    ratio("byte code, one missing: proved / plain C", BYTE_ONE, ONE_C, best);
    ratio("byte code, one missing: proved / ISA-L", BYTE_ONE, BYTE_ONE_ISAL, best);
    ratio("shift code, two missing: proved / own encoding", SHIFT_TWO, SHIFT_ENCODE, best);
    ratio("shift code, two missing: proved / plain C", SHIFT_TWO, SHIFT_TWO_C, best);
    ratio("shift code, one missing: proved / own encoding", SHIFT_ONE, SHIFT_ENCODE, best);
    ratio("shift code, one missing: proved / plain C", SHIFT_ONE, ONE_C, best);
    return 0;
}
