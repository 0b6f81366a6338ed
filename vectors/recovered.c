// Recovers two missing columns of stripes of pseudo-random blocks by ISA-L's erasure decoding, and prints them as the constants of
// crates/stripes_tests/src/vectors.rt.
#include <isa-l/erasure_code.h>
#include <isa-l/raid.h>
#include <stdint.h>
#include <stdio.h>
#include <stdlib.h>

enum { BLOCK = 512, MOST = 30 };

static void print(const char *which, const char *stripe, const uint8_t *block) {
    printf("\npub const %s_%s: &[u8; 512] =\n    b\"", which, stripe);
    for (int i = 0; i < BLOCK; i++) printf("\\x%02x", block[i]);
    printf("\";\n");
}

// With k data columns, P as column k and Q as column k + 1.
static void recover(int k, int low, int high, const char *name) {
    static uint8_t blocks[MOST + 2][BLOCK] __attribute__((aligned(64)));
    uint32_t state = (uint32_t)k;
    for (int column = 0; column < k + 2; column++) {
        for (int i = 0; i < BLOCK; i++) {
            state = state * 1103515245u + 12345u;
            blocks[column][i] = state >> 16 & 0xff;
        }
    }
    // The rows of data are those of the unit matrix, P's is all 1, and Q's the powers of 2.
    uint8_t rows[(MOST + 2) * MOST], left[MOST * MOST], back[MOST * MOST], wanted[2 * MOST], tables[32 * 2 * MOST];
    gf_gen_rs_matrix(rows, k + 2, k);
    uint8_t *sources[MOST];
    int count = 0;
    for (int column = 0; column < k + 2; column++) {
        if (column == low || column == high) continue;
        for (int i = 0; i < k; i++) left[count * k + i] = rows[column * k + i];
        sources[count++] = blocks[column];
    }
    if (gf_invert_matrix(left, back, k) != 0) exit(1);
    const int lost[] = {low, high};
    for (int e = 0; e < 2; e++) {
        for (int i = 0; i < k; i++) {
            uint8_t sum = 0;
            for (int t = 0; t < k; t++) sum ^= gf_mul(rows[lost[e] * k + t], back[t * k + i]);
            wanted[e * k + i] = sum;
        }
    }
    uint8_t *outputs[] = {blocks[low], blocks[high]};
    ec_init_tables(k, 2, wanted, tables);
    ec_encode_data(BLOCK, k, 2, tables, sources, outputs);
    // ISA-L's RAID functions take the stripe for whole again.
    void *stripe[MOST + 2];
    for (int column = 0; column < k + 2; column++) stripe[column] = blocks[column];
    if (pq_check(k + 2, BLOCK, stripe) != 0) exit(2);
    print("LOW", name, blocks[low]);
    print("HIGH", name, blocks[high]);
}

int main(void) {
    printf("// Missing columns of stripes of pseudo-random blocks, as ISA-L recovers them. Written by vectors/recovered.c.");
    printf("\n// A name has the lower or the higher one of the two, how many data columns there are, and which two are missing.");
    recover(5, 1, 3, "5_1_3");
    recover(5, 2, 5, "5_2_P");
    recover(5, 4, 6, "5_4_Q");
    recover(30, 0, 29, "30_0_29");
    return 0;
}
