// Makes P and Q of pseudo-random data by ISA-L's pq_gen, and prints them as the constants of crates/parity_tests/src/vectors.rt.
#include <isa-l/raid.h>
#include <stdint.h>
#include <stdio.h>
#include <stdlib.h>

enum { BLOCK = 512, MOST = 10 };

static void print(const char *name, int k, const uint8_t *block) {
    if (k > 2 || name[0] == 'Q') printf("\n");
    printf("pub const %s_%d: &[u8; 512] =\n    b\"", name, k);
    for (int i = 0; i < BLOCK; i++) printf("\\x%02x", block[i]);
    printf("\";\n");
}

int main(void) {
    static uint8_t blocks[MOST + 2][BLOCK] __attribute__((aligned(64)));
    const int counts[] = {2, 3, 5, 10};
    printf("// P and Q of pseudo-random data, as ISA-L makes them. Written by vectors/pq.c.\n");
    for (int c = 0; c < 4; c++) {
        int k = counts[c];
        uint32_t state = (uint32_t)k;
        for (int column = 0; column < k; column++) {
            for (int i = 0; i < BLOCK; i++) {
                state = state * 1103515245u + 12345u;
                blocks[column][i] = state >> 16 & 0xff;
            }
        }
        void *vectors[MOST + 2];
        for (int column = 0; column < k + 2; column++) vectors[column] = blocks[column];
        if (pq_gen(k + 2, BLOCK, vectors) != 0) exit(1);
        print("P", k, blocks[k]);
        print("Q", k, blocks[k + 1]);
    }
    return 0;
}
