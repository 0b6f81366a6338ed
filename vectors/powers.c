// Prints the first 48 powers of 2 in ISA-L's field of 256 elements, for crates/codes_tests/src/lib.rt.
#include <isa-l/erasure_code.h>
#include <stdio.h>

int main(void) {
    unsigned char x = 1;
    for (int k = 0; k < 48; k++) {
        printf("        0x%02x,\n", x);
        x = gf_mul(x, 2);
    }
    return 0;
}
