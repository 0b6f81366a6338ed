// The loops that a C programmer would write for the same work.
#include <stdint.h>

void c_shift_block(uint16_t *words)
{
    for (int i = 0; i < 256; i++)
        words[i] = (uint16_t)(words[i] << 1) ^ (words[i] & 0x8000 ? 0xffff : 0);
}

void c_byte_block(uint8_t *bytes)
{
    for (int i = 0; i < 512; i++)
        bytes[i] = (uint8_t)(bytes[i] << 1) ^ (bytes[i] & 0x80 ? 0x1d : 0);
}

uint16_t c_shift_multiply(uint16_t word, uint32_t exponent)
{
    for (uint32_t k = exponent % 17; k > 0; k--)
        word = (uint16_t)(word << 1) ^ (word & 0x8000 ? 0xffff : 0);
    return word;
}

uint16_t c_byte_multiply(uint16_t word, uint32_t exponent)
{
    uint8_t byte = (uint8_t)word;
    for (uint32_t k = exponent % 255; k > 0; k--)
        byte = (uint8_t)(byte << 1) ^ (byte & 0x80 ? 0x1d : 0);
    return byte;
}
