/* jellyplain_decimal and jellyplain_decimals: the vectors of c/tests/decimals.txt on standard input, made by whole numbers (python/tests/test_decimals.py), and 300,000 patterns of bits, each of which, read
 * back, is on the right side: strtod rounds to the nearest, so that a decimal below the float is never read above it. What is wrong is printed, and the exit status is 1. */
#include <stdio.h>
#include <stdlib.h>

#include "jellyplain.h"

static float of_bits(uint32_t bits)
{
    float value;
    memcpy(&value, &bits, sizeof value);
    return value;
}

int main(void)
{
    char down[JELLYPLAIN_DECIMAL], up[JELLYPLAIN_DECIMAL], low[64], high[64], text[6][JELLYPLAIN_DECIMAL];
    unsigned bits, places, count = 0, failed = 0;
    while (scanf("%8x %u %63s %63s", &bits, &places, low, high) == 4) {
        jellyplain_decimal(of_bits(bits), false, places, down);
        jellyplain_decimal(of_bits(bits), true, places, up);
        if (strcmp(down, low) != 0 || strcmp(up, high) != 0) {
            printf("%08x with %u places: %s and %s, and not %s and %s\n", bits, places, down, up, low, high);
            failed++;
        }
        count++;
    }
    uint64_t state = 45;
    for (unsigned k = 0; k < 300000; k++) {
        state = state * 6364136223846793005u + 1442695040888963407u;
        bits = (unsigned)(state >> 32);
        float value = of_bits(bits);
        if ((bits >> 23 & 255) == 255)
            continue;
        jellyplain_decimal(value, false, k % 12, down);
        jellyplain_decimal(value, true, k % 12, up);
        if (!(strtod(down, NULL) <= (double)value && (double)value <= strtod(up, NULL))) {
            printf("%08x with %u places: %s to %s\n", bits, k % 12, down, up);
            failed++;
        }
    }
    const float box[6] = {-0.1f, 0.1f, 1, -0.1f, 0.1f, 1};
    const char *const expected[6] = {"-0.101", "0.100", "1.000", "-0.100", "0.101", "1.000"};
    jellyplain_decimals(box, 3, text);
    for (unsigned k = 0; k < 6; k++)
        failed += strcmp(text[k], expected[k]) != 0;
    const uint32_t no_numbers[3] = {0x7fc00000, 0x7f800000, 0xff800000};
    const char *const said[3] = {"nan", "inf", "-inf"};
    for (unsigned k = 0; k < 3; k++) {
        jellyplain_decimal(of_bits(no_numbers[k]), true, 3, up);
        failed += strcmp(up, said[k]) != 0;
    }
    printf("%u vectors of decimals, %u wrong\n", count, failed);
    return count == 0 || failed != 0;
}
