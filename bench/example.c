/* The header used from C: the worked figures of a reel of 10 frames with 3 bad ones. */
#include <stdio.h>

#include "kifolanto.h"

int main(void) {
    uint64_t low[1], high[1];
    kifolanto_ends ends = kifolanto_chance(1, 10, 3, 1, 0, 1, 0, 0, low, 1, high, 1);
    printf("chance: %llu to %llu of 2^40\n", (unsigned long long)ends.lo, (unsigned long long)ends.hi);
    kifolanto_number size = kifolanto_smallest(1, 10, 3, 50000, 0, low, 1, high, 1);
    printf("smallest: %u\n", size.value);
    kifolanto_number frame = kifolanto_locate(3, 200, 4, 4);
    printf("4 + 4 in scheme 3: frame %u\n", frame.value);
    kifolanto_address_answer address = kifolanto_address(1, 200, frame.value);
    printf("frame %u in scheme 1: %u + %u\n", frame.value, address.whole, address.part);
    kifolanto_number wrong = kifolanto_locate(1, 200, 0, 16);
    printf("0 + 16 in scheme 1: no %u %u %c\n", wrong.refused.number, wrong.refused.place, wrong.refused.layer);
    return 0;
}
