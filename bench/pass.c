/* Reads the bytes before a block's check once in each call and adds them up: what a check cannot do without.
   Standard input has the block, and in two bytes, low byte first, how many hundred calls are made. */
#include <stdint.h>
#include <stdio.h>

#include "blocks.h"

enum { CALLS = 100 };

/* Every sum ends here, so that none can be left out. */
static volatile uint32_t sink;

static uint32_t sum_of(const uint8_t *block)
{
    uint32_t sum = 0;
    for (unsigned place = 0; place < CHECK_PLACE; place++)
        sum += block[place];
    return sum;
}

int main(void)
{
    static uint8_t input[BLOCK_BYTES + 2];
    if (fread(input, 1, sizeof input, stdin) != sizeof input)
        return 2;
    unsigned calls = CALLS * (input[BLOCK_BYTES] + 256u * input[BLOCK_BYTES + 1]);
    for (unsigned call = 0; call < calls; call++) {
        input[call % CHECK_PLACE]++; /* so that no call is over the bytes of the last */
        sink += sum_of(input);
    }
    printf("%u\n", (unsigned)sink);
    return 0;
}
