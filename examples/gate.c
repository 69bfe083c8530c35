/* A burst gate. The timer opens the gate 32 x (N + 1) clocks after it is started and, reloading, as many
 * clocks after each opening. The burst list halts it four clocks after an opening and starts it again: the
 * prescaler is full then, so the next opening comes exactly one whole delay after the second start. */
#include "pit.h"

#include <inttypes.h>
#include <stdio.h>

enum { N = 2, DELAY = 32 * (N + 1), RUN = 0x01 /* port C pins, reload, CLK through the prescaler, enabled */ };

/* Events follow each other bit by bit, so most begin inside a byte. */
static const uint8_t burst[] = {
    0xA0, 0x0C, 0x62, /* bits 0-18: 101 0000000001100011, 100 clocks */
    0x00, 0x14,       /* bits 19-34: 000 10000 00000000, write TCR 00: halt at clock 100 */
    0x00, 0x24,       /* bits 35-53: 101 0000000000001001, 10 clocks */
    0x40, 0x06,       /* bits 54-69: 000 10000 00000001, write TCR 01: start at clock 110 */
    0x80, 0x2F, 0xF0  /* bits 70-88: 101 0000000001011111, 96 clocks; bits 89-91: 111, end; four fill bits */
};
static const uint32_t second_start = 110;

int main(void)
{
    uint8_t device[PIT_DEVICE_SIZE];
    uint32_t openings[8];
    uint64_t totals[PIT_TOTALS];
    uint64_t opening;
    uint32_t refusal;

    pit_fresh(device, sizeof device);
    pit_write(device, sizeof device, PIT_CPRL, N);
    pit_write(device, sizeof device, PIT_TCR, RUN);
    refusal = pit_play(device, sizeof device, burst, sizeof burst, NULL, 0, openings, 8, totals, PIT_TOTALS);
    if (refusal != PIT_ACCEPTED) {
        printf("refused with %" PRIu32 " at bit %" PRIu64 "\n", refusal, totals[PIT_PLACE]);
        return 1;
    }
    for (opening = 0; opening < totals[PIT_OPENINGS]; opening++) {
        printf("the gate opens at clock %" PRIu32 "\n", openings[opening]);
    }
    printf("the last opening is %" PRIu32 " clocks after the second start; the delay is %d\n",
           openings[opening - 1] - second_start, DELAY);
    return 0;
}
