/* Run/halt gating: the timer runs on the clock only while TIN, PC2, is high. In a fresh device PC2 is low, as the gate
 * card holds it, so the first trigger is a rise. A setup that takes PC2 for high says so before it enables the timer, or
 * the gate would not open before the first rise. */
#include "pit.h"

#include <inttypes.h>
#include <stdio.h>

enum { N = 2, DELAY = 32 * (N + 1), RUN = 0x03 /* port C pins, reload, CLK while TIN is high, enabled */ };

static uint8_t device[PIT_DEVICE_SIZE];

static void enable(void)
{
    pit_write(device, sizeof device, PIT_CPRL, N);
    pit_write(device, sizeof device, PIT_TCR, RUN);
}

/* Passes clocks and says at which of them the gate opens. */
static void pass(uint32_t clocks, uint32_t passed)
{
    uint32_t openings[4];
    uint32_t opened = 0;
    uint32_t place;

    pit_clocks(device, sizeof device, clocks, passed, openings, 4, &opened);
    printf("  clocks %" PRIu32 " to %" PRIu32 ":", passed + 1, passed + clocks);
    for (place = 0; place < opened; place++) {
        printf(" opens at %" PRIu32, openings[place]);
    }
    printf("%s\n", opened == 0 ? " no opening" : "");
}

int main(void)
{
    printf("PC2 held low by the card, a trigger after 50 clocks\n");
    pit_fresh(device, sizeof device);
    pit_pin(device, sizeof device, PIT_TIN, 0);
    enable();
    pass(50, 0);
    pit_pin(device, sizeof device, PIT_TIN, 1);
    pass(DELAY, 50);

    printf("PC2 stated high before the timer is enabled\n");
    pit_fresh(device, sizeof device);
    pit_pin(device, sizeof device, PIT_TIN, 1);
    enable();
    pass(2 * DELAY, 0);
    return 0;
}
