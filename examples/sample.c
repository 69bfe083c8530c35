/* A sample clock on TIN. With source 11 the timer counts rises of TIN, PC2. A rise is held and the next clock takes it,
 * so the gate opens at a clock and never at the rise itself, and samples that come within one clock period count once.
 * Of those that count every N + 1st opens the gate: the first loads the preload, N, and each further one lowers it. */
#include "pit.h"

#include <inttypes.h>
#include <stdio.h>

enum { N = 3, SAMPLES = 12, RUN = 0x07 /* port C pins, reload, rises of TIN direct, enabled */ };

static uint8_t device[PIT_DEVICE_SIZE];

/* TIN's level is stated before the timer is enabled: low, so that the first sample is a rise. */
static void enable(void)
{
    pit_fresh(device, sizeof device);
    pit_pin(device, sizeof device, PIT_TIN, 0);
    pit_write(device, sizeof device, PIT_CPRL, N);
    pit_write(device, sizeof device, PIT_TCR, RUN);
}

static void sample(void)
{
    pit_pin(device, sizeof device, PIT_TIN, 1);
    pit_pin(device, sizeof device, PIT_TIN, 0);
}

/* Gives all samples, so many in a row and then so many clocks, and says at which clocks the gate opens. */
static void count_samples(const char *what, unsigned in_a_row, uint32_t clocks)
{
    uint32_t passed = 0;
    unsigned given;

    enable();
    printf("%d samples, %s: opens at", SAMPLES, what);
    for (given = 1; given <= SAMPLES; given++) {
        sample();
        if (given % in_a_row == 0) {
            uint32_t opening;
            uint32_t opened = 0;

            pit_clocks(device, sizeof device, clocks, passed, &opening, 1, &opened);
            passed += clocks;
            if (opened > 0) {
                printf(" %" PRIu32, opening);
            }
        }
    }
    printf("\n");
}

static void show(const char *when)
{
    printf("  %s: count %" PRIu32 ", ZDS %" PRIu32 "\n", when, pit_read(device, sizeof device, PIT_CNTRL),
           pit_read(device, sizeof device, PIT_TSR));
}

int main(void)
{
    uint32_t opened;
    unsigned given;

    count_samples("one in five clocks", 1, 5);
    count_samples("one in each clock", 1, 1);
    count_samples("two in each clock, which count once", 2, 1);

    enable();
    for (given = 1; given <= N; given++) {
        sample();
        pit_clocks(device, sizeof device, 1, given - 1, NULL, 0, &opened);
    }
    printf("sample number %d:\n", N + 1);
    show("before the rise");
    sample();
    show("after the rise");
    pit_clocks(device, sizeof device, 1, N, NULL, 0, &opened);
    show("after the next clock");
    return 0;
}
