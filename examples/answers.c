/* Writes a list, plays it and takes its answers apart. A byte comes in through port A, and the timer is acknowledged
 * before and after it opens the gate. Then the same list, a byte too short, is refused. */
#include "pit.h"

#include <inttypes.h>
#include <stdio.h>

/* A list as it is written: bit by bit, each field with its most significant bit first. Bytes start as 0, so the fill
 * after the end mark is there already. */
struct list {
    uint8_t bytes[64];
    size_t bits;
};

static void put(struct list *list, unsigned value, unsigned width)
{
    while (width-- > 0) {
        list->bytes[list->bits / 8] |= (uint8_t)((value >> width & 1) << (7 - list->bits % 8));
        list->bits++;
    }
}

static void put_write(struct list *list, unsigned number, unsigned value)
{
    put(list, PIT_EVENT_WRITE, 3);
    put(list, number, 5);
    put(list, value, 8);
}

static void put_read(struct list *list, unsigned number)
{
    put(list, PIT_EVENT_READ, 3);
    put(list, number, 5);
}

static void put_pin(struct list *list, unsigned pin, unsigned level)
{
    put(list, PIT_EVENT_PIN, 3);
    put(list, pin, 5);
    put(list, level, 1);
}

static void put_clocks(struct list *list, unsigned clocks)
{
    put(list, PIT_EVENT_CLOCKS, 3);
    put(list, clocks - 1, 16);
}

/* What each answer is of, in the order of the reads and acknowledges below. */
static const char *const asked[] = {"data A", "timer acknowledge", "timer acknowledge", "TSR"};

static void put_events(struct list *list)
{
    put_write(list, PIT_PGCR, 0x10); /* H1 and H2 enabled, low is asserted; PACR is 00: buffered input */
    put_pin(list, PIT_PA(1), 0);
    put_pin(list, PIT_PA(3), 0);
    put_pin(list, PIT_H1, 0); /* stores the eight levels of port A, F5 */
    put_read(list, PIT_PADR);
    put_write(list, PIT_TIVR, 0x55);
    put_write(list, PIT_CPRL, 1);
    put_write(list, PIT_TCR, 0xA1); /* TOUT as request, TIACK, reload, CLK through the prescaler, run */
    put(list, PIT_EVENT_TIMER_ACKNOWLEDGE, 3);
    put_clocks(list, 64);
    put(list, PIT_EVENT_TIMER_ACKNOWLEDGE, 3);
    put_read(list, PIT_TSR);
    put(list, PIT_EVENT_END, 3);
}

int main(void)
{
    struct list list = {{0}, 0};
    uint8_t device[PIT_DEVICE_SIZE];
    uint8_t answers[2 * sizeof asked / sizeof asked[0]]; /* two bytes each */
    uint32_t openings[1];
    uint64_t totals[PIT_TOTALS];
    size_t size;
    size_t answer;
    uint32_t refusal;

    put_events(&list);
    size = (list.bits + 7) / 8;
    if (pit_fresh(device, sizeof device) == PIT_WRONG_SIZE) {
        printf("the library is of another version than the header, %u\n", PIT_VERSION);
        return 1;
    }
    refusal =
        pit_play(device, sizeof device, list.bytes, size, answers, sizeof answers, openings, 1, totals, PIT_TOTALS);
    if (refusal != PIT_ACCEPTED) {
        printf("refused with %" PRIu32 " at bit %" PRIu64 "\n", refusal, totals[PIT_PLACE]);
        return 1;
    }
    for (answer = 0; answer < totals[PIT_ANSWERS] / 2; answer++) {
        if (answers[2 * answer] == 0) {
            printf("%s: no response\n", asked[answer]);
        } else {
            printf("%s: %02X\n", asked[answer], answers[2 * answer + 1]);
        }
    }
    printf("openings: %" PRIu64 ", the first at clock %" PRIu32 "\n", totals[PIT_OPENINGS], openings[0]);

    refusal = pit_play(device, sizeof device, list.bytes, size - 1, answers, sizeof answers, openings, 1, totals,
                       PIT_TOTALS);
    if (refusal == PIT_REFUSED_CUT_SHORT) {
        printf("a byte less: cut short, the event at bit %" PRIu64 " of %zu\n", totals[PIT_PLACE], 8 * (size - 1));
    }
    return 0;
}
