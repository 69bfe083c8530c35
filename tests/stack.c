/* How much stack the calls of pit.h take. Each call is made on a stack of its own that was filled with a pattern, with
 * generated devices and lists; the deepest byte that was written tells. Prints the most that each call took, return
 * address and arguments on the stack counted in. Exits 1 where one took more than PIT_STACK. */
#include "generate.h"
#include "pit.h"

#include <stdio.h>
#include <string.h>
#include <ucontext.h>

#define ROUNDS 200u
#define STACK_ROOM 32768u
#define PATTERN 0xA5
#define RETURN_ADDRESS 8u
#define OPENINGS_ROOM 65536u

enum call {
    NOTHING,
    FRESH,
    VALID,
    PLAY,
    WRITE,
    READ,
    PIN,
    CLOCKS,
    RESET,
    PORT_ACKNOWLEDGE,
    TIMER_ACKNOWLEDGE,
    LEVELS
};

static const char *const names[] = {
    "nothing",
    "pit_fresh",
    "pit_valid",
    "pit_play",
    "pit_write",
    "pit_read",
    "pit_pin",
    "pit_clocks",
    "pit_reset",
    "pit_port_acknowledge",
    "pit_timer_acknowledge",
    "pit_levels",
};
#define CALLS (sizeof names / sizeof names[0])

static uint8_t stack[STACK_ROOM];
static ucontext_t outside;
static ucontext_t inside;

/* What the call is made with, and what keeps it from being left out. */
static struct {
    enum call call;
    uint8_t device[PIT_DEVICE_SIZE];
    struct generate_list list;
    uint8_t number;
    uint8_t value;
    uint32_t clocks;
    uint8_t answers[MODEL_ANSWERS_MOST];
    uint32_t openings[OPENINGS_ROOM];
    uint64_t totals[PIT_TOTALS];
    uint32_t opened;
    volatile uint32_t answer;
} with;

static uint32_t called(void)
{
    switch (with.call) {
    case FRESH:
        return pit_fresh(with.device, PIT_DEVICE_SIZE);
    case VALID:
        return pit_valid(with.device, PIT_DEVICE_SIZE);
    case PLAY:
        return pit_play(with.device, PIT_DEVICE_SIZE, with.list.bytes, with.list.size, with.answers,
                        sizeof with.answers, with.openings, OPENINGS_ROOM, with.totals, PIT_TOTALS);
    case WRITE:
        return pit_write(with.device, PIT_DEVICE_SIZE, with.number, with.value);
    case READ:
        return pit_read(with.device, PIT_DEVICE_SIZE, with.number);
    case PIN:
        return pit_pin(with.device, PIT_DEVICE_SIZE, with.number, with.value);
    case CLOCKS:
        return pit_clocks(with.device, PIT_DEVICE_SIZE, with.clocks, 0, with.openings, OPENINGS_ROOM, &with.opened);
    case RESET:
        return pit_reset(with.device, PIT_DEVICE_SIZE);
    case PORT_ACKNOWLEDGE:
        return pit_port_acknowledge(with.device, PIT_DEVICE_SIZE);
    case TIMER_ACKNOWLEDGE:
        return pit_timer_acknowledge(with.device, PIT_DEVICE_SIZE);
    case LEVELS:
        return pit_levels(with.device, PIT_DEVICE_SIZE);
    default:
        return 0;
    }
}

static void make_call(void)
{
    with.answer = called();
}

/* The bytes of stack from its top to the deepest that the call wrote, with what leads to the call. */
static size_t depth(enum call call)
{
    size_t untouched = 0;

    with.call = call;
    memset(stack, PATTERN, sizeof stack);
    getcontext(&inside);
    inside.uc_stack.ss_sp = stack;
    inside.uc_stack.ss_size = sizeof stack;
    inside.uc_link = &outside;
    makecontext(&inside, make_call, 0);
    swapcontext(&outside, &inside);
    while (untouched < sizeof stack && stack[untouched] == PATTERN) {
        untouched++;
    }
    return sizeof stack - untouched;
}

/* A device and a list for pit_play, which would refuse most random bytes; any device for the other calls. */
static void prepare(enum call call, uint64_t round)
{
    struct generate_random random = generate_seeded(call, round);

    if (call == PLAY) {
        generate_valid_device(&random, with.device);
        generate_list(&random, with.device, &with.list);
    } else {
        generate_any_device(&random, with.device);
    }
    with.number = (uint8_t)generate_below(&random, 34);
    with.value = (uint8_t)generate_below(&random, 256);
    with.clocks = generate_below(&random, 1u << 16);
}

int main(void)
{
    size_t leading = depth(NOTHING);
    size_t call;
    int status = 0;

    for (call = FRESH; call < CALLS; call++) {
        size_t most = 0;
        uint64_t round;

        for (round = 0; round < ROUNDS; round++) {
            size_t taken;

            prepare((enum call)call, round);
            taken = depth((enum call)call) - leading + RETURN_ADDRESS;
            most = taken > most ? taken : most;
        }
        printf("%s: %zu bytes of stack\n", names[call], most);
        if (most > PIT_STACK) {
            printf("  more than PIT_STACK, %u\n", PIT_STACK);
            status = 1;
        }
    }
    return status;
}
