/* Measures single calls, the way an emulator uses the part: the library's, and those of the anchor (fast.h), on the
 * same 53 bytes, and on the struct that an emulator would hold instead. Ports A and B are input and output.
 *
 *   calls                  the table, times alone; exit 1 where the players differ on generated lists
 *   calls counted FILE     the same with the instructions in FILE, lines `NAME WHO NUMBER`
 *   calls names            lines `NAME WHO COUNT`: what FILE should have, and in how many calls to count it
 *   calls NAME WHO COUNT   that call, COUNT times, and nothing else: for a counter of instructions */
#define _POSIX_C_SOURCE 199309L

#include "fast.h"
#include "generate.h"
#include "measure.h"
#include "pit.h"

#define ROUNDS 15
#define ROUND_CALLS 20000u
#define COUNTED_CALLS 2000u

#define INTERRUPTING (8 * 16) /* eight orders, each with every choice of four statuses */
#define OPENINGS 8u

/* ---- Devices to begin with ---- */

static uint8_t plain[PIT_DEVICE_SIZE];
static uint8_t running[PIT_DEVICE_SIZE];
static uint8_t sampling[PIT_DEVICE_SIZE];
static uint8_t interrupting[INTERRUPTING][PIT_DEVICE_SIZE];

static void make_plain(void)
{
    pit_fresh(plain, sizeof plain);
    pit_write(plain, sizeof plain, PIT_PGCR, 0x30); /* both pairs enabled */
    pit_write(plain, sizeof plain, PIT_PBCR, 0x40); /* port B: submode 01 */
    pit_write(plain, sizeof plain, PIT_PBDDR, 0xFF); /* and an output */
}

static void make_running(void)
{
    memcpy(running, plain, sizeof running);
    pit_write(running, sizeof running, PIT_CPRL, 100);
    pit_write(running, sizeof running, PIT_TCR, 0x01); /* the clock through the prescaler, reload, run */
}

static void make_sampling(void)
{
    pit_fresh(sampling, sizeof sampling);
    pit_write(sampling, sizeof sampling, PIT_CPRL, 3);
    pit_write(sampling, sizeof sampling, PIT_TCR, 0x07); /* rises of TIN direct, reload, run */
}

static void make_interrupting(void)
{
    unsigned number, pin;

    for (number = 0; number < INTERRUPTING; number++) {
        uint8_t *each = interrupting[number];

        pit_fresh(each, PIT_DEVICE_SIZE);
        pit_write(each, PIT_DEVICE_SIZE, PIT_PGCR, 0x30); /* both pairs enabled */
        pit_write(each, PIT_DEVICE_SIZE, PIT_PIVR, 0x40);
        pit_write(each, PIT_DEVICE_SIZE, PIT_PACR, 0x86); /* both ports: submode 1X, both statuses interrupt */
        pit_write(each, PIT_DEVICE_SIZE, PIT_PBCR, 0x86);
        pit_write(each, PIT_DEVICE_SIZE, PIT_PSRR, (uint8_t)(0x18 | number / 16)); /* PIRQ, PIACK, the order */
        for (pin = 0; pin < 4; pin++) {
            pit_pin(each, PIT_DEVICE_SIZE, (uint8_t)(PIT_H1 + pin), (number >> pin & 1) == 0); /* low sets its status */
        }
    }
}

static uint8_t *copied(const uint8_t *bytes)
{
    return memcpy(malloc(PIT_DEVICE_SIZE), bytes, PIT_DEVICE_SIZE);
}

/* ---- The players' calls ---- */

static uint32_t openings[OPENINGS];
static uint32_t opened;
static volatile uint32_t answered;

/* What came of an event, for the comparison; entries of the row past its openings keep what they held. */
struct answer {
    uint32_t value;
    uint32_t opened;
    uint32_t row[OPENINGS];
    uint32_t levels;
    uint32_t of_port;
    uint32_t of_timer;
};

#define HANDLE uint8_t *
#define ON(device) device, PIT_DEVICE_SIZE
#define MADE copied
#define CALL(name) pit_##name
#define OF(name) library_##name
#include "calls_of.h"

#define HANDLE uint8_t *
#define ON(device) device, FAST_DEVICE_SIZE
#define MADE copied
#define CALL(name) fast_##name
#define OF(name) bytes_##name
#include "calls_of.h"

#define HANDLE struct fast_device *
#define ON(device) device
#define MADE fast_device_made
#define CALL(name) fast_device_##name
#define OF(name) own_##name
#include "calls_of.h"

static uint32_t nothing(uint32_t random)
{
    return random;
}

static uint32_t library_valid(uint32_t random)
{
    return random + pit_valid(library_device.plain, PIT_DEVICE_SIZE);
}

static uint32_t bytes_valid(uint32_t random)
{
    return random + fast_valid(bytes_device.plain, FAST_DEVICE_SIZE);
}

enum who { LIBRARY, BYTES, OWN, PLAYERS };

static const char *const players[PLAYERS] = {"library", "bytes", "own"};

#define EACH(name) {library_##name, bytes_##name, own_##name}

/* The first is the loop around a call alone, whose figures are taken off those of the others. */
static const struct call {
    const char *name;
    const char *what;
    uint32_t (*of[PLAYERS])(uint32_t random);
} calls[] = {
    {"nothing", "the loop around a call", {nothing, nothing, nothing}},
    {"write", "any register, any value", EACH(write)},
    {"read", "any register", EACH(read)},
    {"pin", "any pin", EACH(pin)},
    {"clock", "one clock, the timer running", EACH(clock)},
    {"clocks", "1 to 256 clocks, the timer halted", EACH(clocks)},
    {"levels", "", EACH(levels)},
    {"reset", "", EACH(reset)},
    {"port_acknowledge", "without PIACK", EACH(port_acknowledge)},
    {"vector", "port acknowledge, any order and statuses", EACH(vector)},
    {"timer_acknowledge", "", EACH(timer_acknowledge)},
    {"valid", "", {library_valid, bytes_valid, NULL}},
    {"write_data", "data A and B alone", EACH(write_data)},
    {"read_data", "data A and B alone, nothing held", EACH(read_data)},
    {"h1", "H1 alone", EACH(h1)},
    {"take", "both edges of H1, a read of data A", EACH(take)},
    {"give", "a write of data B, both edges of H3", EACH(give)},
    {"sample", "a rise of TIN, a clock, a fall", EACH(sample)},
};

#define CALLS (sizeof calls / sizeof calls[0])

static void begin(void)
{
    make_plain();
    make_running();
    make_sampling();
    make_interrupting();
    library_begin();
    bytes_begin();
    own_begin();
}

/* ---- The comparison ---- */

#define LISTS 500u

/* Plays a list's events by single calls on three devices that begin alike: how many until all that is answered, or the
 * devices' bytes, differ; *same where they never do. */
static unsigned compare_events(const uint8_t *start, const struct generate_list *list, bool *same)
{
    uint8_t *library = copied(start);
    uint8_t *bytes = copied(start);
    struct fast_device *own = fast_device_made(start);
    struct model_event event;
    uint32_t passed = 0;
    size_t position = 0;
    unsigned events = 0;

    *same = true;
    while (*same && model_next_event(list->bytes, list->size, position, &event, &position) == MODEL_ACCEPTED &&
           event.kind != MODEL_END) {
        struct answer of_library = library_answer(library, &event, passed);
        struct answer of_bytes = bytes_answer(bytes, &event, passed);
        struct answer of_own = own_answer(own, &event, passed);
        uint8_t packed[FAST_DEVICE_SIZE];

        fast_device_bytes(own, packed);
        *same = memcmp(&of_library, &of_bytes, sizeof of_library) == 0 &&
                memcmp(&of_library, &of_own, sizeof of_library) == 0 &&
                memcmp(library, bytes, PIT_DEVICE_SIZE) == 0 && memcmp(library, packed, PIT_DEVICE_SIZE) == 0;
        passed += event.clocks;
        events++;
    }
    free(library);
    free(bytes);
    free(own);
    return events;
}

static bool players_agree(void)
{
    static struct generate_list list;
    uint8_t start[PIT_DEVICE_SIZE];
    unsigned number, events = 0;
    bool same = true;

    for (number = 0; number < LISTS && same; number++) {
        struct generate_random random = generate_seeded(68230, number);

        generate_valid_device(&random, start);
        (void)pit_read(start, sizeof start, PIT_PGCR); /* flags are 0 or 1 then, as the struct has them */
        generate_list(&random, start, &list);
        events += compare_events(start, &list, &same);
    }
    if (!same) {
        printf("list %u: library and anchor differ\n", number - 1);
    } else {
        printf("library, anchor on bytes and anchor on its struct: no difference in %u events\n\n", events);
    }
    return same;
}

/* ---- The table ---- */

static void repeat(uint32_t (*call)(uint32_t random), unsigned long count)
{
    uint32_t seed = 1;

    while (count-- > 0) {
        seed = seed * 1664525u + 1013904223u;
        answered += call(seed >> 8);
    }
}

/* The best time of one call in ns, for each player; rounds take turns. */
static void time_call(const struct call *call, double *best)
{
    unsigned round, who;

    begin();
    for (round = 0; round < ROUNDS; round++) {
        for (who = 0; who < PLAYERS; who++) {
            double begun = measure_seconds();
            double each;

            if (call->of[who] == NULL) {
                continue;
            }
            repeat(call->of[who], ROUND_CALLS);
            each = (measure_seconds() - begun) / ROUND_CALLS * 1e9;
            best[who] = round == 0 || each < best[who] ? each : best[who];
        }
    }
}

static void print_figures(const char *format, const double *figures, const double *loop)
{
    unsigned who;

    for (who = 0; who < PLAYERS; who++) {
        if (figures[who] == 0) {
            printf(" %8s", "-");
        } else {
            printf(format, figures[who] - loop[who]);
        }
    }
    if (loop[LIBRARY] != 0) {
        printf(" %8.2f", (figures[LIBRARY] - loop[LIBRARY]) / (figures[BYTES] - loop[BYTES]));
    }
}

/* Four columns of nine for each of the two. */
static void print_heads(bool counted)
{
    static const char first[] = "  library   anchor   anchor library/";
    static const char second[] = "          on bytes   struct on bytes";

    printf("%-60s  %-36s%s\n", "", " ns of one call", counted ? " instructions of one call" : "");
    printf("%-60s%s%s\n", "", first, counted ? first : "");
    printf("%-60s%s%s\n", "", second, counted ? second : "");
}

static int print_table(const char *file_name)
{
    static const double none[PLAYERS];
    double loop_ns[PLAYERS], loop_counted[PLAYERS];
    unsigned number, who;

    if (!players_agree()) {
        return 1;
    }
    print_heads(file_name != NULL);
    for (number = 0; number < CALLS; number++) {
        double ns[PLAYERS] = {0}, counted[PLAYERS];

        time_call(&calls[number], ns);
        for (who = 0; who < PLAYERS; who++) {
            counted[who] = measure_counted(file_name, calls[number].name, players[who]);
        }
        printf("%-18s %-41s", calls[number].name, calls[number].what);
        print_figures(" %8.1f", ns, number == 0 ? none : loop_ns);
        if (number == 0) {
            printf(" %8s", "");
            memcpy(loop_ns, ns, sizeof ns);
            memcpy(loop_counted, counted, sizeof counted);
        }
        if (file_name != NULL) {
            print_figures(" %8.0f", counted, number == 0 ? none : loop_counted);
        }
        printf("\n");
    }
    return 0;
}

/* ---- The program ---- */

static int print_names(void)
{
    unsigned number, who;

    for (number = 0; number < CALLS; number++) {
        for (who = 0; who < PLAYERS; who++) {
            if (calls[number].of[who] != NULL) {
                printf("%s %s %u\n", calls[number].name, players[who], COUNTED_CALLS);
            }
        }
    }
    return 0;
}

static int usage(void)
{
    fprintf(stderr, "usage: calls [counted FILE | names | NAME WHO COUNT]\n");
    return 2;
}

static int repeat_named(const char *name, const char *player, unsigned long count)
{
    unsigned number = 0;
    unsigned who = 0;

    while (number < CALLS && strcmp(calls[number].name, name) != 0) {
        number++;
    }
    while (who < PLAYERS && strcmp(players[who], player) != 0) {
        who++;
    }
    if (number == CALLS || who == PLAYERS || calls[number].of[who] == NULL) {
        return usage();
    }
    begin();
    repeat(calls[number].of[who], count);
    return 0;
}

int main(int argument_count, char **arguments)
{
    if (argument_count == 1) {
        return print_table(NULL);
    }
    if (argument_count == 2 && strcmp(arguments[1], "names") == 0) {
        return print_names();
    }
    if (argument_count == 3 && strcmp(arguments[1], "counted") == 0) {
        return print_table(arguments[2]);
    }
    if (argument_count == 4) {
        return repeat_named(arguments[1], arguments[2], strtoul(arguments[3], NULL, 10));
    }
    return usage();
}
