/* Holds the library to what pit.h says beside each call's own work: its numbers, NULL with length 0, what a call that
 * does nothing writes, what is kept in what was lent, and each refusal with its place and its turn. Prints what is
 * wrong, and exits 1 where something is. */
#include "generate.h"
#include "pit.h"
#include "writer.h"

#include <stdio.h>
#include <string.h>

#define ROUNDS 4000u
#define ROOM 16u
#define UNTOUCHED_BYTE 0x5A
#define UNTOUCHED 0x5A5A5A5Au

/* ---- Numbers, which the model has from document 01 by itself ---- */

#define SAME(what, stated, meant) typedef char what[(stated) == (meant) ? 1 : -1]

SAME(same_size, PIT_DEVICE_SIZE, MODEL_DEVICE_SIZE);
SAME(same_version, PIT_VERSION, PIT_DEVICE_SIZE);
SAME(same_list_most, PIT_LIST_MOST, MODEL_LIST_MOST);
SAME(same_silent, PIT_SILENT, MODEL_SILENT);

SAME(same_accepted, PIT_ACCEPTED, MODEL_ACCEPTED);
SAME(same_too_long, PIT_REFUSED_TOO_LONG, MODEL_TOO_LONG);
SAME(same_cut_short, PIT_REFUSED_CUT_SHORT, MODEL_CUT_SHORT);
SAME(same_no_such_pin, PIT_REFUSED_PIN, MODEL_NO_SUCH_PIN);
SAME(same_fill, PIT_REFUSED_FILL, MODEL_FILL_NOT_ZERO);
SAME(same_after_end, PIT_REFUSED_AFTER_END, MODEL_BYTE_AFTER_END);
SAME(same_answers, PIT_REFUSED_ANSWERS, MODEL_ANSWERS_TOO_FEW);
SAME(same_openings, PIT_REFUSED_OPENINGS, MODEL_OPENINGS_TOO_FEW);
SAME(same_device, PIT_REFUSED_DEVICE, MODEL_DEVICE_NOT_VALID);
SAME(same_refusals, PIT_REFUSED_DEVICE + 1, MODEL_REFUSALS);

SAME(same_kind_write, PIT_EVENT_WRITE, MODEL_WRITE);
SAME(same_kind_read, PIT_EVENT_READ, MODEL_READ);
SAME(same_kind_port_acknowledge, PIT_EVENT_PORT_ACKNOWLEDGE, MODEL_PORT_ACKNOWLEDGE);
SAME(same_kind_timer_acknowledge, PIT_EVENT_TIMER_ACKNOWLEDGE, MODEL_TIMER_ACKNOWLEDGE);
SAME(same_kind_pin, PIT_EVENT_PIN, MODEL_PIN);
SAME(same_kind_clocks, PIT_EVENT_CLOCKS, MODEL_CLOCKS);
SAME(same_kind_reset, PIT_EVENT_RESET, MODEL_RESET);
SAME(same_kind_end, PIT_EVENT_END, MODEL_END);

SAME(same_pgcr, PIT_PGCR, MODEL_PGCR);
SAME(same_psrr, PIT_PSRR, MODEL_PSRR);
SAME(same_paddr, PIT_PADDR, MODEL_DIRECTION_A);
SAME(same_pbddr, PIT_PBDDR, MODEL_DIRECTION_B);
SAME(same_pcddr, PIT_PCDDR, MODEL_DIRECTION_C);
SAME(same_pivr, PIT_PIVR, MODEL_PIVR);
SAME(same_pacr, PIT_PACR, MODEL_PACR);
SAME(same_pbcr, PIT_PBCR, MODEL_PBCR);
SAME(same_padr, PIT_PADR, MODEL_DATA_A);
SAME(same_pbdr, PIT_PBDR, MODEL_DATA_B);
SAME(same_paar, PIT_PAAR, MODEL_ALTERNATE_A);
SAME(same_pbar, PIT_PBAR, MODEL_ALTERNATE_B);
SAME(same_pcdr, PIT_PCDR, MODEL_DATA_C);
SAME(same_psr, PIT_PSR, MODEL_PSR);
SAME(same_tcr, PIT_TCR, MODEL_TCR);
SAME(same_tivr, PIT_TIVR, MODEL_TIVR);
SAME(same_cprh, PIT_CPRH, MODEL_PRELOAD_HIGH);
SAME(same_cprm, PIT_CPRM, MODEL_PRELOAD_MID);
SAME(same_cprl, PIT_CPRL, MODEL_PRELOAD_LOW);
SAME(same_cntrh, PIT_CNTRH, MODEL_COUNT_HIGH);
SAME(same_cntrm, PIT_CNTRM, MODEL_COUNT_MID);
SAME(same_cntrl, PIT_CNTRL, MODEL_COUNT_LOW);
SAME(same_tsr, PIT_TSR, MODEL_TSR);

SAME(same_pa, PIT_PA(0), MODEL_PIN_A);
SAME(same_pb, PIT_PB(0), MODEL_PIN_B);
SAME(same_pc, PIT_PC(0), MODEL_PIN_C);
SAME(same_tin, PIT_TIN, MODEL_PIN_TIN);
SAME(same_h1, PIT_H1, MODEL_PIN_H1);
SAME(same_h4, PIT_H4 + 1, MODEL_PINS);
SAME(same_pins, PIT_PINS, MODEL_PINS);

/* ---- What is wrong ---- */

static unsigned faults;

static void expect(const char *what, uint64_t found, uint64_t meant)
{
    if (found != meant) {
        printf("%s: %#llx, expected %#llx\n", what, (unsigned long long)found, (unsigned long long)meant);
        faults++;
    }
}

static void expect_bytes(const char *what, const void *found, const void *meant, size_t size)
{
    if (memcmp(found, meant, size) != 0) {
        printf("%s: other bytes than expected\n", what);
        faults++;
    }
}

/* ---- Devices and what a call is lent ---- */

static uint8_t device[PIT_DEVICE_SIZE];
static uint8_t before[PIT_DEVICE_SIZE];
static uint8_t answers[ROOM];
static uint32_t openings[ROOM];
static uint64_t totals[PIT_TOTALS];
static uint32_t opened;

static void lend(void)
{
    memset(answers, UNTOUCHED_BYTE, sizeof answers);
    memset(openings, UNTOUCHED_BYTE, sizeof openings);
    memset(totals, UNTOUCHED_BYTE, sizeof totals);
    opened = UNTOUCHED;
}

/* The flags as pit.h lists them, and as the model's rows have them. */
static bool stated_flag(size_t place)
{
    static const uint8_t flags[] = {13, 14, 15, 26, 27, 28, 42, 43, 44, 48, 49, 50, 51, 52};

    return memchr(flags, (int)place, sizeof flags) != NULL;
}

static void expect_flags_as_stated(void)
{
    enum { byte, flag, number };
#define ROW(kind, place, most, name) {kind, MODEL_WIDTH_##kind},
    static const struct {
        int kind;
        size_t width;
    } rows[] = {MODEL_LAYOUT(ROW)};
    size_t place = 0;
    size_t row;

    for (row = 0; row < sizeof rows / sizeof rows[0]; row++) {
        expect("a flag as stated", stated_flag(place), rows[row].kind == flag);
        place += rows[row].width;
    }
}

/* Bytes of any kind, flags other than 0 and 1 among them. */
static void any_device(struct generate_random *random)
{
    size_t place;

    generate_any_device(random, device);
    for (place = 0; place < sizeof device; place++) {
        if (generate_below(random, 4) == 0 || (stated_flag(place) && device[place] != 0)) {
            device[place] = (uint8_t)generate_below(random, 256);
        }
    }
    memcpy(before, device, sizeof device);
}

/* The same device, to the sight of 01, with flags of 2 to 255. */
static void valid_device(struct generate_random *random)
{
    size_t place;

    generate_valid_device(random, device);
    for (place = 0; place < sizeof device; place++) {
        if (stated_flag(place) && device[place] != 0) {
            device[place] = (uint8_t)(1 + generate_below(random, 255));
        }
    }
    memcpy(before, device, sizeof device);
}

static void put_back(void)
{
    memcpy(device, before, sizeof device);
}

static const uint8_t *normalised(void)
{
    static uint8_t bytes[PIT_DEVICE_SIZE];
    size_t place;

    for (place = 0; place < sizeof bytes; place++) {
        bytes[place] = stated_flag(place) ? before[place] != 0 : before[place];
    }
    return bytes;
}

static void expect_normalised(const char *what)
{
    expect_bytes(what, device, normalised(), sizeof device);
    put_back();
}

static void expect_flags_0_or_1(const char *what)
{
    size_t place;

    for (place = 0; place < sizeof device; place++) {
        if (stated_flag(place) && device[place] > 1) {
            expect(what, device[place], 1);
        }
    }
    put_back();
}

/* ---- What calls do that do nothing ---- */

static void calls_that_do_nothing(struct generate_random *random)
{
    static const uint8_t not_written[] = {PIT_PAAR,  PIT_PBAR,  14, 15, 18, 22, PIT_CNTRH,
                                          PIT_CNTRM, PIT_CNTRL, 27, 28, 29, 30, 31};
    uint8_t number = (uint8_t)(32 + generate_below(random, 224));
    size_t place;

    for (place = 0; place < sizeof not_written; place++) {
        expect("a write that is ignored", pit_write(device, sizeof device, not_written[place], 0xFF), 0);
        expect_normalised("a write that is ignored");
    }
    expect("a write over 31", pit_write(device, sizeof device, number, 0xFF), 0);
    expect_normalised("a write over 31");
    expect("a read over 31", pit_read(device, sizeof device, number), 0);
    expect_normalised("a read over 31");
    for (number = 0; number < 32; number++) {
        if (number != PIT_PADR && number != PIT_PBDR) {
            pit_read(device, sizeof device, number);
            expect_normalised("a read that removes nothing");
        }
    }
    number = (uint8_t)(PIT_PINS + generate_below(random, 256 - PIT_PINS));
    expect("a pin over 27", pit_pin(device, sizeof device, number, number & 1), 0);
    expect_normalised("a pin over 27");
    expect("no clocks", pit_clocks(device, sizeof device, 0, 7, NULL, 0, &opened), 0);
    expect("openings of no clocks", opened, 0);
    expect_normalised("no clocks");
}

/* Nothing but flags and the field that something happened to is rewritten. */
static void calls_that_do_little(struct generate_random *random)
{
    uint8_t meant[PIT_DEVICE_SIZE];
    uint8_t pin = (uint8_t)generate_below(random, 8);

    memcpy(meant, normalised(), sizeof meant);
    meant[45] = (uint8_t)(meant[45] & ~(1u << pin));
    pit_pin(device, sizeof device, (uint8_t)PIT_PA(pin), 0);
    expect_bytes("a level at port A", device, meant, sizeof device);
    put_back();
    memcpy(meant, normalised(), sizeof meant);
    meant[32] = 0x55;
    pit_write(device, sizeof device, PIT_TIVR, 0x55);
    expect_bytes("a write of TIVR", device, meant, sizeof device);
    put_back();
}

static void calls_that_do_something(struct generate_random *random)
{
    uint8_t number = (uint8_t)generate_below(random, 32);

    pit_write(device, sizeof device, number, (uint8_t)generate_below(random, 256));
    expect_flags_0_or_1("flags after a write");
    pit_read(device, sizeof device, generate_below(random, 2) ? PIT_PADR : PIT_PBDR);
    expect_flags_0_or_1("flags after a read");
    number = (uint8_t)generate_below(random, PIT_PINS);
    expect("a level", pit_pin(device, sizeof device, number, (uint8_t)generate_below(random, 256)), 0);
    expect_flags_0_or_1("flags after a level");
    pit_clocks(device, sizeof device, generate_below(random, 1000), 0, openings, ROOM, &opened);
    expect_flags_0_or_1("flags after clocks");
    pit_reset(device, sizeof device);
    expect_flags_0_or_1("flags after reset");
    pit_fresh(device, sizeof device);
    expect_flags_0_or_1("flags after fresh");
}

static void plays_that_do_nothing(struct generate_random *random)
{
    static const uint8_t no_event[] = {0xE0};
    static const uint8_t cut_short[] = {0x11, 0x55, 0x10, 0x01}; /* write TIVR 55, write TCR 01, no end mark */

    any_device(random);
    if (pit_valid(device, sizeof device) == 0) {
        expect("a device that can't be",
               pit_play(device, sizeof device, no_event, sizeof no_event, NULL, 0, NULL, 0, totals, PIT_TOTALS),
               PIT_REFUSED_DEVICE);
        expect_bytes("a device refused", device, before, sizeof device);
    }
    valid_device(random);
    expect("a valid device", pit_valid(device, sizeof device), 1);
    expect("a list cut short",
           pit_play(device, sizeof device, cut_short, sizeof cut_short, NULL, 0, NULL, 0, totals, PIT_TOTALS),
           PIT_REFUSED_CUT_SHORT);
    expect_bytes("the device of a refused list", device, before, sizeof device);
    expect("a list without events",
           pit_play(device, sizeof device, no_event, sizeof no_event, NULL, 0, NULL, 0, totals, PIT_TOTALS), 0);
    expect_normalised("the device of a list without events");
}

/* ---- NULL with length 0 ---- */

static void null_with_0(void)
{
    static const uint8_t read[] = {0x2D, 0xE0};                                /* read PSR */
    static const uint8_t opens[] = {0x15, 0x01, 0x10, 0x01, 0xA0, 0x07, 0xFC}; /* preload 1, run, 64 clocks */

    pit_fresh(device, sizeof device);
    lend();
    expect("no list", pit_play(device, sizeof device, NULL, 0, NULL, 0, NULL, 0, totals, PIT_TOTALS),
           PIT_REFUSED_CUT_SHORT);
    expect("the place in no list", totals[PIT_PLACE], 0);
    expect("no answers lent",
           pit_play(device, sizeof device, read, sizeof read, NULL, 0, NULL, 0, totals, PIT_TOTALS),
           PIT_REFUSED_ANSWERS);
    expect("no openings lent",
           pit_play(device, sizeof device, opens, sizeof opens, NULL, 0, NULL, 0, totals, PIT_TOTALS),
           PIT_REFUSED_OPENINGS);
    expect("an opening lent",
           pit_play(device, sizeof device, opens, sizeof opens, NULL, 0, openings, 1, totals, PIT_TOTALS), 0);
    expect("the opening", openings[0], 64);
    expect("clocks without a row", pit_clocks(device, sizeof device, 64, 64, NULL, 0, &opened), 0);
    expect("openings without a row", opened, 1);

    expect("no totals", pit_play(device, sizeof device, NULL, 0, NULL, 0, NULL, 0, NULL, 0), PIT_WRONG_SIZE);
    expect("no device to play", pit_play(NULL, 0, NULL, 0, NULL, 0, NULL, 0, totals, PIT_TOTALS), PIT_WRONG_SIZE);
    expect("no device: fresh", pit_fresh(NULL, 0), PIT_WRONG_SIZE);
    expect("no device: valid", pit_valid(NULL, 0), PIT_WRONG_SIZE);
    expect("no device: write", pit_write(NULL, 0, PIT_TCR, 1), PIT_WRONG_SIZE);
    expect("no device: read", pit_read(NULL, 0, PIT_TCR), PIT_WRONG_SIZE);
    expect("no device: pin", pit_pin(NULL, 0, PIT_H1, 0), PIT_WRONG_SIZE);
    expect("no device: clocks", pit_clocks(NULL, 0, 1, 0, NULL, 0, &opened), PIT_WRONG_SIZE);
    expect("no device: reset", pit_reset(NULL, 0), PIT_WRONG_SIZE);
    expect("no device: port acknowledge", pit_port_acknowledge(NULL, 0), PIT_WRONG_SIZE);
    expect("no device: timer acknowledge", pit_timer_acknowledge(NULL, 0), PIT_WRONG_SIZE);
    expect("no device: levels", pit_levels(NULL, 0), PIT_WRONG_SIZE);
}

/* ---- What is kept in what was lent ---- */

static void expect_kept(const char *what, size_t used_answers, size_t used_openings)
{
    uint8_t kept[sizeof openings];

    memset(kept, UNTOUCHED_BYTE, sizeof kept);
    expect_bytes(what, answers + used_answers, kept, sizeof answers - used_answers);
    expect_bytes(what, openings + used_openings, kept, sizeof openings - used_openings * sizeof openings[0]);
}

static void lent_rows(void)
{
    /* examples/first.list: preload 1, run, 128 clocks, read TSR; and as long without its end mark */
    static const uint8_t first[] = {0x15, 0x01, 0x10, 0x01, 0xA0, 0x0F, 0xE7, 0x5C};
    size_t total;

    pit_fresh(device, sizeof device);
    memcpy(before, device, sizeof device);
    lend();
    expect(
        "the first list but its last byte",
        pit_play(device, sizeof device, first, sizeof first - 1, answers, ROOM, openings, ROOM, totals, PIT_TOTALS),
        PIT_REFUSED_CUT_SHORT);
    expect("its place", totals[PIT_PLACE], 51);
    expect("its answers, openings and clocks", totals[PIT_ANSWERS] | totals[PIT_OPENINGS] | totals[PIT_CLOCKS], 0);
    expect_kept("lent to a refused list", 0, 0);
    expect_bytes("the device of a refused list", device, before, sizeof device);

    lend();
    for (total = 0; total < 2 * PIT_TOTALS; total++) {
        if (total != PIT_TOTALS) {
            expect("totals of another count",
                   pit_play(device, sizeof device, first, sizeof first, answers, ROOM, openings, ROOM, totals, total),
                   PIT_WRONG_SIZE);
        }
    }
    for (total = 0; total < PIT_TOTALS; total++) {
        expect("totals after a wrong size", totals[total], 0x0101010101010101u * UNTOUCHED_BYTE);
    }
    expect("clocks of a device of another size",
           pit_clocks(device, sizeof device - 1, 128, 0, openings, ROOM, &opened), PIT_WRONG_SIZE);
    expect("openings after a wrong size", opened, UNTOUCHED);
    expect_kept("lent with a wrong size", 0, 0);

    expect("the first list",
           pit_play(device, sizeof device, first, sizeof first, answers, ROOM, openings, ROOM, totals, PIT_TOTALS),
           PIT_ACCEPTED);
    expect("its place", totals[PIT_PLACE], 0);
    expect("its answer bytes", totals[PIT_ANSWERS], 2);
    expect("its openings", totals[PIT_OPENINGS], 2);
    expect("its clocks", totals[PIT_CLOCKS], 128);
    expect("its answer", (uint32_t)answers[0] << 8 | answers[1], 0x101);
    expect("its first opening", openings[0], 64);
    expect("its second opening", openings[1], 128);
    expect_kept("past what the list used", 2, 2);

    lend();
    expect("192 clocks", pit_clocks(device, sizeof device, 192, 128, openings, 2, &opened), 0);
    expect("their openings", opened, 3);
    expect("the second of them", openings[1], 256);
    expect_kept("past the row", 0, 2);
}

/* ---- Refusals ---- */

static void refusals(void)
{
    static const struct {
        uint8_t list[8];
        uint8_t size;
        uint8_t answers_size;
        uint8_t openings_count;
        uint8_t refusal;
        uint8_t place;
    } trials[] = {
        {{0xE0}, 1, 0, 0, PIT_ACCEPTED, 0},                       /* end */
        {{0}, 0, 0, 0, PIT_REFUSED_CUT_SHORT, 0},                 /* nothing */
        {{0x15, 0x01}, 2, 0, 0, PIT_REFUSED_CUT_SHORT, 16},       /* no end mark */
        {{0x15, 0x01, 0x00}, 3, 0, 0, PIT_REFUSED_CUT_SHORT, 16}, /* a write without its value */
        {{0x40}, 1, 0, 0, PIT_REFUSED_CUT_SHORT, 3},              /* an acknowledge, five zeros */
        {{0x48}, 1, 0, 0, PIT_REFUSED_CUT_SHORT, 6},              /* two acknowledges, two zeros */
        {{0x9C, 0x00}, 2, 0, 0, PIT_REFUSED_PIN, 0},              /* pin 28 */
        {{0x9C}, 1, 0, 0, PIT_REFUSED_CUT_SHORT, 0},              /* pin 28 without a level: 2 before 3 */
        {{0xE1}, 1, 0, 0, PIT_REFUSED_FILL, 3},                   /* the last fill bit */
        {{0xE0, 0x00}, 2, 0, 0, PIT_REFUSED_AFTER_END, 8},        /* a byte after the end */
        {{0xE1, 0x00}, 2, 0, 0, PIT_REFUSED_FILL, 3},             /* 4 before 5 */
        {{0x2D, 0xE0, 0x00}, 3, 0, 0, PIT_REFUSED_AFTER_END, 16}, /* 5 before 6 */
        {{0x2D, 0xE0}, 2, 1, 0, PIT_REFUSED_ANSWERS, 0},          /* one byte for a read */
        {{0x2D, 0xE0}, 2, 2, 0, PIT_ACCEPTED, 0},                 /* two */
        {{0x5C}, 1, 1, 0, PIT_REFUSED_ANSWERS, 0},                /* one byte for a silent acknowledge */
        {{0x15, 0x01, 0x10, 0x01, 0xA0, 0x0F, 0xFC}, 7, 0, 1, PIT_REFUSED_OPENINGS, 0}, /* two openings, one lent */
        {{0x15, 0x01, 0x10, 0x01, 0xA0, 0x0F, 0xFC}, 7, 0, 2, PIT_ACCEPTED, 0},
        {{0x15, 0x01, 0x10, 0x01, 0xA0, 0x0F, 0xE7, 0x5C}, 8, 0, 0, PIT_REFUSED_ANSWERS, 0}, /* 6 before 7 */
    };
    static uint8_t long_list[PIT_LIST_MOST + 1];
    size_t trial;

    for (trial = 0; trial < sizeof trials / sizeof trials[0]; trial++) {
        char what[32];

        sprintf(what, "trial %u", (unsigned)trial);
        pit_fresh(device, sizeof device);
        lend();
        expect(what,
               pit_play(device, sizeof device, trials[trial].list, trials[trial].size, answers,
                        trials[trial].answers_size, openings, trials[trial].openings_count, totals, PIT_TOTALS),
               trials[trial].refusal);
        expect(what, totals[PIT_PLACE], trials[trial].place);
        pit_fresh(device, sizeof device);
        device[41] = 32; /* prescaler */
        expect("8 before all",
               pit_play(device, sizeof device, trials[trial].list, trials[trial].size, answers,
                        trials[trial].answers_size, openings, trials[trial].openings_count, totals, PIT_TOTALS),
               PIT_REFUSED_DEVICE);
        expect("its place", totals[PIT_PLACE], 0);
    }
    pit_fresh(device, sizeof device);
    long_list[0] = 0x9C; /* pin 28 */
    expect("1 before 2 and 3",
           pit_play(device, sizeof device, long_list, sizeof long_list, NULL, 0, NULL, 0, totals, PIT_TOTALS),
           PIT_REFUSED_TOO_LONG);
    expect("its place", totals[PIT_PLACE], 0);
    expect("16,384 bytes",
           pit_play(device, sizeof device, long_list, sizeof long_list - 1, NULL, 0, NULL, 0, totals, PIT_TOTALS),
           PIT_REFUSED_PIN);
}

/* An acknowledge without response gives 0 and 0, a register that is none 1 and 0. */
static void answer_bytes(void)
{
    static const uint8_t meant[] = {0, 0, 0, 0, 1, 0, 1, 0xF0};
    uint8_t bytes[8];
    struct writer writer = {bytes, 0};
    size_t size;

    writer_bare(&writer, MODEL_PORT_ACKNOWLEDGE);
    writer_bare(&writer, MODEL_TIMER_ACKNOWLEDGE);
    writer_read(&writer, 14);
    writer_read(&writer, PIT_PSR);
    size = writer_end(&writer);
    pit_fresh(device, sizeof device);
    lend();
    expect("four answers", pit_play(device, sizeof device, bytes, size, answers, ROOM, NULL, 0, totals, PIT_TOTALS),
           0);
    expect("their bytes", totals[PIT_ANSWERS], sizeof meant);
    expect_bytes("four answers", answers, meant, sizeof meant);
}

/* ---- A rise of TIN ---- */

#define RISE_HELD 52u /* the byte of the layout */

/* Preload 1, source 11; the first rise and a clock have loaded it. */
static void about_to_open(void)
{
    pit_fresh(device, sizeof device);
    pit_write(device, sizeof device, PIT_CPRL, 1);
    pit_write(device, sizeof device, PIT_TCR, 0x07);
    pit_pin(device, sizeof device, PIT_TIN, 1);
    pit_clocks(device, sizeof device, 1, 0, NULL, 0, &opened);
    pit_pin(device, sizeof device, PIT_TIN, 0);
    lend();
}

/* A rise opens nothing: it is held, further ones add nothing, and the next clock opens. */
static void rises_of_tin(void)
{
    unsigned rise;

    about_to_open();
    expect("no rise held", device[RISE_HELD], 0);
    for (rise = 0; rise < 3; rise++) {
        expect("a rise of TIN", pit_pin(device, sizeof device, PIT_TIN, 1), 0);
        expect("a fall of TIN", pit_pin(device, sizeof device, PIT_TIN, 0), 0);
        expect("a rise held", device[RISE_HELD], 1);
        expect("the count before the clock", pit_read(device, sizeof device, PIT_CNTRL), 1);
        expect("ZDS before the clock", pit_read(device, sizeof device, PIT_TSR), 0);
        expect("a device with a rise held", pit_valid(device, sizeof device), 1);
    }
    expect("clocks after three rises", pit_clocks(device, sizeof device, 1000, 1, openings, ROOM, &opened), 0);
    expect("their openings", opened, 1);
    expect("the first clock after the rise", openings[0], 2);
    expect("no rise held after it", device[RISE_HELD], 0);
    expect_kept("past the opening of a rise", 0, 1);
}

/* A halt, a reset and a change of source drop a held rise; 8 where one is held after all. */
static void dropped_rises(void)
{
    static const uint8_t no_event[] = {0xE0};
    static const struct {
        uint8_t tcr;
        uint8_t kept;
        uint8_t may_hold;
    } trials[] = {
        {0x07, 1, 1}, /* as it was */
        {0xE7, 1, 1}, /* another function of TOUT */
        {0x17, 1, 1}, /* roll */
        {0x05, 0, 1}, /* source 10 */
        {0x03, 0, 0}, /* source 01, TIN high: runs */
        {0x01, 0, 0}, /* source 00 */
        {0x06, 0, 0}, /* halted */
        {0x04, 0, 0}, /* halted, source 10 */
        {0x00, 0, 0}, /* halted, source 00 */
    };
    size_t trial;

    for (trial = 0; trial < sizeof trials / sizeof trials[0]; trial++) {
        about_to_open();
        pit_pin(device, sizeof device, PIT_TIN, 1);
        pit_write(device, sizeof device, PIT_TCR, trials[trial].tcr);
        expect("a rise after a write of TCR", device[RISE_HELD], trials[trial].kept);
        device[RISE_HELD] = 0xFF;
        expect("a rise held after a write of TCR", pit_valid(device, sizeof device), trials[trial].may_hold);
        expect("8 of a held rise",
               pit_play(device, sizeof device, no_event, sizeof no_event, NULL, 0, NULL, 0, totals, PIT_TOTALS),
               trials[trial].may_hold ? PIT_ACCEPTED : PIT_REFUSED_DEVICE);
        pit_reset(device, sizeof device);
        expect("a rise after a reset", device[RISE_HELD], 0);
    }
}

/* A device and a list at any address. */
static void any_address(void)
{
    static const uint8_t first[] = {0x15, 0x01, 0x10, 0x01, 0xA0, 0x0F, 0xE7, 0x5C};
    static uint8_t room[PIT_DEVICE_SIZE + ROOM];
    static uint8_t lists[sizeof first + ROOM];
    size_t at;

    for (at = 0; at < ROOM; at++) {
        memcpy(lists + at, first, sizeof first);
        expect("fresh at any address", pit_fresh(room + at, PIT_DEVICE_SIZE), 0);
        expect("levels of a fresh device, PC2 alone low", pit_levels(room + at, PIT_DEVICE_SIZE),
               0xFFFFFFFu ^ 1u << PIT_TIN);
        expect("a list at any address",
               pit_play(room + at, PIT_DEVICE_SIZE, lists + at, sizeof first, answers, ROOM, openings, ROOM, totals,
                        PIT_TOTALS),
               PIT_ACCEPTED);
        pit_write(room + at, PIT_DEVICE_SIZE, PIT_PGCR, 0x30);
        pit_write(room + at, PIT_DEVICE_SIZE, PIT_PBDR, 0x33);
        pit_pin(room + at, PIT_DEVICE_SIZE, PIT_H1, 0);
        pit_clocks(room + at, PIT_DEVICE_SIZE, 100, 128, openings, ROOM, &opened);
        expect("a byte at any address", pit_read(room + at, PIT_DEVICE_SIZE, PIT_PADR), 0xFF);
        expect("levels at any address, H1 low too", pit_levels(room + at, PIT_DEVICE_SIZE),
               0xFFFFFFFu ^ 1u << PIT_TIN ^ 1u << PIT_H1);
        expect("a port acknowledge at any address", pit_port_acknowledge(room + at, PIT_DEVICE_SIZE), PIT_SILENT);
        expect("a timer acknowledge at any address", pit_timer_acknowledge(room + at, PIT_DEVICE_SIZE), PIT_SILENT);
        expect("a valid device at any address", pit_valid(room + at, PIT_DEVICE_SIZE), 1);
        expect("reset at any address", pit_reset(room + at, PIT_DEVICE_SIZE), 0);
    }
}

int main(void)
{
    uint64_t round;

    expect_flags_as_stated();
    null_with_0();
    lent_rows();
    refusals();
    answer_bytes();
    rises_of_tin();
    dropped_rises();
    any_address();
    for (round = 0; round < ROUNDS && faults == 0; round++) {
        struct generate_random random = generate_seeded(9, round);

        any_device(&random);
        calls_that_do_nothing(&random);
        calls_that_do_little(&random);
        calls_that_do_something(&random);
        plays_that_do_nothing(&random);
    }
    return faults != 0;
}
