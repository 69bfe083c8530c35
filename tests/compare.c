/* Compares the library behind pit.h with the model.
 *
 *   compare COUNT SEED [--first N]   COUNT lists and as many devices, numbered from N (0 if not said)
 *   compare --long                   a few devices over hundreds of millions of clocks
 *   compare --lists FILE...          lists from files, of three forms: lines `D` and a device in hex (fresh if
 *                                    none) and `L` and a list in hex; lines of hex, which are one list; a list's
 *                                    own bytes, where they are no text. `#` begins a remark; blank lines are none
 *   .. --valid                       any of these, but no single events on devices that number 8 refuses
 *
 * After every event of a well-formed list, played by the single calls, everything that can be seen of the
 * device must be equal; so it must after single events on devices of any kind, refused ones among them; whole
 * lists, well-formed and damaged, must be equal through pit_play, with what was lent past the used part. Stops at the
 * first difference with exit 1; exit 2 where there is nothing to compare or something is not as above, with a line on
 * standard error. */
#include "generate.h"
#include "hex.h"
#include "pit.h"
#include "writer.h"

#include <inttypes.h>
#include <stdarg.h>
#include <stdio.h>
#include <stdlib.h>
#include <string.h>

#define ANSWERS_ROOM MODEL_ANSWERS_MOST
#define OPENINGS_ROOM 65536u
#define GUARD 32u
#define NO_EVENT SIZE_MAX
#define UNTOUCHED 0x5A5A5A5Au /* what a number holds that a call may not write */
#define REFUSALS_ROOM 32u /* 01 and the change requests give numbers up to 14 */

/* The model's fields add up to the size that pit.h states. */
typedef char size_as_stated[MODEL_DEVICE_SIZE == PIT_DEVICE_SIZE ? 1 : -1];

/* What is being compared, for the report. */
static struct {
    bool numbered;
    uint64_t seed;
    uint64_t number;
    const char *part;
    const uint8_t *device;
    const struct generate_list *list;
    size_t event_number;
    size_t event_place;
    struct model_event event;
} trial;

static struct {
    uint64_t lists;
    uint64_t devices;
    uint64_t invalid_devices;
    uint64_t events;
    uint64_t lone_events;
    uint64_t clocks;
    uint64_t openings;
    uint64_t plays;
    uint64_t refusals[REFUSALS_ROOM];
} counts;

/* ---- Names ---- */

static const char *register_name(unsigned number)
{
    static const char *const names[MODEL_REGISTERS] = {
        [MODEL_PGCR] = "PGCR",
        [MODEL_PSRR] = "PSRR",
        [MODEL_DIRECTION_A] = "direction A",
        [MODEL_DIRECTION_B] = "direction B",
        [MODEL_DIRECTION_C] = "direction C",
        [MODEL_PIVR] = "PIVR",
        [MODEL_PACR] = "PACR",
        [MODEL_PBCR] = "PBCR",
        [MODEL_DATA_A] = "data A",
        [MODEL_DATA_B] = "data B",
        [MODEL_ALTERNATE_A] = "alternate A",
        [MODEL_ALTERNATE_B] = "alternate B",
        [MODEL_DATA_C] = "data C",
        [MODEL_PSR] = "PSR",
        [MODEL_TCR] = "TCR",
        [MODEL_TIVR] = "TIVR",
        [MODEL_PRELOAD_HIGH] = "preload high",
        [MODEL_PRELOAD_MID] = "preload mid",
        [MODEL_PRELOAD_LOW] = "preload low",
        [MODEL_COUNT_HIGH] = "count high",
        [MODEL_COUNT_MID] = "count mid",
        [MODEL_COUNT_LOW] = "count low",
        [MODEL_TSR] = "TSR",
    };

    if (number >= MODEL_REGISTERS) {
        return "none";
    }
    return names[number] != NULL ? names[number] : "null";
}

#define NAMED(kind, place, most, name) {name, MODEL_WIDTH_##kind},

/* The name of the field that a byte belongs to and, of a number, which of its bytes it is. */
static void print_byte_name(size_t place)
{
    static const struct {
        const char *name;
        size_t width;
    } fields[] = {MODEL_LAYOUT(NAMED)};
    size_t field = 0;

    while (place >= fields[field].width) {
        place -= fields[field++].width;
    }
    printf("%s", fields[field].name);
    if (fields[field].width > 1) {
        printf(" %zu", place);
    }
}

static void print_event(const struct model_event *event)
{
    switch (event->kind) {
    case MODEL_WRITE:
        printf("write %u (%s) %02X", event->number, register_name(event->number), event->value);
        break;
    case MODEL_READ:
        printf("read %u (%s)", event->number, register_name(event->number));
        break;
    case MODEL_PORT_ACKNOWLEDGE:
        printf("port acknowledge");
        break;
    case MODEL_TIMER_ACKNOWLEDGE:
        printf("timer acknowledge");
        break;
    case MODEL_PIN:
        printf("pin %u level %u", event->number, event->value);
        break;
    case MODEL_CLOCKS:
        printf("%" PRIu32 " clocks", event->clocks);
        break;
    case MODEL_RESET:
        printf("reset");
        break;
    default:
        printf("end");
        break;
    }
}

/* ---- The report of a difference ---- */

static void begin_report(const char *format, ...)
{
    va_list arguments;

    printf("difference: ");
    va_start(arguments, format);
    vprintf(format, arguments);
    va_end(arguments);
    printf("\n");
}

static void end_report(void)
{
    if (trial.numbered) {
        printf("seed %" PRIu64 ", number %" PRIu64 " (again: tests/compare 1 %" PRIu64 " --first %" PRIu64 ")\n",
               trial.seed, trial.number, trial.seed, trial.number);
    }
    printf("part: %s\n", trial.part);
    if (trial.event_number != NO_EVENT) {
        printf("event %zu at bit %zu: ", trial.event_number, trial.event_place);
        print_event(&trial.event);
        printf("\n");
    }
    if (trial.device != NULL) {
        print_hex("D", trial.device, PIT_DEVICE_SIZE);
    }
    if (trial.list != NULL) {
        print_hex("L", trial.list->bytes, trial.list->size);
    }
    exit(1);
}

static void same_number(const char *what, uint64_t library, uint64_t model)
{
    if (library != model) {
        begin_report("%s: library %" PRIu64 " (%" PRIX64 " hex), model %" PRIu64 " (%" PRIX64 " hex)", what, library,
                     library, model, model);
        end_report();
    }
}

static void same_bytes(const char *what, const uint8_t *library, const uint8_t *model, size_t size)
{
    size_t place;

    if (memcmp(library, model, size) == 0) {
        return;
    }
    for (place = 0; library[place] == model[place]; place++) {
    }
    begin_report("%s, byte %zu: library %02X, model %02X", what, place, library[place], model[place]);
    end_report();
}

static void same_openings(const char *what, const uint32_t *library, const uint32_t *model, size_t size)
{
    size_t place;

    for (place = 0; place < size; place++) {
        if (library[place] != model[place]) {
            begin_report("%s, entry %zu: library %" PRIu32 ", model %" PRIu32, what, place, library[place],
                         model[place]);
            end_report();
        }
    }
}

static void same_device_bytes(const char *when, const uint8_t *library, const uint8_t *model)
{
    size_t place;

    if (memcmp(library, model, PIT_DEVICE_SIZE) == 0) {
        return;
    }
    begin_report("the device %s", when);
    for (place = 0; place < PIT_DEVICE_SIZE; place++) {
        if (library[place] != model[place]) {
            printf("  byte %zu, ", place);
            print_byte_name(place);
            printf(": library %02X, model %02X\n", library[place], model[place]);
        }
    }
    print_hex("  library", library, PIT_DEVICE_SIZE);
    print_hex("  model  ", model, PIT_DEVICE_SIZE);
    end_report();
}

static void same_device(const char *when, const uint8_t *library, const struct model_device *model)
{
    uint8_t expected[PIT_DEVICE_SIZE];

    model_to_bytes(model, expected);
    same_device_bytes(when, library, expected);
}

/* ---- What can be seen of a device ---- */

static void same_levels(const uint8_t *device, const struct model_device *model)
{
    uint32_t expected = 0;
    unsigned pin;

    for (pin = 0; pin < MODEL_PINS; pin++) {
        expected |= (uint32_t)model_level(model, pin) << pin;
    }
    same_number("pin levels", pit_levels(device, PIT_DEVICE_SIZE), expected);
}

static void same_device_after_read(unsigned number, const uint8_t *library, const struct model_device *model)
{
    uint8_t expected[PIT_DEVICE_SIZE];

    model_to_bytes(model, expected);
    if (memcmp(library, expected, PIT_DEVICE_SIZE) != 0) {
        printf("reading %u (%s) leaves another device\n", number, register_name(number));
        same_device_bytes("after a read", library, expected);
    }
}

static void same_reads(const uint8_t *device, const struct model_device *model)
{
    uint8_t number;

    for (number = 0; number < MODEL_REGISTERS; number++) {
        uint8_t library_copy[PIT_DEVICE_SIZE];
        struct model_device model_copy = *model;
        uint32_t found;
        uint8_t expected;

        memcpy(library_copy, device, PIT_DEVICE_SIZE);
        found = pit_read(library_copy, PIT_DEVICE_SIZE, number);
        expected = model_read(&model_copy, number);
        if (found != expected) {
            begin_report("reading %u (%s): library %02" PRIX32 ", model %02X", number, register_name(number), found,
                         expected);
            end_report();
        }
        same_device_after_read(number, library_copy, &model_copy);
    }
}

static void same_acknowledges(const uint8_t *device, const struct model_device *model)
{
    same_number("port acknowledge", pit_port_acknowledge(device, PIT_DEVICE_SIZE), model_port_acknowledge(model));
    same_number("timer acknowledge", pit_timer_acknowledge(device, PIT_DEVICE_SIZE), model_timer_acknowledge(model));
}

static void same_view(const uint8_t *device, const struct model_device *model)
{
    uint8_t before[PIT_DEVICE_SIZE];

    memcpy(before, device, PIT_DEVICE_SIZE);
    same_levels(device, model);
    same_reads(device, model);
    same_acknowledges(device, model);
    same_number("validity after an event", pit_valid(device, PIT_DEVICE_SIZE), model_valid(model));
    same_device_bytes("after it was only looked at", device, before);
}

/* What a valid device is after an event is valid. */
static void same_valid_view(const uint8_t *device, const struct model_device *model)
{
    same_view(device, model);
    same_number("validity of a device that was valid", 1, model_valid(model));
}

/* ---- Single events ---- */

static uint32_t library_row[OPENINGS_ROOM + GUARD];
static uint32_t model_row[OPENINGS_ROOM + GUARD];

static uint32_t opening_filling(size_t place)
{
    return 0x5A5A0000u + (uint32_t)place * 3u;
}

static void fill_openings(uint32_t *library, uint32_t *model, size_t size)
{
    size_t place;

    for (place = 0; place < size; place++) {
        library[place] = opening_filling(place);
    }
    memcpy(model, library, size * sizeof *model);
}

/* Now and then the row is shorter than the openings; they are counted all the same. */
static uint32_t clocks_both(uint8_t *device, struct model_device *model, uint32_t clocks, uint32_t passed,
                            size_t room)
{
    uint32_t opened = 0;
    uint32_t found = UNTOUCHED;
    uint32_t number;

    fill_openings(library_row, model_row, room + GUARD);
    for (number = 0; number < clocks; number++) {
        if (model_clock(model)) {
            if (opened < room) {
                model_row[opened] = passed + number + 1;
            }
            opened++;
        }
    }
    same_number("answer of a clocks call",
                pit_clocks(device, PIT_DEVICE_SIZE, clocks, passed, library_row, room, &found), 0);
    same_number("openings of a clocks call", found, opened);
    same_openings("opening numbers of a clocks call", library_row, model_row, room + GUARD);
    return opened;
}

static void event_both(uint8_t *device, struct model_device *model, const struct model_event *event, uint32_t passed)
{
    uint8_t number = (uint8_t)event->number;
    uint8_t value = (uint8_t)event->value;

    switch (event->kind) {
    case MODEL_WRITE:
        same_number("answer of a write", pit_write(device, PIT_DEVICE_SIZE, number, value), 0);
        model_write(model, number, value);
        break;
    case MODEL_READ:
        same_number("byte read", pit_read(device, PIT_DEVICE_SIZE, number), model_read(model, number));
        break;
    case MODEL_PIN:
        same_number("answer of a pin event", pit_pin(device, PIT_DEVICE_SIZE, number, value), 0);
        model_pin(model, number, value != 0);
        break;
    case MODEL_CLOCKS:
        counts.openings += clocks_both(device, model, event->clocks, passed, passed % 5 == 1 ? 1 : 2048);
        break;
    case MODEL_RESET:
        same_number("answer of a reset", pit_reset(device, PIT_DEVICE_SIZE), 0);
        model_reset(model);
        break;
    default: /* acknowledges are looked at after every event */
        break;
    }
}

/* Plays a well-formed list event by event on a valid device. */
static void compare_events(const uint8_t *handed, const struct generate_list *list)
{
    uint8_t device[PIT_DEVICE_SIZE];
    struct model_device model = model_from_bytes(handed);
    uint32_t passed = 0;
    size_t position = 0;
    size_t after = 0;

    trial.part = "single events";
    trial.event_number = 0;
    memcpy(device, handed, PIT_DEVICE_SIZE);
    same_levels(device, &model);
    same_reads(device, &model);
    same_acknowledges(device, &model);
    while (model_next_event(list->bytes, list->size, position, &trial.event, &after) == MODEL_ACCEPTED &&
           trial.event.kind != MODEL_END) {
        trial.event_place = position;
        event_both(device, &model, &trial.event, passed);
        if (trial.event.kind != MODEL_PORT_ACKNOWLEDGE && trial.event.kind != MODEL_TIMER_ACKNOWLEDGE) {
            same_device("after the event", device, &model);
            same_valid_view(device, &model);
        }
        passed += trial.event.clocks;
        position = after;
        trial.event_number++;
    }
    counts.events += trial.event_number;
    counts.clocks += passed;
    trial.event_number = NO_EVENT;
}

/* ---- Single events on devices of any kind ---- */

/* A value for a register: any byte, or what it reads with one bit turned over. */
static unsigned any_value(struct generate_random *random, const struct model_device *model, unsigned number)
{
    struct model_device copy = *model;

    if (generate_below(random, 2) == 0) {
        return generate_below(random, 256);
    }
    return model_read(&copy, number) ^ 1u << generate_below(random, 8);
}

static struct model_event any_event(struct generate_random *random, const struct model_device *model)
{
    struct model_event event = {0};

    switch (generate_below(random, 16)) {
    case 0:
        event.kind = MODEL_RESET;
        break;
    case 1:
    case 2:
    case 3:
        event.kind = MODEL_READ;
        event.number = generate_below(random, 2) == 0 ? MODEL_DATA_A + generate_below(random, 2)
                                                      : generate_below(random, MODEL_REGISTERS);
        break;
    case 4:
    case 5:
    case 6:
    case 7:
    case 8:
        event.kind = MODEL_PIN;
        event.number = generate_below(random, 4) == 0 ? generate_below(random, MODEL_PINS)
                       : generate_below(random, 4) == 0 ? MODEL_PIN_TIN
                                                        : MODEL_PIN_H1 + generate_below(random, 4);
        event.value = generate_below(random, 2);
        break;
    case 9:
    case 10:
    case 11:
        event.kind = MODEL_CLOCKS;
        event.clocks = 1 + (generate_below(random, 2) == 0 ? generate_below(random, 8) : generate_below(random, 400));
        break;
    default:
        event.kind = MODEL_WRITE;
        event.number = generate_below(random, 4) == 0 ? MODEL_TCR : generate_below(random, MODEL_REGISTERS);
        event.value = any_value(random, model, event.number);
        break;
    }
    return event;
}

/* A flag of a device that was handed in may be other than 0 and 1 until a call writes it: it is compared as it is
 * read. */
static void same_as_read(const char *when, const uint8_t *library, const struct model_device *model)
{
    struct model_device found = model_from_bytes(library);
    uint8_t bytes[PIT_DEVICE_SIZE];

    model_to_bytes(&found, bytes);
    same_device(when, bytes, model);
}

/* Some bytes of a device at will, whatever field they belong to, and small numbers among them; at times all. */
static void damage(struct generate_random *random, uint8_t *bytes)
{
    unsigned rounds = generate_below(random, 8) == 0 ? 4 * PIT_DEVICE_SIZE : 1 + generate_below(random, 8);

    while (rounds-- > 0) {
        uint32_t limit = generate_below(random, 2) == 0 ? 6 : 256;

        bytes[generate_below(random, PIT_DEVICE_SIZE)] = (uint8_t)generate_below(random, limit);
    }
}

#define LONE_EVENTS 6u

/* For what says nothing of single events on refused devices; pit.h does. */
static bool valid_alone;

/* Each event comes to the device as it was handed in. */
static void compare_lone_events(struct generate_random *random, const uint8_t *handed)
{
    struct model_device given = model_from_bytes(handed);
    unsigned number;

    if (valid_alone && !model_valid(&given)) {
        return;
    }
    trial.part = "an event on a device of any kind";
    trial.device = handed;
    trial.list = NULL;
    for (number = 0; number < LONE_EVENTS; number++) {
        struct model_device model = given;
        uint8_t device[PIT_DEVICE_SIZE];

        memcpy(device, handed, PIT_DEVICE_SIZE);
        trial.event = any_event(random, &model);
        trial.event_number = number;
        trial.event_place = 0;
        event_both(device, &model, &trial.event, 0);
        same_as_read("after the event", device, &model);
        model_to_bytes(&model, device);
        same_view(device, &model);
    }
    counts.lone_events += LONE_EVENTS;
    trial.event_number = NO_EVENT;
}

/* ---- Whole lists ---- */

static uint8_t library_answers[ANSWERS_ROOM + GUARD];
static uint8_t model_answers[ANSWERS_ROOM + GUARD];
static uint32_t library_openings[OPENINGS_ROOM + GUARD];
static uint32_t model_openings[OPENINGS_ROOM + GUARD];

static uint8_t answer_filling(size_t place)
{
    return (uint8_t)(0xA5u + place * 7u);
}

static void fill_answers(uint8_t *library, uint8_t *model, size_t size)
{
    size_t place;

    for (place = 0; place < size; place++) {
        library[place] = answer_filling(place);
    }
    memcpy(model, library, size);
}

/* On a refusal nothing lent may be written: the rows are as they were filled. */
static void same_filling(const struct generate_rooms *rooms)
{
    size_t place;

    for (place = 0; place < rooms->answers + GUARD; place++) {
        same_number("an answer byte after a refusal", library_answers[place], answer_filling(place));
    }
    for (place = 0; place < rooms->openings + GUARD; place++) {
        same_number("an opening after a refusal", library_openings[place], opening_filling(place));
    }
}

/* Both gave this refusal; one that can't be counted is one that 01 doesn't know. */
static void count_refusal(unsigned refusal)
{
    if (refusal >= REFUSALS_ROOM) {
        begin_report("refusal %u, of both: numbers under %u are counted", refusal, REFUSALS_ROOM);
        end_report();
    }
    counts.refusals[refusal]++;
}

/* 02, R-2: "an opening now falls only on a clock, so numbers rise strictly". */
static void rising_openings(const uint32_t *library, uint64_t used)
{
    uint64_t place;

    for (place = 1; place < used; place++) {
        if (library[place] <= library[place - 1]) {
            begin_report("opening %" PRIu64 " is at %" PRIu32 ", after one at %" PRIu32, place, library[place],
                         library[place - 1]);
            end_report();
        }
    }
}

static struct model_totals compare_play(const uint8_t *handed, const struct generate_list *list,
                                        struct generate_rooms rooms)
{
    uint8_t device[PIT_DEVICE_SIZE];
    struct model_device model = model_from_bytes(handed);
    uint64_t totals[PIT_TOTALS] = {11, 12, 13, 14};
    struct model_totals expected;
    unsigned refusal;
    uint32_t found;

    memcpy(device, handed, PIT_DEVICE_SIZE);
    fill_answers(library_answers, model_answers, rooms.answers + GUARD);
    fill_openings(library_openings, model_openings, rooms.openings + GUARD);
    refusal = model_play(&model, list->bytes, list->size, model_answers, rooms.answers, model_openings,
                         rooms.openings, &expected);
    found = pit_play(device, PIT_DEVICE_SIZE, list->bytes, list->size, library_answers, rooms.answers,
                     library_openings, rooms.openings, totals, PIT_TOTALS);
    same_number("refusal", found, refusal);
    same_number("place", totals[PIT_PLACE], expected.place);
    same_number("answer bytes", totals[PIT_ANSWERS], expected.answers);
    same_number("number of openings", totals[PIT_OPENINGS], expected.openings);
    same_number("clocks", totals[PIT_CLOCKS], expected.clocks);
    same_bytes("answers", library_answers, model_answers, rooms.answers + GUARD);
    same_openings("openings", library_openings, model_openings, rooms.openings + GUARD);
    if (refusal == MODEL_ACCEPTED) {
        same_device("after the list", device, &model);
        rising_openings(library_openings, totals[PIT_OPENINGS]);
    } else {
        same_device_bytes("after a refusal", device, handed);
        same_filling(&rooms);
    }
    counts.plays++;
    count_refusal(refusal);
    return expected;
}

/* What the list needs, as far as the rows here reach. */
static struct generate_rooms needed_rooms(const uint8_t *handed, const struct generate_list *list)
{
    static uint8_t answers[ANSWERS_ROOM];
    static uint32_t openings[OPENINGS_ROOM];
    struct model_device model = model_from_bytes(handed);
    struct generate_rooms rooms;
    struct model_totals totals;

    (void)model_play(&model, list->bytes, list->size, answers, ANSWERS_ROOM, openings, OPENINGS_ROOM, &totals);
    rooms.answers = (size_t)totals.answers;
    rooms.openings = (size_t)totals.openings;
    return rooms;
}

static struct generate_rooms within_reach(struct generate_rooms rooms)
{
    rooms.answers = rooms.answers < ANSWERS_ROOM ? rooms.answers : ANSWERS_ROOM;
    rooms.openings = rooms.openings < OPENINGS_ROOM ? rooms.openings : OPENINGS_ROOM;
    return rooms;
}

static void compare_list(struct generate_random *random, const char *part, const uint8_t *device,
                         const struct generate_list *list)
{
    struct generate_rooms needed;

    trial.part = part;
    trial.device = device;
    trial.list = list;
    needed = needed_rooms(device, list);
    (void)compare_play(device, list, needed);
    (void)compare_play(device, list, within_reach(generate_rooms(random, needed.answers, needed.openings)));
}

/* ---- Generated trials ---- */

static void compare_device(const uint8_t *device)
{
    struct model_device model = model_from_bytes(device);
    bool valid = model_valid(&model);

    trial.part = "validity";
    trial.device = device;
    trial.list = NULL;
    same_number("validity", pit_valid(device, PIT_DEVICE_SIZE), valid);
    counts.devices++;
    counts.invalid_devices += !valid;
}

/* The generator puts valid devices together from the words of number 8, apart from the model's judgement. */
static void compare_valid_device(const uint8_t *device)
{
    struct model_device model = model_from_bytes(device);

    trial.part = "a device that is to be valid";
    trial.device = device;
    same_number("validity", pit_valid(device, PIT_DEVICE_SIZE), 1);
    same_number("validity in the model", 1, model_valid(&model));
}

static void compare_number(uint64_t seed, uint64_t number)
{
    static struct generate_list list;
    static struct generate_list damaged;
    uint8_t device[PIT_DEVICE_SIZE];
    uint8_t other[PIT_DEVICE_SIZE];
    uint8_t damaged_device[PIT_DEVICE_SIZE];
    struct generate_random random = generate_seeded(seed, number);

    trial.numbered = true;
    trial.seed = seed;
    trial.number = number;
    generate_valid_device(&random, device);
    if (generate_below(&random, 1024) == 0) {
        generate_longest_list(&random, &list);
    } else {
        generate_list(&random, device, &list);
    }
    trial.list = &list;
    compare_valid_device(device);
    compare_events(device, &list);
    compare_list(&random, "a well-formed list", device, &list);
    generate_damaged_list(&random, &list, &damaged);
    compare_list(&random, "a damaged list", device, &damaged);
    generate_any_device(&random, other);
    compare_device(other);
    compare_lone_events(&random, other);
    memcpy(damaged_device, other, PIT_DEVICE_SIZE);
    damage(&random, damaged_device);
    compare_lone_events(&random, damaged_device);
    compare_list(&random, "a device of any kind", other, generate_below(&random, 2) == 0 ? &list : &damaged);
    counts.lists++;
}

/* ---- Calls with wrong sizes and numbers ---- */

/* A running timer that opens the gate at the next clock: reset and clocks would both show. */
static struct model_device about_to_open(void)
{
    struct model_device model = model_fresh();
    unsigned clocks = 63;

    model_write(&model, MODEL_PRELOAD_LOW, 1);
    model_write(&model, MODEL_TCR, 1);
    while (clocks-- > 0) {
        (void)model_clock(&model);
    }
    return model;
}

/* Every call answers PIT_WRONG_SIZE and writes nothing. */
static void wrong_sizes(size_t size)
{
    static struct generate_list list;
    struct writer writer = {list.bytes, 0};
    struct model_device model = about_to_open();
    uint8_t device[PIT_DEVICE_SIZE];
    uint64_t totals[PIT_TOTALS] = {1, 2, 3, 4};
    uint32_t opened = UNTOUCHED;

    model_to_bytes(&model, device);
    writer_read(&writer, MODEL_TIVR);
    writer_clocks(&writer, 1);
    list.size = writer_end(&writer);
    fill_openings(library_row, model_row, GUARD);
    fill_answers(library_answers, model_answers, GUARD);
    same_number("fresh, wrong size", pit_fresh(device, size), PIT_WRONG_SIZE);
    same_number("valid, wrong size", pit_valid(device, size), PIT_WRONG_SIZE);
    same_number("write, wrong size", pit_write(device, size, MODEL_TIVR, 0x33), PIT_WRONG_SIZE);
    same_number("read, wrong size", pit_read(device, size, MODEL_TIVR), PIT_WRONG_SIZE);
    same_number("pin, wrong size", pit_pin(device, size, 0, 0), PIT_WRONG_SIZE);
    same_number("clocks, wrong size", pit_clocks(device, size, 1, 0, library_row, 1, &opened), PIT_WRONG_SIZE);
    same_number("reset, wrong size", pit_reset(device, size), PIT_WRONG_SIZE);
    same_number("port acknowledge, wrong size", pit_port_acknowledge(device, size), PIT_WRONG_SIZE);
    same_number("timer acknowledge, wrong size", pit_timer_acknowledge(device, size), PIT_WRONG_SIZE);
    same_number("levels, wrong size", pit_levels(device, size), PIT_WRONG_SIZE);
    same_number("play, wrong device size",
                pit_play(device, size, list.bytes, list.size, library_answers, 2, library_row, 1, totals, PIT_TOTALS),
                PIT_WRONG_SIZE);
    same_device("after calls with a wrong size", device, &model);
    same_number("openings counted after a wrong size", opened, UNTOUCHED);
    same_openings("openings after a wrong size", library_row, model_row, GUARD);
    same_bytes("answers after a wrong size", library_answers, model_answers, GUARD);
    same_number("totals after a wrong size", totals[0] + 10 * totals[1] + 100 * totals[2] + 1000 * totals[3], 4321);
}

static void wrong_totals(size_t totals_count)
{
    struct generate_list list = {{0x11, 0x33, 0xE0}, 3}; /* write TIVR 33, end */
    struct model_device fresh = model_fresh();
    uint8_t device[PIT_DEVICE_SIZE];
    uint64_t totals[PIT_TOTALS + 1] = {1, 2, 3, 4, 5};

    model_to_bytes(&fresh, device);
    same_number("play, wrong totals count",
                pit_play(device, PIT_DEVICE_SIZE, list.bytes, list.size, library_answers, 0, library_openings, 0,
                         totals, totals_count),
                PIT_WRONG_SIZE);
    same_device("after a play with a wrong totals count", device, &fresh);
    same_number("totals after a wrong totals count",
                totals[0] + 10 * totals[1] + 100 * totals[2] + 1000 * totals[3] + 10000 * totals[4], 54321);
}

/* pit.h: a register over 31 and a pin over 27 are none; a level other than 0 is 1. */
static void outlying_numbers(void)
{
    struct model_device model = model_fresh();
    uint8_t device[PIT_DEVICE_SIZE];
    unsigned number;

    memset(device, 0x77, sizeof device);
    same_number("fresh", pit_fresh(device, PIT_DEVICE_SIZE), 0);
    same_device("fresh", device, &model);
    same_valid_view(device, &model);
    for (number = 32; number < 256; number++) {
        same_number("write over 31", pit_write(device, PIT_DEVICE_SIZE, (uint8_t)number, 0xFF), 0);
        same_number("read over 31", pit_read(device, PIT_DEVICE_SIZE, (uint8_t)number), 0);
    }
    for (number = MODEL_PINS; number < 256; number++) {
        same_number("pin over 27", pit_pin(device, PIT_DEVICE_SIZE, (uint8_t)number, number & 1), 0);
    }
    same_device("after registers and pins that are none", device, &model);
    (void)pit_pin(device, PIT_DEVICE_SIZE, 3, 0);
    (void)pit_pin(device, PIT_DEVICE_SIZE, 3, 0x80);
    same_device("after level 80", device, &model);
    same_number("openings of no clocks", clocks_both(device, &model, 0, 7, 0), 0);
    same_device("after no clocks", device, &model);
}

/* pit.h: "Clock numbers are taken modulo 2^32." */
static void clock_numbers_wrap(void)
{
    struct model_device model = model_fresh();
    uint8_t device[PIT_DEVICE_SIZE];

    model_write(&model, MODEL_PRELOAD_LOW, 2);
    model_write(&model, MODEL_TCR, 1);
    model_to_bytes(&model, device);
    (void)clocks_both(device, &model, 1000, 0xFFFFFF00u, 16);
    same_device("after clocks past 2^32", device, &model);
    (void)clocks_both(device, &model, 300000, 5, 40);
    same_device("after 300,000 clocks", device, &model);
}

/* pit.h: of many clocks at once the first takes a held rise of TIN; here its number is past 2^32. No clocks take none. */
static void held_rise_wraps(void)
{
    struct model_device model = model_fresh();
    uint8_t device[PIT_DEVICE_SIZE];

    model_write(&model, MODEL_PRELOAD_LOW, 1);
    model_write(&model, MODEL_TCR, 7);
    model_pin(&model, MODEL_PIN_TIN, true);
    (void)model_clock(&model);
    model_pin(&model, MODEL_PIN_TIN, false);
    model_pin(&model, MODEL_PIN_TIN, true);
    model_to_bytes(&model, device);
    same_number("openings of no clocks, a rise held", clocks_both(device, &model, 0, 7, 4), 0);
    same_device("after no clocks, a rise held", device, &model);
    same_number("openings of many clocks, a rise held", clocks_both(device, &model, 300000, 0xFFFFFFFFu, 4), 1);
    same_device("after many clocks, a rise held", device, &model);
}

static void compare_outlying(void)
{
    static const size_t sizes[] = {0, 1, PIT_DEVICE_SIZE - 1, PIT_DEVICE_SIZE + 1, 2 * PIT_DEVICE_SIZE};
    size_t place;

    trial.part = "sizes and numbers out of range";
    trial.event_number = NO_EVENT;
    for (place = 0; place < sizeof sizes / sizeof sizes[0]; place++) {
        wrong_sizes(sizes[place]);
    }
    wrong_totals(0);
    wrong_totals(PIT_TOTALS - 1);
    wrong_totals(PIT_TOTALS + 1);
    outlying_numbers();
    clock_numbers_wrap();
    held_rise_wraps();
}

/* ---- Long runs ---- */

static struct model_device long_device(uint32_t preload, uint8_t tcr)
{
    struct model_device model = model_fresh();

    model_write(&model, MODEL_PRELOAD_HIGH, (uint8_t)(preload >> 16));
    model_write(&model, MODEL_PRELOAD_MID, (uint8_t)(preload >> 8));
    model_write(&model, MODEL_PRELOAD_LOW, (uint8_t)preload);
    model_write(&model, MODEL_PACR, 0x38);
    model_write(&model, MODEL_PGCR, 0x10);
    model_write(&model, MODEL_TCR, tcr);
    return model;
}

static void compare_long(void)
{
    static const uint32_t preloads[] = {0x7FFFFF, 0x10000, 0x5000};
    static struct generate_list list;
    uint8_t device[PIT_DEVICE_SIZE];
    struct generate_rooms rooms = {0, 2048};
    struct model_device model;
    size_t place;

    generate_clocks_list(&list, MODEL_CLOCKS_EVENTS_MOST);
    trial.list = &list;
    trial.device = device;
    for (place = 0; place < sizeof preloads / sizeof preloads[0]; place++) {
        trial.part = "the longest list";
        model = long_device(preloads[place], place == 1 ? 0x11 : 0x01);
        model_to_bytes(&model, device);
        counts.clocks += compare_play(device, &list, rooms).clocks;
        counts.lists++;
    }
    trial.part = "one clocks call of 2^29 + 1 clocks";
    trial.list = NULL;
    model = long_device(0xFFFFFF, 0x01);
    model_to_bytes(&model, device);
    counts.openings += clocks_both(device, &model, 0x20000001u, 0, 4);
    same_device("after 2^29 + 1 clocks", device, &model);
}

/* ---- Lists from files ---- */

static void give_up(const char *format, ...)
{
    va_list arguments;

    fprintf(stderr, "compare: ");
    va_start(arguments, format);
    vfprintf(stderr, format, arguments);
    va_end(arguments);
    fprintf(stderr, "\n");
    exit(2);
}

static int hex_digit(int character)
{
    static const char digits[] = "0123456789ABCDEFabcdef";
    const char *found = character == 0 ? NULL : strchr(digits, character);

    if (found == NULL) {
        return -1;
    }
    return (int)(found - digits) < 16 ? (int)(found - digits) : (int)(found - digits) - 6;
}

static bool is_blank(char character)
{
    return character == ' ' || character == '\r' || character == '\n' || character == '\t';
}

/* A line of a file, for what is said of it. */
struct line {
    const char *name;
    size_t number;
    const char *text;
};

/* Puts the bytes of hex digits, spaces between bytes or not, behind those that are there, and answers how many there
 * are now. */
static size_t hex_bytes(const struct line *line, const char *text, uint8_t *bytes, size_t size, size_t room)
{
    for (;;) {
        while (is_blank(*text)) {
            text++;
        }
        if (*text == 0) {
            return size;
        }
        if (hex_digit(text[0]) < 0 || hex_digit(text[1]) < 0) {
            give_up("%s, line %zu: not two hexadecimal digits: %.2s", line->name, line->number, text);
        }
        if (size == room) {
            give_up("%s, line %zu: more than %zu bytes", line->name, line->number, room);
        }
        bytes[size++] = (uint8_t)(hex_digit(text[0]) << 4 | hex_digit(text[1]));
        text += 2;
    }
}

static void compare_given(const uint8_t *device, const struct generate_list *list)
{
    struct generate_random random = generate_seeded(1, counts.lists);
    struct model_device model = model_from_bytes(device);
    unsigned rounds;

    compare_device(device);
    trial.list = list;
    compare_lone_events(&random, device);
    trial.list = list;
    if (model_valid(&model)) {
        compare_events(device, list);
    }
    for (rounds = 0; rounds < 12; rounds++) {
        compare_list(&random, "a given list", device, list);
    }
    counts.lists++;
}

/* All of a file, with a 0 behind it. */
static char *file_text(const char *name, size_t *size)
{
    FILE *file = fopen(name, "rb");
    char *text = NULL;
    size_t room = 0;
    size_t more;

    if (file == NULL) {
        give_up("%s: cannot be read", name);
    }
    *size = 0;
    do {
        if (*size == room) {
            room = 2 * room + 65536;
            text = realloc(text, room + 1);
            if (text == NULL) {
                give_up("%s: too long", name);
            }
        }
        more = fread(text + *size, 1, room - *size, file);
        *size += more;
    } while (more > 0);
    if (ferror(file)) {
        give_up("%s: cannot be read", name);
    }
    fclose(file);
    text[*size] = 0;
    return text;
}

/* Whether a file has ASCII lines; a remark may have other letters. */
static bool is_text(const char *text, size_t size)
{
    bool remark = false;
    size_t place;

    for (place = 0; place < size; place++) {
        unsigned char byte = (unsigned char)text[place];

        if (byte == '\n' || place == 0) {
            remark = text[place + (byte == '\n')] == '#';
        }
        if (byte == 0x7F || (byte < 0x20 && !is_blank(text[place])) || (byte > 0x7F && !remark)) {
            return false;
        }
    }
    return true;
}

/* `D` is a hex digit too: as a mark it stands alone. */
static bool is_marked(const char *text, char mark)
{
    return text[0] == mark && (mark == 'L' || text[1] == 0 || is_blank(text[1]));
}

/* Takes a line, ended by a 0, from the text; false where there is none. */
static bool next_line(char **rest, struct line *line)
{
    char *end = strchr(*rest, '\n');

    if (**rest == 0) {
        return false;
    }
    line->text = *rest;
    line->number++;
    *rest = end == NULL ? *rest + strlen(*rest) : end + 1;
    if (end != NULL) {
        *end = 0;
    }
    return true;
}

static bool is_nothing(const char *text)
{
    return text[0] == '#' || text[strspn(text, " \t\r")] == 0;
}

/* Lines of hex are one list, unless the file has marks: then each line has one. */
static void compare_lines(const char *name, char *text)
{
    static struct generate_list list;
    struct model_device fresh = model_fresh();
    uint8_t device[PIT_DEVICE_SIZE];
    struct line line = {name, 0, text};
    uint64_t before = counts.lists;
    bool marks = false;
    bool plain = false;

    list.size = 0;
    model_to_bytes(&fresh, device);
    while (next_line(&text, &line)) {
        if (is_marked(line.text, 'D')) {
            if (hex_bytes(&line, line.text + 1, device, 0, sizeof device) != sizeof device) {
                give_up("%s, line %zu: a device has %u bytes", name, line.number, PIT_DEVICE_SIZE);
            }
            marks = true;
        } else if (is_marked(line.text, 'L')) {
            list.size = hex_bytes(&line, line.text + 1, list.bytes, 0, sizeof list.bytes);
            compare_given(device, &list);
            marks = true;
        } else if (!is_nothing(line.text)) {
            if (hex_digit(line.text[strspn(line.text, " \t")]) < 0) {
                give_up("%s, line %zu: neither D, L, # nor hexadecimal bytes", name, line.number);
            }
            list.size = hex_bytes(&line, line.text, list.bytes, plain ? list.size : 0, sizeof list.bytes);
            plain = true;
        }
        if (marks && plain) {
            give_up("%s, line %zu: marks D and L beside hex without a mark", name, line.number);
        }
    }
    if (plain) {
        compare_given(device, &list);
    }
    if (counts.lists == before) {
        give_up("%s: nothing to compare: it has no list", name);
    }
}

/* A file that is no text is a list itself. */
static void compare_file(const char *name)
{
    static struct generate_list list;
    struct model_device fresh = model_fresh();
    uint8_t device[PIT_DEVICE_SIZE];
    size_t size;
    char *text = file_text(name, &size);

    if (is_text(text, size)) {
        compare_lines(name, text);
    } else if (size > sizeof list.bytes) {
        give_up("%s: a list of more than %zu bytes", name, sizeof list.bytes);
    } else {
        model_to_bytes(&fresh, device);
        memcpy(list.bytes, text, size);
        list.size = size;
        compare_given(device, &list);
    }
    free(text);
}

/* ---- The program ---- */

/* The last number that the model knows, or that was given all the same. */
static unsigned last_refusal(void)
{
    unsigned last = REFUSALS_ROOM - 1;

    while (last >= MODEL_REFUSALS && counts.refusals[last] == 0) {
        last--;
    }
    return last;
}

static void print_summary(void)
{
    unsigned refusal;

    printf("no difference: %" PRIu64 " lists, %" PRIu64 " devices (%" PRIu64 " not valid), %" PRIu64
           " single events, %" PRIu64 " more on devices of any kind, %" PRIu64 " clocks, %" PRIu64
           " openings, %" PRIu64 " plays; refusals 0-%u:",
           counts.lists, counts.devices, counts.invalid_devices, counts.events, counts.lone_events, counts.clocks,
           counts.openings, counts.plays, last_refusal());
    for (refusal = 0; refusal <= last_refusal(); refusal++) {
        printf(" %" PRIu64, counts.refusals[refusal]);
    }
    printf("\n");
}

static int usage(void)
{
    fprintf(stderr, "usage: compare COUNT SEED [--first N] | compare --long | compare --lists FILE..., --valid last\n");
    return 2;
}

static int compare_files(int many, char **names)
{
    if (many == 0) {
        give_up("nothing to compare: no file is named");
    }
    while (many-- > 0) {
        compare_file(*names++);
    }
    print_summary();
    return 0;
}

static uint64_t number_of(const char *what, const char *text)
{
    const char *rest = text;
    uint64_t number = 0;

    for (; *rest >= '0' && *rest <= '9'; rest++) {
        unsigned digit = (unsigned)(*rest - '0');

        if (number > (UINT64_MAX - digit) / 10) {
            give_up("%s is over %" PRIu64 ": %s", what, UINT64_MAX, text);
        }
        number = 10 * number + digit;
    }
    if (rest == text || *rest != 0) {
        give_up("%s is no number: %s", what, text);
    }
    return number;
}

static int compare_numbers(uint64_t count, uint64_t seed, uint64_t first)
{
    uint64_t done;

    if (count == 0) {
        give_up("nothing to compare: COUNT is 0");
    }
    if (first > UINT64_MAX - count) {
        give_up("--first %" PRIu64 " leaves no numbers for so many lists", first);
    }
    compare_outlying();
    for (done = 0; done < count; done++) {
        compare_number(seed, first + done);
    }
    print_summary();
    return 0;
}

int main(int argument_count, char **arguments)
{
    uint64_t first = 0;

    trial.event_number = NO_EVENT;
    if (argument_count > 2 && strcmp(arguments[argument_count - 1], "--valid") == 0) {
        valid_alone = true;
        argument_count--;
    }
    if (argument_count >= 2 && strcmp(arguments[1], "--lists") == 0) {
        return compare_files(argument_count - 2, arguments + 2);
    }
    if (argument_count == 2 && strcmp(arguments[1], "--long") == 0) {
        compare_long();
        print_summary();
        return 0;
    }
    if (argument_count == 5 && strcmp(arguments[3], "--first") == 0) {
        first = number_of("--first N", arguments[4]);
    } else if (argument_count != 3) {
        return usage();
    }
    return compare_numbers(number_of("COUNT", arguments[1]), number_of("SEED", arguments[2]), first);
}
