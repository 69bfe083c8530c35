/* Tries the model on the lists of document 01, Lists to try (P1 to P12 and the pit-run example), on the
 * misreadings 01 warns of, and on single sentences of it and of document 02. Prints nothing unless a check fails. */
#include "model.h"
#include "writer.h"

#include <stdio.h>
#include <string.h>

static int failures;
static uint8_t answers[MODEL_RUN_ANSWERS];
static uint32_t openings[MODEL_RUN_OPENINGS];
static struct model_totals totals;

static void expect(const char *what, uint64_t found, uint64_t expected)
{
    if (found != expected) {
        printf("%s: %llu, expected %llu\n", what, (unsigned long long)found, (unsigned long long)expected);
        failures++;
    }
}

static unsigned play(struct model_device *device, const uint8_t *list, size_t size, size_t openings_room)
{
    return model_play(device, list, size, answers, MODEL_RUN_ANSWERS, openings, openings_room, &totals);
}

static void expect_refusal(const char *what, const uint8_t *list, size_t size, unsigned refusal, uint64_t place)
{
    struct model_device device = model_fresh();

    expect(what, play(&device, list, size, MODEL_RUN_OPENINGS), refusal);
    expect(what, totals.place, place);
    expect(what, totals.answers + totals.openings + totals.clocks, 0);
}

static uint32_t pass_clocks(struct model_device *device, uint32_t clocks)
{
    uint32_t opened = 0;

    while (clocks-- > 0) {
        opened += model_clock(device);
    }
    return opened;
}

static struct model_device timer_started(uint8_t preload, uint8_t tcr)
{
    struct model_device device = model_fresh();

    model_write(&device, MODEL_PRELOAD_LOW, preload);
    model_write(&device, MODEL_TCR, tcr);
    return device;
}

static void check_formats(void)
{
    static const uint8_t end[] = {0xE0};
    static const uint8_t fill[] = {0xE1};
    static const uint8_t further[] = {0xE0, 0x00};
    static const uint8_t pin_28[] = {0x9C, 0x00};
    static uint8_t longest[MODEL_LIST_MOST + 1];
    struct model_device device = model_fresh();

    expect_refusal("P1", end, 0, MODEL_CUT_SHORT, 0);
    expect("P2", play(&device, end, 1, MODEL_RUN_OPENINGS), MODEL_ACCEPTED);
    expect_refusal("P3", fill, 1, MODEL_FILL_NOT_ZERO, 3);
    expect_refusal("P4", further, 2, MODEL_BYTE_AFTER_END, 8);
    expect_refusal("P5", pin_28, 2, MODEL_NO_SUCH_PIN, 0);
    expect_refusal("9C alone", pin_28, 1, MODEL_CUT_SHORT, 0);
    expect_refusal("too long", longest, sizeof longest, MODEL_TOO_LONG, 0);
    expect_refusal("no end", longest, 4, MODEL_CUT_SHORT, 32);
}

static void check_openings(void)
{
    /* Preload 1, TCR 01, 128 clocks, end: the example below without its read. */
    static const uint8_t two_openings[] = {0x15, 0x01, 0x10, 0x01, 0xA0, 0x0F, 0xFC};
    struct model_device device = timer_started(1, 0x01);

    expect("P6", pass_clocks(&device, 63), 0);
    expect("P7", pass_clocks(&device, 1), 1);
    device = timer_started(0, 0x01);
    expect("P8", pass_clocks(&device, 65536), 0);
    device = timer_started(1, 0x11);
    expect("P9", pass_clocks(&device, 128), 1);
    device = model_fresh();
    expect("P10", play(&device, two_openings, sizeof two_openings, 1), MODEL_OPENINGS_TOO_FEW);
    expect("P10 with room", play(&device, two_openings, sizeof two_openings, 2), MODEL_ACCEPTED);
    expect("P10 openings", totals.openings, 2);
}

static void pulse_pin(struct model_device *device, unsigned pin)
{
    model_pin(device, pin, true);
    model_pin(device, pin, false);
}

static void check_ports(void)
{
    struct model_device device = model_fresh();

    model_write(&device, MODEL_PIVR, 0x40);
    model_write(&device, MODEL_PSRR, 0x18 | 5);
    model_write(&device, MODEL_PACR, 0x04);
    model_write(&device, MODEL_PBCR, 0x82);
    model_write(&device, MODEL_PGCR, 0x30);
    pulse_pin(&device, MODEL_PIN_H1 + 1);
    pulse_pin(&device, MODEL_PIN_H1 + 2);
    expect("P11 statuses", model_read(&device, MODEL_PSR) & 0x0F, 0x06);
    expect("P11", model_port_acknowledge(&device), 0x42);
    expect("P11, nothing cleared", model_port_acknowledge(&device), 0x42);

    device = model_fresh();
    model_write(&device, MODEL_PGCR, 0x10);
    pulse_pin(&device, MODEL_PIN_H1);
    pulse_pin(&device, MODEL_PIN_H1);
    pulse_pin(&device, MODEL_PIN_H1);
    expect("P12", device.port[0].held, 2);
}

/* 02, R-5: "Bit 2 says which pair goes first, bit 0 turns H1 and H2 round, bit 1 turns H3 and H4 round." Each status is
 * acknowledged and then cleared, so that the next one answers. */
static void check_orders(void)
{
    unsigned row, place;

    for (row = 0; row < 8; row++) {
        struct model_device device = model_fresh();
        unsigned h12_at = row & 4u ? 2 : 0;
        unsigned h34_at = 2 - h12_at;
        unsigned order[4];

        order[h12_at] = row & 1u ? 1 : 0;
        order[h12_at + 1] = row & 1u ? 0 : 1;
        order[h34_at] = row & 2u ? 3 : 2;
        order[h34_at + 1] = row & 2u ? 2 : 3;
        model_write(&device, MODEL_PIVR, 0x40);
        model_write(&device, MODEL_PSRR, (uint8_t)(0x18 | row));
        model_write(&device, MODEL_PACR, 0x86);
        model_write(&device, MODEL_PBCR, 0x86);
        model_write(&device, MODEL_PGCR, 0x30);
        for (place = 0; place < 4; place++) {
            pulse_pin(&device, MODEL_PIN_H1 + place);
        }
        for (place = 0; place < 4; place++) {
            expect("R-5", model_port_acknowledge(&device), 0x40 + order[place]);
            model_write(&device, MODEL_PSR, (uint8_t)(1u << order[place]));
        }
        expect("R-5, none left", model_port_acknowledge(&device), MODEL_SILENT);
    }
}

/* 02, R-6: "A fresh device should hold PC2's outside level low and all other levels high." A reset keeps what came since;
 * and a setup script for run/halt gating opens as before where it states PC2 high before enabling, and never where it
 * doesn't. */
static void check_idle_levels(void)
{
    struct model_device device = model_fresh();
    unsigned pin;

    for (pin = 0; pin < MODEL_PINS; pin++) {
        expect("R-6, a fresh level", model_level(&device, pin), pin != MODEL_PIN_TIN);
    }
    model_pin(&device, MODEL_PIN_TIN, true);
    model_reset(&device);
    expect("R-6, a level kept by reset", model_read(&device, MODEL_DATA_C), 0xFF);
    model_pin(&device, MODEL_PIN_TIN, false);
    model_reset(&device);
    expect("R-6, a low level kept by reset", model_read(&device, MODEL_DATA_C), 0xFB);
    device = timer_started(1, 0x03);
    expect("R-6, PC2 not stated", pass_clocks(&device, 256), 0);
    model_pin(&device, MODEL_PIN_TIN, true);
    expect("R-6, the first trigger is a rise", pass_clocks(&device, 63), 0);
    expect("R-6, the first trigger is a rise", pass_clocks(&device, 1), 1);
    device = model_fresh();
    model_pin(&device, MODEL_PIN_TIN, true);
    model_write(&device, MODEL_PRELOAD_LOW, 1);
    model_write(&device, MODEL_TCR, 0x03);
    expect("R-6, PC2 stated high", pass_clocks(&device, 63), 0);
    expect("R-6, PC2 stated high", pass_clocks(&device, 1), 1);
}

/* A rise and a fall of TIN, which is low before. */
static void tin_pulse(struct model_device *device)
{
    pulse_pin(device, MODEL_PIN_TIN);
}

/* A timer with source 11 and preload 5 that has loaded it, and holds a rise more. */
static struct model_device holding_rise(void)
{
    struct model_device device = timer_started(5, 0x07);

    tin_pulse(&device);
    (void)pass_clocks(&device, 1);
    tin_pulse(&device);
    expect("R-2, nothing moves before the clock", model_read(&device, MODEL_COUNT_LOW), 5);
    return device;
}

/* What the counter reads after a clock, and after a further one, which takes no rise. */
static void expect_count(const char *what, struct model_device device, uint32_t count)
{
    (void)pass_clocks(&device, 1);
    expect(what, device.count, count);
    (void)pass_clocks(&device, 1);
    expect(what, device.count, count);
}

/* 02, R-2: "a rise with source 10 or 11 is held and takes effect at the next clock; further rises before it add
 * nothing". The level that the rise leaves, a fall and many clocks at once make no difference. */
static void check_held_rises(void)
{
    struct model_device device = holding_rise();

    expect_count("R-2, a clock takes the rise", device, 4);
    tin_pulse(&device);
    tin_pulse(&device);
    expect_count("R-2, three rises count once", device, 4);
    model_pin(&device, MODEL_PIN_TIN, true);
    model_pin(&device, MODEL_PIN_TIN, true);
    expect_count("R-2, TIN high", device, 4);
    (void)pass_clocks(&device, 65536);
    expect("R-2, many clocks", device.count, 4);
    model_write(&device, MODEL_TCR, 0x07);
    tin_pulse(&device);
    expect_count("R-2, the level as it is: no rise", device, 4);
    tin_pulse(&device);
    expect_count("R-2, the next rise", device, 3);

    device = timer_started(1, 0x01);
    (void)pass_clocks(&device, 31);
    model_write(&device, MODEL_TCR, 0x05);
    (void)pass_clocks(&device, 100);
    expect("R-2, no rise", device.prescaler, 0);
    tin_pulse(&device);
    expect("R-2, the prescaler before the clock", device.prescaler, 0);
    (void)pass_clocks(&device, 1);
    expect("R-2, the prescaler at the clock", device.prescaler, 31);
    expect("R-2, a count through the prescaler", device.count, 1);
}

/* 02, R-2: "a halt, a reset or a change of source drops it, and while the timer is halted none is held." */
static void check_dropped_rises(void)
{
    static const uint8_t sources[] = {0x01, 0x03, 0x05, 0x07};
    unsigned before, after;
    struct model_device device = holding_rise();

    model_write(&device, MODEL_PRELOAD_LOW, 9);
    model_write(&device, MODEL_TCR, 0xF7);
    expect_count("R-2, other bits of TCR keep the rise", device, 4);
    model_write(&device, MODEL_TCR, 0x06);
    tin_pulse(&device);
    model_write(&device, MODEL_TCR, 0x07);
    expect_count("R-2, off and on again", device, 5);
    expect("R-2, a load due", device.load_due, true);
    tin_pulse(&device);
    model_reset(&device);
    tin_pulse(&device);
    expect("R-2, a rise of PC2 after a reset", device.rise_held, false);
    model_write(&device, MODEL_TCR, 0x07);
    expect_count("R-2, a reset", device, 5);

    for (before = 0; before < 4; before++) {
        for (after = 0; after < 4; after++) {
            device = timer_started(5, sources[before]);
            model_pin(&device, MODEL_PIN_TIN, true);
            expect("R-2, held with sources 10 and 11", device.rise_held, before >= 2);
            model_write(&device, MODEL_TCR, sources[after]);
            expect("R-2, kept with the same source", device.rise_held, before >= 2 && before == after);
            model_write(&device, MODEL_TCR, sources[before]);
            expect("R-2, back again", device.rise_held, before >= 2 && before == after);
        }
    }
}

/* 02, R-2: a rise "takes effect at the next clock", with preload and bit 4 as they stand there; "an opening now falls
 * only on a clock". */
static void check_rises_at_clock(void)
{
    struct model_device device = timer_started(5, 0x07);

    model_pin(&device, MODEL_PIN_TIN, true);
    model_write(&device, MODEL_PRELOAD_LOW, 1);
    expect_count("R-2, the preload at the clock", device, 1);
    (void)pass_clocks(&device, 1);
    tin_pulse(&device);
    model_pin(&device, MODEL_PIN_TIN, true);
    expect("R-2, no opening at the rise", model_read(&device, MODEL_TSR), 0);
    expect("R-2, of many clocks one opens", pass_clocks(&device, 1000), 1);
    expect("R-2, ZDS at the clock", model_read(&device, MODEL_TSR), 1);
    tin_pulse(&device);
    model_pin(&device, MODEL_PIN_TIN, true);
    model_write(&device, MODEL_TCR, 0x17);
    expect_count("R-2, bit 4 at the clock: roll", device, 0xFFFFFF);
    model_write(&device, MODEL_TCR, 0x07);
    expect_count("R-2, bit 4 at the clock: reload", device, 1);
}

/* 02, R-2: "numbers rise strictly". Source 11, preload 1: each second rise opens, at the first of three clocks. */
static void check_rise_numbers(void)
{
    static uint8_t list[64];
    struct writer writer = {list, 0};
    struct model_device device = model_fresh();
    unsigned rise;

    writer_pin(&writer, MODEL_PIN_TIN, false);
    writer_write(&writer, MODEL_PRELOAD_LOW, 1);
    writer_write(&writer, MODEL_TCR, 0x07);
    for (rise = 0; rise < 6; rise++) {
        writer_pin(&writer, MODEL_PIN_TIN, true);
        writer_pin(&writer, MODEL_PIN_TIN, false);
        writer_clocks(&writer, 3);
    }
    expect("R-2, a list", play(&device, list, writer_end(&writer), MODEL_RUN_OPENINGS), MODEL_ACCEPTED);
    expect("R-2, its openings", totals.openings, 3);
    expect("R-2, the first", openings[0], 4);
    expect("R-2, the second", openings[1], 10);
    expect("R-2, the third", openings[2], 16);
}

/* 01, number 8: "fields added later: ... set where their rule drops them". */
static void check_held_refused(void)
{
    unsigned source, enabled;

    for (source = 0; source < 4; source++) {
        for (enabled = 0; enabled < 2; enabled++) {
            struct model_device device = timer_started(5, (uint8_t)(source << 1 | enabled));

            expect("R-2, valid without a rise", model_valid(&device), true);
            device.rise_held = true;
            expect("R-2, number 8", model_valid(&device), source >= 2 && enabled);
            device.outside[2] |= 4;
            expect("R-2, number 8, TIN high", model_valid(&device), source >= 2 && enabled);
        }
    }
}

static void check_program_example(void)
{
    static const uint8_t list[] = {0x15, 0x01, 0x10, 0x01, 0xA0, 0x0F, 0xE7, 0x5C};
    struct model_device device = model_fresh();

    expect("example", play(&device, list, sizeof list, MODEL_RUN_OPENINGS), MODEL_ACCEPTED);
    expect("example answers", totals.answers, 2);
    expect("example responds", answers[0], 1);
    expect("example answer", answers[1], 0x01);
    expect("example openings", totals.openings, 2);
    expect("example first", openings[0], 64);
    expect("example second", openings[1], 128);
    expect("example clocks", totals.clocks, 128);
}

/* 01, Ways this part has been misread, and single sentences. */
static void check_misreadings(void)
{
    struct model_device device = timer_started(2, 0xA1);

    expect("32 x (N + 1)", pass_clocks(&device, 95), 0);
    expect("32 x (N + 1)", pass_clocks(&device, 1), 1);
    expect("vector", model_timer_acknowledge(&device), 0x0F);
    expect("ZDS stays", model_read(&device, MODEL_TSR), 1);
    (void)pass_clocks(&device, 5);
    model_write(&device, MODEL_TCR, 0xA0);
    expect("ZDS is 0 halted", model_read(&device, MODEL_TSR), 0);
    model_write(&device, MODEL_TCR, 0xA1);
    expect("full prescaler", pass_clocks(&device, 95), 0);
    expect("full prescaler", pass_clocks(&device, 1), 1);

    device = model_fresh();
    expect("fresh PSR", model_read(&device, MODEL_PSR), 0xF0);
    expect("fresh data C", model_read(&device, MODEL_DATA_C), 0xFB);
    expect("fresh alternate", model_read(&device, MODEL_ALTERNATE_A), 0xFF);
    expect("fresh PIVR", model_read(&device, MODEL_PIVR), 0x0F);
    model_write(&device, MODEL_PIVR, 0x0F);
    expect("written PIVR", model_read(&device, MODEL_PIVR), 0x0C);
    model_write(&device, MODEL_PGCR, 0x10);
    pulse_pin(&device, MODEL_PIN_H1);
    (void)model_read(&device, MODEL_ALTERNATE_A);
    expect("alternate consumes nothing", device.port[0].held, 1);
    expect("data read", model_read(&device, MODEL_DATA_A), 0xFF);
    expect("data read consumes", device.port[0].held, 0);
}

/* 01, Mode 0: the wait of four and of two clocks, the pulse of four. */
static void check_handshakes(void)
{
    struct model_device device = model_fresh();

    model_write(&device, MODEL_PACR, 0x30);
    model_write(&device, MODEL_PGCR, 0x12);
    (void)pass_clocks(&device, 3);
    expect("input wait", model_level(&device, MODEL_PIN_H1 + 1), false);
    (void)pass_clocks(&device, 1);
    expect("input wait over", model_level(&device, MODEL_PIN_H1 + 1), true);
    pulse_pin(&device, MODEL_PIN_H1);
    expect("negated by the edge", model_level(&device, MODEL_PIN_H1 + 1), false);
    expect("a byte", device.port[0].held, 1);

    device = model_fresh();
    model_write(&device, MODEL_PBCR, 0x78);
    model_write(&device, MODEL_PGCR, 0x28);
    model_write(&device, MODEL_DATA_B, 0x5A);
    (void)pass_clocks(&device, 1);
    expect("output wait", model_level(&device, MODEL_PIN_H1 + 3), false);
    (void)pass_clocks(&device, 4);
    expect("pulse", model_level(&device, MODEL_PIN_H1 + 3), true);
    (void)pass_clocks(&device, 1);
    expect("pulse over", model_level(&device, MODEL_PIN_H1 + 3), false);
}

/* pit.h's layout: each byte belongs to a field of its own, and nothing else does. */
static void check_layout(void)
{
    size_t place;

    for (place = 0; place < MODEL_DEVICE_SIZE; place++) {
        uint8_t bytes[MODEL_DEVICE_SIZE] = {0};
        uint8_t again[MODEL_DEVICE_SIZE];
        struct model_device device;

        bytes[place] = 1;
        device = model_from_bytes(bytes);
        model_to_bytes(&device, again);
        expect("layout, the byte that comes back", memcmp(again, bytes, sizeof bytes) == 0 ? place : MODEL_DEVICE_SIZE,
               place);
    }
}

#define CHECK_RANGE(kind, place, most, name)                                                                         \
    if (most < MODEL_WIDEST_##kind) {                                                                                \
        struct model_device device = model_fresh();                                                                  \
                                                                                                                     \
        device.place = (model_##kind)(most + 1u);                                                                    \
        expect("valid past the range: " name, model_valid(&device), false);                                          \
    }

/* 01, number 8: each range that fields.h states is one that the model judges. */
static void check_ranges(void)
{
    MODEL_LAYOUT(CHECK_RANGE)
}

int main(void)
{
    check_layout();
    check_ranges();
    check_formats();
    check_openings();
    check_ports();
    check_orders();
    check_idle_levels();
    check_held_rises();
    check_dropped_rises();
    check_rises_at_clock();
    check_rise_numbers();
    check_held_refused();
    check_program_example();
    check_misreadings();
    check_handshakes();
    return failures != 0;
}
