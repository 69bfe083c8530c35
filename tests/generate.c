/* Lists are built event by event beside a model device, so that the next event can be chosen by the state the
 * part is in: clocks that end just before, at or just after a wait, a pulse, a count or an opening; edges that
 * are edges; writes in the middle of a handshake. */
#include "generate.h"
#include "writer.h"

#include <string.h>

/* ---- Numbers ---- */

/* No two draws stand in one expression where C leaves their order to the compiler, so that a seed and a number give
 * the same on every machine. */

/* Splitmix64. */
static uint64_t next_random(struct generate_random *random)
{
    uint64_t mixed = random->state += 0x9E3779B97F4A7C15u;

    mixed = (mixed ^ (mixed >> 30)) * 0xBF58476D1CE4E5B9u;
    mixed = (mixed ^ (mixed >> 27)) * 0x94D049BB133111EBu;
    return mixed ^ (mixed >> 31);
}

struct generate_random generate_seeded(uint64_t seed, uint64_t number)
{
    struct generate_random random = {seed};

    random.state = next_random(&random) + number;
    random.state = next_random(&random);
    return random;
}

uint32_t generate_below(struct generate_random *random, uint32_t limit)
{
    return (uint32_t)((next_random(random) >> 32) * limit >> 32);
}

static uint32_t up_to(struct generate_random *random, uint32_t most)
{
    return (uint32_t)((next_random(random) >> 32) * ((uint64_t)most + 1) >> 32);
}

static bool one_in(struct generate_random *random, uint32_t many)
{
    return generate_below(random, many) == 0;
}

static uint8_t any_byte(struct generate_random *random)
{
    return (uint8_t)generate_below(random, 256);
}

/* Bytes where rules turn, or any. */
static uint8_t telling_byte(struct generate_random *random)
{
    static const uint8_t telling[] = {0x00, 0xFF, 0x01, 0x0F, 0x80, 0x55};

    return one_in(random, 2) ? telling[generate_below(random, sizeof telling)] : any_byte(random);
}

/* Preloads and counts: 0 to 3, around 2^8, 2^16 and 2^24, around the 2,048 counts of 65,536 clocks. */
static uint32_t telling_count(struct generate_random *random)
{
    static const uint32_t telling[] = {255,   256,   257,   2046,  2047,     2048,     2049,    65534,
                                       65535, 65536, 65537, 65538, 0xFFFFFD, 0xFFFFFE, 0xFFFFFF};

    switch (generate_below(random, 8)) {
    case 0:
        return telling[generate_below(random, sizeof telling / sizeof telling[0])];
    case 1:
        return generate_below(random, 0x1000000);
    case 2:
        return generate_below(random, 40);
    default:
        return generate_below(random, 4);
    }
}

/* ---- What a port is, for the generator's own choices ---- */

enum kind { KIND_00, KIND_01, KIND_1X };

static enum kind kind_of(const struct model_device *device, unsigned which)
{
    unsigned submode = device->port[which].control >> 6;

    if (device->pgcr >= 0x40 || submode >= 2) {
        return KIND_1X;
    }
    return submode == 0 ? KIND_00 : KIND_01;
}

static bool is_enabled(const struct model_device *device, unsigned which)
{
    return (device->pgcr >> (4 + which) & 1) != 0;
}

static unsigned control_of(const struct model_device *device, unsigned which)
{
    return device->port[which].control >> 3 & 7u;
}

static bool is_ready(const struct model_device *device, unsigned which)
{
    enum kind kind = kind_of(device, which);

    return is_enabled(device, which) && ((kind == KIND_00 && device->port[which].held < 2) ||
                                         (kind == KIND_01 && device->port[which].held > 0));
}

/* Submodes 00 and 01 and controls 110 and 111 have the most rules and come most often. */
static uint8_t telling_control(struct generate_random *random)
{
    static const uint8_t submodes[] = {0, 0, 0, 1, 1, 1, 2, 3};
    static const uint8_t controls[] = {0, 1, 2, 3, 4, 5, 6, 6, 6, 7, 7, 7};
    unsigned submode = submodes[generate_below(random, sizeof submodes)];
    unsigned control = controls[generate_below(random, sizeof controls)];

    return (uint8_t)(submode << 6 | control << 3 | generate_below(random, 8));
}

static uint8_t telling_pgcr(struct generate_random *random)
{
    unsigned mode = one_in(random, 8) ? generate_below(random, 4) : 0;
    unsigned enables = one_in(random, 4) ? generate_below(random, 4) : 3;

    return (uint8_t)(mode << 6 | enables << 4 | generate_below(random, 16));
}

/* ---- Building a list ---- */

struct builder {
    struct generate_random *random;
    struct model_device device;
    struct writer writer;
    uint32_t clocks_left;
};

static bool has_room(const struct builder *builder, unsigned bits)
{
    return writer_fits(&builder->writer, bits, MODEL_LIST_MOST);
}

static void put_write(struct builder *builder, unsigned number, uint8_t value)
{
    if (has_room(builder, MODEL_WRITE_BITS)) {
        writer_write(&builder->writer, number, value);
        model_write(&builder->device, number, value);
    }
}

static void put_read(struct builder *builder, unsigned number)
{
    if (has_room(builder, MODEL_READ_BITS)) {
        writer_read(&builder->writer, number);
        (void)model_read(&builder->device, number);
    }
}

static void put_pin(struct builder *builder, unsigned pin, bool level)
{
    if (has_room(builder, MODEL_PIN_BITS)) {
        writer_pin(&builder->writer, pin, level);
        model_pin(&builder->device, pin, level);
    }
}

static void put_clocks(struct builder *builder, uint32_t clocks)
{
    uint32_t passed;

    if (clocks == 0 || clocks > MODEL_CLOCKS_MOST || clocks > builder->clocks_left ||
        !has_room(builder, MODEL_CLOCKS_BITS)) {
        return;
    }
    writer_clocks(&builder->writer, clocks);
    builder->clocks_left -= clocks;
    for (passed = 0; passed < clocks; passed++) {
        (void)model_clock(&builder->device);
    }
}

static void put_bare(struct builder *builder, enum model_kind kind)
{
    if (has_room(builder, MODEL_BARE_BITS)) {
        writer_bare(&builder->writer, kind);
        if (kind == MODEL_RESET) {
            model_reset(&builder->device);
        }
    }
}

/* ---- Actions: a few events that belong together ---- */

static unsigned any_port(struct builder *builder)
{
    return generate_below(builder->random, 2);
}

/* How many clocks until the timer next opens, if it goes on as it is. */
static uint32_t clocks_to_opening(const struct model_device *device)
{
    uint32_t counts = device->load_due ? device->preload + 1 : device->count;

    return counts > 4096 ? 0 : device->prescaler + 1 + 32 * (counts > 0 ? counts - 1 : 0);
}

static uint32_t telling_clocks(struct builder *builder)
{
    struct generate_random *random = builder->random;
    const struct model_device *device = &builder->device;
    const struct model_port *port = &device->port[any_port(builder)];
    uint32_t around = generate_below(random, 3);

    switch (generate_below(random, 12)) {
    case 0:
        return port->wait + around > 0 ? port->wait + around - 1 : 1;
    case 1:
        return port->pulse + around > 0 ? port->pulse + around - 1 : 1;
    case 2:
        return device->prescaler + around;
    case 3:
        return device->prescaler + 32 * generate_below(random, 4) + around;
    case 4:
    case 5:
        return clocks_to_opening(device) + around > 0 ? clocks_to_opening(device) + around - 1 : 1;
    case 6:
        return 1 + generate_below(random, 200);
    case 7:
        return one_in(random, 3) ? 65536 : 1 + generate_below(random, 65536);
    default:
        return 1 + generate_below(random, 6);
    }
}

static void act_clocks(struct builder *builder)
{
    put_clocks(builder, telling_clocks(builder));
}

/* An asserted edge, by way of the negated level where need be. */
static void asserted_edge(struct builder *builder, unsigned hand)
{
    bool asserted = (builder->device.pgcr >> hand & 1) != 0;

    if (builder->device.outside_hand[hand] == asserted) {
        put_pin(builder, MODEL_PIN_H1 + hand, !asserted);
    }
    put_pin(builder, MODEL_PIN_H1 + hand, asserted);
}

/* Any level at one of so many pins. */
static void put_any_level(struct builder *builder, unsigned first, unsigned many)
{
    unsigned pin = first + generate_below(builder->random, many);

    put_pin(builder, pin, one_in(builder->random, 2));
}

static void act_h1_edge(struct builder *builder)
{
    unsigned which = any_port(builder);

    if (one_in(builder->random, 2)) {
        put_any_level(builder, 8 * which, 8);
    }
    asserted_edge(builder, 2 * which);
}

static void act_h2_edge(struct builder *builder)
{
    asserted_edge(builder, 2 * any_port(builder) + 1);
}

static void act_pins(struct builder *builder)
{
    unsigned many = 1 + generate_below(builder->random, 4);

    while (many-- > 0) {
        put_any_level(builder, 0, MODEL_PINS);
    }
}

static void act_port_setup(struct builder *builder)
{
    unsigned which = any_port(builder);

    if (one_in(builder->random, 3)) {
        put_write(builder, MODEL_PGCR, builder->device.pgcr & 0x0F);
    }
    put_write(builder, MODEL_PACR + which, telling_control(builder->random));
    if (one_in(builder->random, 2)) {
        put_write(builder, MODEL_DIRECTION_A + which, telling_byte(builder->random));
    }
    if (!is_enabled(&builder->device, which) || one_in(builder->random, 3)) {
        put_write(builder, MODEL_PGCR, telling_pgcr(builder->random));
    }
}

static void act_data(struct builder *builder)
{
    unsigned which = any_port(builder);

    if (one_in(builder->random, 2)) {
        put_read(builder, MODEL_DATA_A + which);
    } else {
        put_write(builder, MODEL_DATA_A + which, any_byte(builder->random));
    }
}

/* Something that may end a wait or a pulse before its time. */
static void interfere(struct builder *builder, unsigned which)
{
    struct generate_random *random = builder->random;
    uint8_t pgcr = builder->device.pgcr;
    uint8_t control = builder->device.port[which].control;

    switch (generate_below(random, 12)) {
    case 0:
    case 1:
    case 2:
        asserted_edge(builder, 2 * which);
        break;
    case 3:
        put_read(builder, MODEL_DATA_A + which);
        break;
    case 4:
        put_write(builder, MODEL_DATA_A + which, any_byte(random));
        break;
    case 5:
        put_write(builder, MODEL_PGCR, pgcr ^ (uint8_t)(0x10u << which));
        break;
    case 6:
        put_write(builder, MODEL_PACR + which, control ^ (uint8_t)(generate_below(random, 8) << 3));
        break;
    case 7:
        put_write(builder, MODEL_PACR + which, control ^ (uint8_t)generate_below(random, 8));
        break;
    case 8:
        put_write(builder, MODEL_PACR + which, control ^ (uint8_t)(generate_below(random, 4) << 6));
        break;
    case 9:
        put_write(builder, MODEL_PGCR, pgcr ^ (uint8_t)generate_below(random, 16));
        break;
    case 10:
        put_write(builder, MODEL_PGCR, pgcr ^ (uint8_t)(generate_below(random, 4) << 6));
        break;
    default:
        if (one_in(random, 4)) {
            put_bare(builder, MODEL_RESET);
        }
        break;
    }
}

/* A handshake begins, runs for some clocks and is interfered with. */
static void act_handshake(struct builder *builder)
{
    struct generate_random *random = builder->random;
    unsigned which = any_port(builder);
    unsigned rounds = 1 + generate_below(random, 4);

    if (kind_of(&builder->device, which) == KIND_1X || control_of(&builder->device, which) < 6) {
        unsigned submode = generate_below(random, 2);

        put_write(builder, MODEL_PACR + which, (uint8_t)(submode << 6 | 0x30u | generate_below(random, 16)));
    }
    if (!is_enabled(&builder->device, which) || builder->device.pgcr >= 0x40) {
        put_write(builder, MODEL_PGCR, (uint8_t)((builder->device.pgcr & 0x3Fu) | 0x10u << which));
    }
    while (rounds-- > 0) {
        if (!is_ready(&builder->device, which)) {
            if (kind_of(&builder->device, which) == KIND_01) {
                put_write(builder, MODEL_DATA_A + which, any_byte(random));
            } else {
                put_read(builder, MODEL_DATA_A + which);
            }
        }
        if (!one_in(random, 8)) {
            put_clocks(builder, 1 + generate_below(random, 9));
        }
        interfere(builder, which);
    }
}

static void put_preload(struct builder *builder, uint32_t preload)
{
    if (preload > 0xFFFF || one_in(builder->random, 8)) {
        put_write(builder, MODEL_PRELOAD_HIGH, (uint8_t)(preload >> 16));
    }
    if (preload > 0xFF || one_in(builder->random, 8)) {
        put_write(builder, MODEL_PRELOAD_MID, (uint8_t)(preload >> 8));
    }
    put_write(builder, MODEL_PRELOAD_LOW, (uint8_t)preload);
}

/* 02, R-6: "Each caller that starts from a fresh device states its level before enabling": a setup whose source is TIN,
 * or is gated by it, states PC2. A change of a running timer (act_timer_change) and a write of anything do not, so that
 * lists that leave it unstated are played too. */
static void state_tin(struct builder *builder, unsigned tcr)
{
    if ((tcr & 0x06u) != 0) {
        put_pin(builder, MODEL_PIN_TIN, !one_in(builder->random, 4));
    }
}

static void act_timer_setup(struct builder *builder)
{
    unsigned tcr = generate_below(builder->random, 128) << 1;

    put_preload(builder, telling_count(builder->random));
    state_tin(builder, tcr);
    put_write(builder, MODEL_TCR, (uint8_t)(tcr | 1u));
}

/* Starts the timer on the clock with a short delay and runs it around some of its openings. */
static void act_timer_run(struct builder *builder)
{
    struct generate_random *random = builder->random;
    unsigned rounds = 1 + generate_below(random, 3);
    unsigned tcr = generate_below(random, 8) << 5 | 1u;

    tcr |= one_in(random, 4) ? 0x10u : 0u;
    tcr |= one_in(random, 2) ? 0x02u : 0u;
    put_preload(builder, generate_below(random, 4));
    state_tin(builder, tcr);
    put_write(builder, MODEL_TCR, (uint8_t)tcr);
    while (rounds-- > 0) {
        uint32_t further = generate_below(random, 2);

        put_clocks(builder, clocks_to_opening(&builder->device) + 64 * further + generate_below(random, 2));
        if (one_in(random, 3)) {
            put_write(builder, MODEL_TSR, telling_byte(random));
        }
        if (one_in(random, 3)) {
            put_bare(builder, MODEL_TIMER_ACKNOWLEDGE);
        }
    }
}

/* TCR with one field changed. */
static void act_timer_change(struct builder *builder)
{
    static const uint8_t fields[] = {0x01, 0x06, 0x10, 0xE0, 0x08, 0x07};
    uint8_t field = fields[generate_below(builder->random, sizeof fields)];

    put_write(builder, MODEL_TCR, builder->device.tcr ^ (field & any_byte(builder->random)));
}

/* Halts, and starts again after some clocks. */
static void act_timer_restart(struct builder *builder)
{
    put_write(builder, MODEL_TCR, builder->device.tcr & 0xFEu);
    if (one_in(builder->random, 2)) {
        act_clocks(builder);
    }
    put_write(builder, MODEL_TCR, builder->device.tcr | 1u);
    put_clocks(builder, clocks_to_opening(&builder->device) + generate_below(builder->random, 2));
}

static bool tin_is_high(const struct model_device *device)
{
    return (device->outside[2] & 4) != 0;
}

/* Edges of TIN, most of them with a clock between, since a clock takes one rise at most. */
static void act_tin(struct builder *builder)
{
    unsigned many = 1 + generate_below(builder->random, one_in(builder->random, 24) ? 80 : 8);

    while (many-- > 0) {
        put_pin(builder, MODEL_PIN_TIN, !tin_is_high(&builder->device));
        switch (generate_below(builder->random, 8)) {
        case 0:
            act_clocks(builder);
            break;
        case 1:
        case 2:
            break;
        default:
            put_clocks(builder, 1);
            break;
        }
    }
}

/* A rise of TIN, by way of the low level where need be. */
static void rise_of_tin(struct builder *builder)
{
    if (tin_is_high(&builder->device)) {
        put_pin(builder, MODEL_PIN_TIN, false);
    }
    put_pin(builder, MODEL_PIN_TIN, true);
}

/* 02, R-2: what may come between a rise of TIN and the next clock. */
static void before_clock(struct builder *builder)
{
    struct generate_random *random = builder->random;
    uint8_t tcr = builder->device.tcr;

    switch (generate_below(random, 16)) {
    case 0: /* further rises */
        rise_of_tin(builder);
        if (one_in(random, 2)) {
            rise_of_tin(builder);
        }
        break;
    case 1:
        put_pin(builder, MODEL_PIN_TIN, false);
        break;
    case 2: /* its level again */
        put_pin(builder, MODEL_PIN_TIN, true);
        break;
    case 3: /* off, and on again */
        put_write(builder, MODEL_TCR, tcr & 0xFEu);
        put_write(builder, MODEL_TCR, tcr);
        break;
    case 4: /* off, and a rise while halted */
        put_write(builder, MODEL_TCR, tcr & 0xFEu);
        rise_of_tin(builder);
        break;
    case 5:
    case 6: /* another source, and back or not */
        put_write(builder, MODEL_TCR, tcr ^ (uint8_t)((1 + generate_below(random, 3)) << 1));
        if (one_in(random, 2)) {
            put_write(builder, MODEL_TCR, tcr);
        }
        break;
    case 7: /* the same source */
        put_write(builder, MODEL_TCR, tcr ^ (any_byte(random) & 0xF8u));
        break;
    case 8:
        put_write(builder, MODEL_TCR, tcr ^ 0x10u);
        break;
    case 9:
        put_preload(builder, generate_below(random, 4));
        break;
    case 10:
        if (one_in(random, 4)) {
            put_bare(builder, MODEL_RESET);
            put_write(builder, MODEL_TCR, tcr);
        }
        break;
    default:
        break;
    }
}

/* A sample clock on TIN, with source 10 or 11: rises, and the clocks that take them. For source 10 the prescaler is
 * brought near 0 by the clock beforehand, since a count takes 32 rises otherwise. */
static void act_sample_clock(struct builder *builder)
{
    struct generate_random *random = builder->random;
    unsigned rounds = 1 + generate_below(random, 8);
    unsigned tcr = 0x05u | generate_below(random, 8) << 5;

    tcr |= one_in(random, 3) ? 0x10u : 0u;
    tcr |= one_in(random, 2) ? 0x02u : 0u;
    put_preload(builder, generate_below(random, 4));
    if (one_in(random, 3)) {
        put_write(builder, MODEL_TCR, 0x01);
        put_clocks(builder, builder->device.prescaler - generate_below(random, 2));
    }
    state_tin(builder, tcr);
    put_write(builder, MODEL_TCR, (uint8_t)tcr);
    while (rounds-- > 0) {
        rise_of_tin(builder);
        before_clock(builder);
        put_clocks(builder, one_in(random, 6) ? 2 + generate_below(random, 300) : 1);
    }
}

static void act_status_writes(struct builder *builder)
{
    if (one_in(builder->random, 2)) {
        put_write(builder, MODEL_TSR, telling_byte(builder->random));
    } else {
        put_write(builder, MODEL_PSR, any_byte(builder->random));
    }
}

static void act_interrupt_setup(struct builder *builder)
{
    struct generate_random *random = builder->random;
    uint8_t piack = one_in(random, 4) ? 0 : 0x10;
    unsigned which;

    put_write(builder, MODEL_PSRR, any_byte(random) | piack);
    if (one_in(random, 2)) {
        put_write(builder, MODEL_PIVR, telling_byte(random));
    }
    if (one_in(random, 4)) {
        put_write(builder, MODEL_TIVR, any_byte(random));
    }
    for (which = 0; which < 2; which++) {
        put_write(builder, MODEL_PACR + which,
                  (builder->device.port[which].control & 0xF8u) | (uint8_t)generate_below(random, 8));
    }
}

static void act_acknowledge(struct builder *builder)
{
    put_bare(builder, one_in(builder->random, 2) ? MODEL_PORT_ACKNOWLEDGE : MODEL_TIMER_ACKNOWLEDGE);
}

static void act_port_c(struct builder *builder)
{
    struct generate_random *random = builder->random;

    switch (generate_below(random, 4)) {
    case 0:
        put_write(builder, MODEL_DIRECTION_C, telling_byte(random));
        break;
    case 1:
        put_write(builder, MODEL_DATA_C, any_byte(random));
        break;
    case 2:
        put_write(builder, MODEL_PSRR, any_byte(random));
        break;
    default:
        put_any_level(builder, MODEL_PIN_C, 8);
        break;
    }
}

static void act_anything(struct builder *builder)
{
    struct generate_random *random = builder->random;
    unsigned number = generate_below(random, MODEL_REGISTERS);

    switch (generate_below(random, 4)) {
    case 0:
        put_write(builder, number, telling_byte(random));
        break;
    case 1:
        put_read(builder, number);
        break;
    case 2:
        put_preload(builder, telling_count(random));
        break;
    default:
        if (one_in(random, 8)) {
            put_bare(builder, MODEL_RESET);
        }
        break;
    }
}

static void act(struct builder *builder)
{
    /* What has more rules stands here more often. */
    static void (*const actions[])(struct builder *) = {
        act_clocks, act_clocks, act_clocks, act_h1_edge, act_h1_edge, act_h2_edge, act_pins, act_port_setup,
        act_port_setup, act_data, act_data, act_handshake, act_handshake, act_handshake, act_timer_setup,
        act_timer_run, act_timer_run, act_timer_change, act_timer_change, act_timer_restart, act_tin, act_tin,
        act_sample_clock, act_status_writes, act_port_c, act_interrupt_setup, act_acknowledge, act_anything,
        act_anything,
    };

    actions[generate_below(builder->random, sizeof actions / sizeof actions[0])](builder);
}

/* Most lists have few clocks, since the model takes them one at a time. */
static uint32_t clocks_allowed(struct generate_random *random)
{
    if (one_in(random, 32)) {
        return 140000;
    }
    return one_in(random, 8) ? 9000 : 700;
}

static struct builder begin_list(struct generate_random *random, const uint8_t *device, struct generate_list *list)
{
    struct builder builder;

    builder.random = random;
    builder.device = model_from_bytes(device);
    builder.writer.bytes = list->bytes;
    builder.writer.bits = 0;
    builder.clocks_left = clocks_allowed(random);
    return builder;
}

void generate_list(struct generate_random *random, const uint8_t *device, struct generate_list *list)
{
    struct builder builder = begin_list(random, device, list);
    unsigned actions = generate_below(random, 16);

    while (actions-- > 0) {
        act(&builder);
    }
    list->size = writer_end(&builder.writer);
}

void generate_longest_list(struct generate_random *random, struct generate_list *list)
{
    uint8_t fresh[MODEL_DEVICE_SIZE];
    struct model_device device = model_fresh();
    struct builder builder;

    model_to_bytes(&device, fresh);
    builder = begin_list(random, fresh, list);
    while (has_room(&builder, 200)) {
        act(&builder);
    }
    while (has_room(&builder, MODEL_BARE_BITS) && !one_in(random, 64)) {
        put_bare(&builder, MODEL_PORT_ACKNOWLEDGE);
    }
    list->size = writer_end(&builder.writer);
}

void generate_clocks_list(struct generate_list *list, unsigned events)
{
    struct writer writer = {list->bytes, 0};

    while (events-- > 0) {
        writer_clocks(&writer, MODEL_CLOCKS_MOST);
    }
    list->size = writer_end(&writer);
}

/* ---- Devices ---- */

/* Sets wait, pulse and asserted mark to something that control, kind and readiness allow. */
static void arrange_handshake(struct generate_random *random, struct model_device *device, unsigned which)
{
    struct model_port *port = &device->port[which];
    uint32_t length = kind_of(device, which) == KIND_00 ? 4 : 2;

    port->wait = 0;
    port->pulse = 0;
    port->asserted = false;
    if (kind_of(device, which) == KIND_1X || control_of(device, which) < 6 || !is_ready(device, which)) {
        return;
    }
    if (control_of(device, which) == 6) {
        port->asserted = one_in(random, 2);
        port->wait = (uint8_t)(port->asserted ? 0 : 1 + generate_below(random, length));
        return;
    }
    switch (generate_below(random, 3)) {
    case 0:
        port->wait = (uint8_t)(1 + generate_below(random, length));
        break;
    case 1:
        port->pulse = (uint8_t)(1 + generate_below(random, 4));
        break;
    default:
        break;
    }
}

static void arrange_port(struct generate_random *random, struct model_device *device, unsigned which)
{
    struct model_port *port = &device->port[which];
    bool on = is_enabled(device, which);
    bool is_1x = kind_of(device, which) == KIND_1X;

    port->held = (uint8_t)(on && !is_1x ? generate_below(random, 3) : 0);
    port->h1_edge = on && is_1x && one_in(random, 2);
    port->h2_edge = on && control_of(device, which) < 4 && one_in(random, 2);
    arrange_handshake(random, device, which);
}

static void construct_port(struct generate_random *random, struct model_device *device, unsigned which)
{
    struct model_port *port = &device->port[which];

    port->direction = telling_byte(random);
    port->control = telling_control(random);
    arrange_port(random, device, which);
}

static bool is_halted(const struct model_device *device)
{
    return (device->tcr & 1) == 0 || ((device->tcr & 6) == 2 && (device->outside[2] & 4) == 0);
}

static void construct_timer(struct generate_random *random, struct model_device *device)
{
    bool halted = is_halted(device);

    device->preload = telling_count(random);
    device->count = telling_count(random);
    device->prescaler = (uint8_t)(halted ? 31 : generate_below(random, one_in(random, 2) ? 3 : 32));
    device->zds = !halted && one_in(random, 2);
    device->square_high = halted || one_in(random, 2);
    device->load_due = halted || one_in(random, 3);
    device->rise_held = !halted && (device->tcr & 4) != 0 && one_in(random, 2);
}

#define ANY_IN_RANGE(kind, place, most, name) device.place = (model_##kind)up_to(random, most);

/* Every field anywhere in its range; then those for which rules turn on certain values, or on other fields. */
static struct model_device construct_device(struct generate_random *random)
{
    struct model_device device;

    MODEL_LAYOUT(ANY_IN_RANGE)
    device.pgcr = telling_pgcr(random);
    device.pivr = one_in(random, 3) ? 0x0F : device.pivr & 0xFC;
    construct_port(random, &device, 0);
    construct_port(random, &device, 1);
    device.c_direction = telling_byte(random);
    device.tcr &= 0xF7;
    device.tcr |= one_in(random, 4) ? 0 : 1;
    construct_timer(random, &device);
    return device;
}

/* Plays a list on a fresh device. */
static struct model_device played_device(struct generate_random *random)
{
    uint8_t fresh[MODEL_DEVICE_SIZE];
    struct model_device device = model_fresh();
    struct generate_list list;
    struct builder builder;
    unsigned actions = 1 + generate_below(random, 12);

    model_to_bytes(&device, fresh);
    builder = begin_list(random, fresh, &list);
    while (actions-- > 0) {
        act(&builder);
    }
    return builder.device;
}

/* pit.h: a flag that is neither 0 nor 1 is read as 1. */
static void spread_flag(struct generate_random *random, uint8_t *byte)
{
    if (*byte != 0) {
        *byte = (uint8_t)(1 + generate_below(random, 255));
    }
}

static void spread_byte(struct generate_random *random, uint8_t *byte)
{
    (void)random;
    (void)byte;
}

#define spread_number spread_byte
#define SPREAD(kind, place, most, name)                                                                              \
    spread_##kind(random, bytes);                                                                                    \
    bytes += MODEL_WIDTH_##kind;

static void spread_flags(struct generate_random *random, uint8_t *bytes)
{
    MODEL_LAYOUT(SPREAD)
}

void generate_valid_device(struct generate_random *random, uint8_t *bytes)
{
    struct model_device device = model_fresh();

    switch (generate_below(random, 4)) {
    case 0:
        break;
    case 1:
        device = played_device(random);
        break;
    default:
        device = construct_device(random);
        break;
    }
    model_to_bytes(&device, bytes);
    if (one_in(random, 16)) {
        spread_flags(random, bytes);
    }
}

/* A port of the given kind and control, enabled, with so many bytes held, as valid as it can be. */
static void make_port(struct generate_random *random, struct model_device *device, unsigned which, enum kind kind,
                      unsigned control, unsigned held)
{
    struct model_port *port = &device->port[which];

    device->pgcr = (uint8_t)((device->pgcr & 0x3Fu) | 0x10u << which);
    port->control = (uint8_t)((unsigned)kind << 6 | control << 3 | (port->control & 7u));
    arrange_port(random, device, which);
    port->held = (uint8_t)held;
    arrange_handshake(random, device, which);
    arrange_port(random, device, 1 - which);
}

/* A ready port with a handshake whose wait, pulse and asserted mark are not as they may be. */
static void break_handshake_values(struct generate_random *random, struct model_device *device, unsigned which)
{
    struct model_port *port = &device->port[which];
    enum kind kind = one_in(random, 2) ? KIND_00 : KIND_01;
    unsigned broken = generate_below(random, 5);

    make_port(random, device, which, kind, broken < 2 ? 6 + generate_below(random, 2) : broken == 2 ? 6 : 7, 1);
    switch (broken) {
    case 0: /* a wait over its rule's length */
        port->pulse = 0;
        port->asserted = false;
        port->wait = (uint8_t)((kind == KIND_00 ? 5 : 3) + generate_below(random, one_in(random, 2) ? 3 : 248));
        break;
    case 1: /* a pulse under 110, the asserted mark under 111 */
        port->pulse = (uint8_t)(control_of(device, which) == 6 ? 1 : port->pulse);
        port->asserted = port->asserted || control_of(device, which) == 7;
        break;
    case 2: /* under 110 neither of wait and asserted mark, or both */
        port->asserted = one_in(random, 2);
        port->wait = port->asserted;
        break;
    case 3: /* a pulse over four clocks */
        port->wait = 0;
        port->pulse = (uint8_t)(5 + generate_below(random, one_in(random, 2) ? 2 : 251));
        break;
    default: /* a wait and a pulse */
        port->wait = (uint8_t)(1 + generate_below(random, 2));
        port->pulse = (uint8_t)(1 + generate_below(random, 4));
        break;
    }
}

/* One of wait, pulse and asserted mark on a port that is not ready, has no handshake or is disabled. */
static void break_handshake_place(struct generate_random *random, struct model_device *device, unsigned which)
{
    struct model_port *port = &device->port[which];
    enum kind kind = one_in(random, 2) ? KIND_00 : KIND_01;
    bool is_1x = one_in(random, 3);

    switch (generate_below(random, 3)) {
    case 0:
        make_port(random, device, which, kind, 6 + generate_below(random, 2), kind == KIND_00 ? 2 : 0);
        break;
    case 1:
        make_port(random, device, which, is_1x ? KIND_1X : kind, generate_below(random, 6), 0);
        break;
    default:
        make_port(random, device, which, kind, 6 + generate_below(random, 2), 0);
        device->pgcr &= (uint8_t)~(0x10u << which);
        break;
    }
    port->wait = (uint8_t)generate_below(random, 2);
    port->pulse = (uint8_t)(port->wait > 0 ? 0 : generate_below(random, 2));
    port->asserted = port->wait == 0 && port->pulse == 0;
}

static void break_held(struct generate_random *random, struct model_device *device, unsigned which)
{
    struct model_port *port = &device->port[which];
    enum kind kind = one_in(random, 2) ? KIND_00 : KIND_01;

    switch (generate_below(random, 3)) {
    case 0: /* over two */
        make_port(random, device, which, kind, generate_below(random, 8), 1);
        port->held = (uint8_t)(3 + generate_below(random, one_in(random, 2) ? 2 : 253));
        return;
    case 1: /* disabled */
        device->pgcr &= (uint8_t)~(0x10u << which);
        break;
    default: /* in 1X or modes 1 to 3 */
        make_port(random, device, which, KIND_1X, generate_below(random, 8), 0);
        if (one_in(random, 2)) {
            device->pgcr |= (uint8_t)(0x40u << generate_below(random, 2));
            port->control &= 0x7F;
        }
        break;
    }
    arrange_port(random, device, 0);
    arrange_port(random, device, 1);
    port->held = (uint8_t)(1 + generate_below(random, 2));
}

/* An H1 flag outside 1X, an H2 flag outside 0XX, or either of them disabled. */
static void break_flags(struct generate_random *random, struct model_device *device, unsigned which)
{
    struct model_port *port = &device->port[which];
    bool is_h1 = one_in(random, 2);
    enum kind kind = (enum kind)generate_below(random, 3);

    make_port(random, device, which, kind, generate_below(random, 8), 0);
    if (is_h1 ? kind_of(device, which) == KIND_1X : control_of(device, which) < 4) {
        device->pgcr &= (uint8_t)~(0x10u << which);
        arrange_port(random, device, which);
    }
    port->h1_edge = port->h1_edge || is_h1;
    port->h2_edge = port->h2_edge || !is_h1;
}

static void break_port(struct generate_random *random, struct model_device *device, unsigned which)
{
    switch (generate_below(random, 4)) {
    case 0:
        break_held(random, device, which);
        break;
    case 1:
        break_flags(random, device, which);
        break;
    case 2:
        break_handshake_place(random, device, which);
        break;
    default:
        break_handshake_values(random, device, which);
        break;
    }
}

/* Halted by bit 0 or by TIN, and one thing otherwise than stated. */
static void break_halt(struct generate_random *random, struct model_device *device)
{
    unsigned broken = generate_below(random, 4);

    device->tcr = (device->tcr & 0xF0) | (one_in(random, 2) ? 0x03 : 0x06);
    device->outside[2] &= 0xFB;
    device->prescaler = (uint8_t)(broken == 0 ? generate_below(random, 31) : 31);
    device->zds = broken == 1;
    device->square_high = broken != 2;
    device->load_due = broken != 3;
    device->rise_held = false;
}

/* A rise held where its rule drops it: with source 00 or 01, halted or not, or halted with 10 or 11. */
static void break_rise(struct generate_random *random, struct model_device *device)
{
    static const uint8_t dropping[] = {0x00, 0x01, 0x02, 0x03, 0x04, 0x06};

    device->tcr = (device->tcr & 0xF0) | dropping[generate_below(random, sizeof dropping)];
    construct_timer(random, device);
    device->rise_held = true;
}

static void break_timer(struct generate_random *random, struct model_device *device)
{
    uint32_t over = 0x1000000u << generate_below(random, 8);

    over |= generate_below(random, 0x1000000);
    switch (generate_below(random, 10)) {
    case 0:
        device->tcr = 0x01;
        device->rise_held = false;
        device->prescaler = (uint8_t)(32 + generate_below(random, 224));
        break;
    case 1:
        device->count = over;
        break;
    case 2:
        device->preload = over;
        break;
    case 3:
        device->tcr |= 0x08;
        break;
    case 4:
    case 5:
        break_rise(random, device);
        break;
    default:
        break_halt(random, device);
        break;
    }
}

static void break_registers(struct generate_random *random, struct model_device *device)
{
    if (one_in(random, 2)) {
        device->psrr |= 0x80;
    } else {
        device->pivr = any_byte(random) & 0xFC;
        device->pivr |= (uint8_t)(1 + generate_below(random, 3));
    }
}

/* Just past a range, or anywhere past it. */
static uint32_t past(struct generate_random *random, uint32_t most, uint32_t widest)
{
    return most + 1 + (one_in(random, 2) ? 0 : up_to(random, widest - most - 1));
}

#define IS_LIMITED(kind, place, most, name) +(most < MODEL_WIDEST_##kind)
#define BREAK_RANGE(kind, place, most, name)                                                                         \
    if (most < MODEL_WIDEST_##kind && chosen-- == 0) {                                                               \
        device->place = (model_##kind)past(random, most, MODEL_WIDEST_##kind);                                       \
    }

/* One of the fields that don't go as far as their bytes, past its range. */
static void break_range(struct generate_random *random, struct model_device *device)
{
    unsigned chosen = generate_below(random, 0 MODEL_LAYOUT(IS_LIMITED));

    MODEL_LAYOUT(BREAK_RANGE)
}

static void break_clause(struct generate_random *random, struct model_device *device)
{
    switch (generate_below(random, 9)) {
    case 0:
        break_registers(random, device);
        break;
    case 1:
    case 2:
        break_timer(random, device);
        break;
    case 3:
        break_range(random, device);
        break;
    default:
        break_port(random, device, generate_below(random, 2));
        break;
    }
}

static void flip_bits(struct generate_random *random, uint8_t *bytes, size_t size)
{
    unsigned many = 1 + generate_below(random, 3);

    while (size > 0 && many-- > 0) {
        size_t place = generate_below(random, (uint32_t)size);

        bytes[place] ^= (uint8_t)(1u << generate_below(random, 8));
    }
}

static void fill_random(struct generate_random *random, uint8_t *bytes, size_t size)
{
    size_t place;

    for (place = 0; place < size; place++) {
        bytes[place] = any_byte(random);
    }
}

void generate_any_device(struct generate_random *random, uint8_t *bytes)
{
    struct model_device device = construct_device(random);
    unsigned clauses = one_in(random, 4) ? 1 + generate_below(random, 3) : 1;

    while (clauses-- > 0) {
        break_clause(random, &device);
    }
    model_to_bytes(&device, bytes);
    switch (generate_below(random, 32)) {
    case 0:
        fill_random(random, bytes, MODEL_DEVICE_SIZE);
        break;
    case 1:
        generate_valid_device(random, bytes);
        break;
    case 2:
    case 3:
        generate_valid_device(random, bytes);
        flip_bits(random, bytes, MODEL_DEVICE_SIZE);
        break;
    case 4:
        spread_flags(random, bytes);
        break;
    default:
        break;
    }
}

/* ---- Damage ---- */

/* The first bit of one of the list's events. */
static size_t any_event(struct generate_random *random, const struct generate_list *list)
{
    struct model_event event;
    size_t position = 0;
    size_t after = 0;
    size_t chosen = 0;
    uint32_t seen = 0;

    while (model_next_event(list->bytes, list->size, position, &event, &after) == MODEL_ACCEPTED) {
        seen++;
        if (one_in(random, seen)) {
            chosen = position;
        }
        if (event.kind == MODEL_END) {
            break;
        }
        position = after;
    }
    return chosen;
}

/* Goes on with other bits from one of the list's events. */
static void continue_with(struct generate_random *random, struct generate_list *list, uint32_t value,
                          unsigned width)
{
    struct writer writer = {list->bytes, any_event(random, list)};

    if (writer.bits + width > 8 * (size_t)MODEL_LIST_MOST) {
        writer.bits = 0;
    }
    if (writer.bits % 8 != 0) {
        list->bytes[writer.bits / 8] &= (uint8_t)(0xFF00u >> writer.bits % 8);
    }
    writer_put(&writer, value, width);
    list->size = (writer.bits + 7) / 8;
}

static void add_bytes(struct generate_random *random, struct generate_list *list)
{
    unsigned many = 1 + generate_below(random, 3);

    while (many-- > 0 && list->size < GENERATE_LIST_ROOM) {
        list->bytes[list->size++] = one_in(random, 2) ? 0 : any_byte(random);
    }
}

static void stretch(struct generate_random *random, struct generate_list *list)
{
    size_t size = MODEL_LIST_MOST + generate_below(random, 3);

    if (list->size < size) {
        memset(list->bytes + list->size, one_in(random, 2) ? 0 : 0xFF, size - list->size);
    }
    list->size = size;
}

/* An event whose last bits are missing: as many bits as the bytes before it leave. */
static void cut_inside_event(struct generate_random *random, struct generate_list *list)
{
    size_t bits = any_event(random, list);

    list->size = bits / 8 + generate_below(random, 2);
}

void generate_damaged_list(struct generate_random *random, const struct generate_list *intact,
                           struct generate_list *list)
{
    memcpy(list->bytes, intact->bytes, intact->size);
    list->size = intact->size;
    switch (generate_below(random, 12)) {
    case 0:
        list->size = generate_below(random, (uint32_t)list->size + 1);
        break;
    case 1:
        list->size--;
        break;
    case 2:
        cut_inside_event(random, list);
        break;
    case 3:
    case 4:
        flip_bits(random, list->bytes, list->size);
        break;
    case 5: /* pin 28 to 31, with its level bit, and with what follows left out */
        continue_with(random, list, MODEL_PIN << 6 | (MODEL_PINS + generate_below(random, 4)) << 1, 9);
        break;
    case 6: /* the same without its level bit where the byte ends there */
        continue_with(random, list, MODEL_PIN << 5 | (MODEL_PINS + generate_below(random, 4)), 8);
        break;
    case 7: /* a fill bit, and at times a further byte */
        list->bytes[list->size - 1] |= (uint8_t)(1u << generate_below(random, 5));
        if (one_in(random, 4)) {
            add_bytes(random, list);
        }
        break;
    case 8:
        add_bytes(random, list);
        break;
    case 9: /* an early end, then a fill bit */
        continue_with(random, list, (uint32_t)MODEL_END << 2 | generate_below(random, 4), 5);
        break;
    case 10:
        if (one_in(random, 8)) {
            stretch(random, list);
        } else {
            add_bytes(random, list);
        }
        break;
    default:
        list->size = generate_below(random, 24);
        fill_random(random, list->bytes, list->size);
        break;
    }
}

struct generate_rooms generate_rooms(struct generate_random *random, size_t answers, size_t openings)
{
    struct generate_rooms rooms = {answers, openings};

    switch (generate_below(random, 10)) {
    case 0:
        break;
    case 1:
        rooms.answers = answers > 0 ? answers - 1 : 0;
        break;
    case 2:
        rooms.answers = answers > 1 ? answers - 2 : 0;
        break;
    case 3:
        rooms.answers = answers + 1;
        break;
    case 4:
        rooms.openings = openings > 0 ? openings - 1 : 0;
        break;
    case 5:
        rooms.answers = 0;
        break;
    case 6:
        rooms.openings = 0;
        break;
    case 7:
        rooms.answers = answers > 0 ? answers - 1 : 0;
        rooms.openings = openings > 0 ? openings - 1 : 0;
        break;
    default:
        rooms.answers = answers + generate_below(random, 40);
        rooms.openings = openings + generate_below(random, 40);
        break;
    }
    return rooms;
}
