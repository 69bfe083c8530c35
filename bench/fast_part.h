/* The anchor's part: a struct made for playing, what each event does to it, and the 53 bytes. Where the time is saved:
 *
 *  - The 53 bytes are unpacked once into the struct and packed once at the end.
 *  - Registers that only store stand in one row, so most reads are one load and most writes one store, without
 *    a jump by register number. What the control registers mean for a port is worked out when they are written.
 *  - The outside levels of all 28 pins are one word; only PC2 and H1-H4 take a pin event further.
 *  - A handshake is one clock number, when its wait ends; clocks cost it nothing.
 *  - The timer goes over any number of clocks at once, with one short loop turn for each opening.
 *
 * Lists (fast.c) and single calls (fast_calls.c) each have it compiled into them, as their loops and calls want it. */
#ifndef FAST_PART_H
#define FAST_PART_H

#include "fast.h"

#include <stdbool.h>
#include <string.h>

/* Registers; B's stand one after A's. */
enum {
    PGCR = 0,
    PSRR = 1,
    DIRECTION_A = 2,
    DIRECTION_C = 4,
    PIVR = 5,
    PACR = 6,
    DATA_A = 8,
    ALTERNATE_A = 10,
    DATA_C = 12,
    PSR = 13,
    TCR = 16,
    TIVR = 17,
    PRELOAD_HIGH = 19,
    PRELOAD_LOW = 21,
    COUNT_HIGH = 23,
    COUNT_LOW = 25,
    TSR = 26,
    REGISTERS = 32
};

#define COUNT_MOST 0xFFFFFFu
#define PRESCALER_FULL 31u
#define STEPS_PER_COUNT 32u
#define VECTOR_AT_RESET 0x0Fu
#define PULSE_LENGTH 4u
#define PIN_TIN 18u
#define PIN_H1 24u
#define PINS 28u

/* The room of a row that was found to reach, so that it isn't asked about. */
#define REACHES SIZE_MAX

/* ---- Timer ---- */

struct timer {
    uint32_t preload;
    uint32_t count;
    uint32_t prescaler;
    uint8_t tcr;
    bool tin;
    bool zds;
    bool square_high;
    bool load_due;
    bool rise_held; /* of TIN, for the next clock */
};

static unsigned source(const struct timer *timer)
{
    return timer->tcr >> 1 & 3u;
}

static bool running(const struct timer *timer)
{
    return (timer->tcr & 1u) && (source(timer) != 1 || timer->tin);
}

static bool clocked(const struct timer *timer)
{
    return (timer->tcr & 5u) == 1 && ((timer->tcr & 2u) == 0 || timer->tin);
}

static void halt(struct timer *timer)
{
    timer->prescaler = PRESCALER_FULL;
    timer->zds = false;
    timer->square_high = true;
    timer->load_due = true;
    timer->rise_held = false;
}

static void write_tcr(struct timer *timer, uint8_t value)
{
    uint8_t changed = timer->tcr ^ value;

    timer->tcr = value & 0xF7u;
    if (!running(timer)) {
        halt(timer);
    } else if (changed & 6u) {
        timer->rise_held = false;
    }
}

static void write_preload(struct timer *timer, unsigned number, uint8_t value)
{
    unsigned shift = 8 * (PRELOAD_LOW - number);

    timer->preload = (timer->preload & ~(0xFFu << shift)) | (uint32_t)value << shift;
}

/* Makes some counts, 32 clocks apart, the first 32 after `at`. Answers how many were openings; their clocks go
 * to the row, if there is one, as far as it reaches. */
static inline uint32_t make_counts(struct timer *timer, uint32_t counts, uint32_t at, uint32_t *row, size_t room)
{
    uint32_t opened = 0;
    uint32_t reload = (timer->tcr & 0x10u) ? COUNT_MOST : timer->preload;
    uint32_t period = reload + 1; /* counts from one opening to the next */

    if (timer->load_due) {
        timer->load_due = false;
        timer->count = timer->preload;
        counts--;
        at += STEPS_PER_COUNT;
    }
    if (counts < timer->count) {
        timer->count -= counts;
        return 0;
    }
    if (timer->count != 0) {
        counts -= timer->count;
        at += STEPS_PER_COUNT * timer->count;
        timer->count = 0;
        opened = 1;
        if (row != NULL && room > 0) {
            row[0] = at;
        }
    }
    /* The counter stands at zero: one count reloads it, as many as it then says lower it to zero again. */
    if (counts != 0 && reload != 0) {
        if (row == NULL) {
            opened += counts / period;
            counts %= period;
        } else {
            for (; counts >= period; counts -= period) {
                at += STEPS_PER_COUNT * period;
                if (opened < room) {
                    row[opened] = at;
                }
                opened++;
            }
        }
        timer->count = counts != 0 ? period - counts : 0;
    }
    if (opened != 0) {
        timer->zds = true;
        timer->square_high ^= opened & 1u;
    }
    return opened;
}

/* Passes clocks that step the timer, after `passed` clocks. */
static inline uint32_t step_clocks(struct timer *timer, uint32_t clocks, uint32_t passed, uint32_t *row, size_t room)
{
    uint32_t after_first; /* clocks after the one that makes the first count */
    uint32_t at;

    if (clocks <= timer->prescaler) {
        timer->prescaler -= clocks;
        return 0;
    }
    after_first = clocks - timer->prescaler - 1;
    at = passed + timer->prescaler + 1 - STEPS_PER_COUNT;
    timer->prescaler = PRESCALER_FULL - after_first % STEPS_PER_COUNT;
    return make_counts(timer, 1 + after_first / STEPS_PER_COUNT, at, row, room);
}

/* The clock after `passed` clocks takes the rise that is held. */
static inline uint32_t take_rise(struct timer *timer, uint32_t passed, uint32_t *row, size_t room)
{
    timer->rise_held = false;
    if (source(timer) == 2) {
        if (timer->prescaler != 0) {
            timer->prescaler--;
            return 0;
        }
        timer->prescaler = PRESCALER_FULL;
    }
    return make_counts(timer, 1, passed + 1 - STEPS_PER_COUNT, row, room);
}

/* Passes clocks, at least one, after `passed` clocks. */
static inline uint32_t pass_clocks(struct timer *timer, uint32_t clocks, uint32_t passed, uint32_t *row, size_t room)
{
    if (clocked(timer)) {
        return step_clocks(timer, clocks, passed, row, room);
    }
    return timer->rise_held ? take_rise(timer, passed, row, room) : 0;
}

/* PC2's outside level changed. */
static inline void tin_changed(struct timer *timer, bool level)
{
    timer->tin = level;
    if (level) {
        timer->rise_held |= (timer->tcr & 5u) == 5;
    } else if (source(timer) == 1) {
        halt(timer);
    }
}

/* ---- Ports ---- */

enum { INPUT, OUTPUT, BIT_PORT };
enum { H2_STATUS, H2_NEGATED, H2_ASSERTED, H2_INTERLOCKED, H2_PULSED };

struct port {
    uint8_t kind; /* these three follow from PGCR and PACR */
    uint8_t h2;
    bool enabled;
    uint8_t final;
    uint8_t initial;
    uint8_t oldest;
    uint8_t second;
    uint8_t held;
    uint8_t last_read;
    bool h1_edge;
    bool h2_edge;
    bool begun;         /* under 110 and 111: a wait began that no edge or restart has ended */
    uint64_t wait_ends; /* the clock at which it ends and H2 is asserted */
};

struct fast_device {
    uint8_t stored[REGISTERS]; /* what registers hold that only store; 0 elsewhere */
    struct port port[2];
    struct timer timer;
    uint32_t outside; /* bit n for pin n */
    uint64_t now;     /* clocks passed; with fewer bits it would come round under a handshake that stands */
};

static void set_roles(struct port *port, unsigned which, uint8_t pgcr, uint8_t control)
{
    static const uint8_t kinds[4] = {INPUT, OUTPUT, BIT_PORT, BIT_PORT};
    static const uint8_t roles[2][8] = {
        {H2_STATUS, H2_STATUS, H2_STATUS, H2_STATUS, H2_NEGATED, H2_ASSERTED, H2_INTERLOCKED, H2_PULSED},
        {H2_STATUS, H2_STATUS, H2_STATUS, H2_STATUS, H2_NEGATED, H2_ASSERTED, H2_NEGATED, H2_ASSERTED},
    };

    port->kind = pgcr >> 6 != 0 ? BIT_PORT : kinds[control >> 6];
    port->h2 = roles[port->kind == BIT_PORT][control >> 3 & 7u];
    port->enabled = pgcr >> (4 + which) & 1u;
}

static bool handshakes(const struct port *port)
{
    return port->h2 >= H2_INTERLOCKED;
}

static bool has_room_or_byte(const struct port *port)
{
    return port->kind == INPUT ? port->held < 2 : port->held > 0;
}

static bool ready(const struct port *port)
{
    return port->enabled && port->kind != BIT_PORT && has_room_or_byte(port);
}

static uint32_t wait_length(const struct port *port)
{
    return port->kind == INPUT ? 4 : 2;
}

static void begin_wait(struct port *port, uint64_t now)
{
    if (handshakes(port) && ready(port)) {
        port->begun = true;
        port->wait_ends = now + wait_length(port);
    }
}

static void restart_h2(struct port *port, uint64_t now)
{
    port->begun = false;
    begin_wait(port, now);
}

static bool interlock_asserted(const struct port *port, uint64_t now)
{
    return port->begun && (int64_t)(now - port->wait_ends) >= 0;
}

static bool pulse_runs(const struct port *port, uint64_t now)
{
    return port->begun && now - port->wait_ends < PULSE_LENGTH;
}

static bool h2_asserted(const struct port *port, uint64_t now)
{
    return port->h2 == H2_ASSERTED || (port->h2 == H2_INTERLOCKED && interlock_asserted(port, now)) ||
           (port->h2 == H2_PULSED && pulse_runs(port, now));
}

static uint8_t levels(const struct fast_device *device, unsigned which)
{
    uint8_t direction = device->stored[DIRECTION_A + which];

    return (uint8_t)((device->port[which].final & direction) | (device->outside >> 8 * which & ~direction));
}

static void empty(struct port *port)
{
    port->held = 0;
    port->h1_edge = false;
    port->h2_edge = false;
}

static void h1_edge(struct fast_device *device, unsigned which)
{
    struct port *port = &device->port[which];

    if (!port->enabled) {
        return;
    }
    if (port->kind == BIT_PORT) {
        port->h1_edge = true;
        return;
    }
    if (!has_room_or_byte(port) || (port->h2 == H2_INTERLOCKED && !interlock_asserted(port, device->now))) {
        return;
    }
    if (port->kind == INPUT) {
        if (port->held++ == 0) {
            port->oldest = levels(device, which);
        } else {
            port->second = levels(device, which);
        }
    } else if (port->held-- == 2) {
        port->final = port->initial;
    }
    restart_h2(port, device->now);
}

static uint8_t h1_status(const struct port *port, uint8_t control)
{
    switch (port->kind) {
    case INPUT:
        return port->held != 0;
    case OUTPUT:
        return port->held < ((control & 1u) ? 1 : 2);
    default:
        return port->h1_edge;
    }
}

/* H1S to H4S in bits 0 to 3. */
static unsigned statuses(const struct fast_device *device)
{
    const struct port *port = device->port;

    return (unsigned)h1_status(&port[0], device->stored[PACR]) | (unsigned)port[0].h2_edge << 1 |
           (unsigned)h1_status(&port[1], device->stored[PACR + 1]) << 2 | (unsigned)port[1].h2_edge << 3;
}

/* The statuses that interrupt. */
static unsigned interrupts(const struct fast_device *device)
{
    static const uint8_t left_in[4] = {0xF, 0xF, 0xE, 0xB}; /* by PSRR 6-5 */
    unsigned enabled = (device->stored[PACR] >> 1 & 3u) | (device->stored[PACR + 1] >> 1 & 3u) << 2;

    return statuses(device) & enabled & left_in[device->stored[PSRR] >> 5 & 3u];
}

/* ---- Reads ---- */

#define BIT(number) (1u << (number))

/* Registers whose read is more than a load. */
#define COMPUTED                                                                                              \
    (BIT(DATA_A) | BIT(DATA_A + 1) | BIT(ALTERNATE_A) | BIT(ALTERNATE_A + 1) | BIT(DATA_C) | BIT(PSR) |        \
     BIT(COUNT_HIGH) | BIT(COUNT_HIGH + 1) | BIT(COUNT_LOW) | BIT(TSR))

static uint8_t read_data(struct fast_device *device, unsigned which)
{
    struct port *port = &device->port[which];
    uint8_t direction = device->stored[DIRECTION_A + which];

    if (port->kind != INPUT) {
        return levels(device, which);
    }
    if (port->held != 0) {
        port->last_read = port->oldest;
        port->oldest = port->second;
        if (port->held-- == 2) {
            begin_wait(port, device->now);
        }
    }
    return (uint8_t)((port->final & direction) | (port->last_read & ~direction));
}

/* Port C where no buffer drives it: outside levels, under what its functions put out. */
static unsigned undriven_c(const struct fast_device *device)
{
    uint8_t psrr = device->stored[PSRR];
    uint8_t tcr = device->timer.tcr;
    unsigned pins = device->outside >> 16 & 0xFFu;

    if ((tcr & 0xC0u) == 0x40) { /* TOUT, square wave */
        pins = (pins & ~8u) | (unsigned)device->timer.square_high << 3;
    } else if ((tcr & 0xA0u) == 0xA0 && device->timer.zds) { /* TOUT, request */
        pins &= ~8u;
    }
    if (psrr & 0x40u) { /* DMAREQ */
        pins |= 0x10u;
    }
    if ((psrr & 8u) && interrupts(device) != 0) { /* PIRQ */
        pins &= ~0x20u;
    }
    return pins;
}

static uint8_t read_data_c(const struct fast_device *device)
{
    uint8_t direction = device->stored[DIRECTION_C];

    return (uint8_t)((device->stored[DATA_C] & direction) | (undriven_c(device) & ~(unsigned)direction));
}

/* H1 to H4 in bits 0 to 3. */
static unsigned hand_levels(const struct fast_device *device)
{
    unsigned hands = device->outside >> PIN_H1;
    unsigned which;

    for (which = 0; which < 2; which++) {
        const struct port *port = &device->port[which];

        if (port->h2 != H2_STATUS) {
            unsigned mask = 2u << 2 * which;
            unsigned sense = device->stored[PGCR] & mask;

            hands = (hands & ~mask) | (h2_asserted(port, device->now) ? sense : sense ^ mask);
        }
    }
    return hands;
}

static uint8_t read_psr(const struct fast_device *device)
{
    return (uint8_t)(hand_levels(device) << 4 | statuses(device));
}

static uint8_t read_computed(struct fast_device *device, unsigned number)
{
    switch (number) {
    case DATA_A:
    case DATA_A + 1:
        return read_data(device, number - DATA_A);
    case ALTERNATE_A:
    case ALTERNATE_A + 1:
        return levels(device, number - ALTERNATE_A);
    case DATA_C:
        return read_data_c(device);
    case PSR:
        return read_psr(device);
    case TSR:
        return device->timer.zds;
    default:
        return (uint8_t)(device->timer.count >> 8 * (COUNT_LOW - number));
    }
}

static inline uint8_t read_register(struct fast_device *device, unsigned number)
{
    return BIT(number) & COMPUTED ? read_computed(device, number) : device->stored[number];
}

/* ---- Writes ---- */

/* Registers where a write does more than store. */
#define ACTIVE                                                                                                \
    (BIT(PGCR) | BIT(PACR) | BIT(PACR + 1) | BIT(DATA_A) | BIT(DATA_A + 1) | BIT(PSR) | BIT(TCR) |             \
     BIT(PRELOAD_HIGH) | BIT(PRELOAD_HIGH + 1) | BIT(PRELOAD_LOW) | BIT(TSR))

/* The bits a write stores. */
static const uint8_t stored_bits[REGISTERS] = {
    [PGCR] = 0xFF,
    [PSRR] = 0x7F,
    [DIRECTION_A] = 0xFF,
    [DIRECTION_A + 1] = 0xFF,
    [DIRECTION_C] = 0xFF,
    [PIVR] = 0xFC,
    [PACR] = 0xFF,
    [PACR + 1] = 0xFF,
    [DATA_C] = 0xFF,
    [TCR] = 0xF7,
    [TIVR] = 0xFF,
    [PRELOAD_HIGH] = 0xFF,
    [PRELOAD_HIGH + 1] = 0xFF,
    [PRELOAD_LOW] = 0xFF,
};

static void write_pgcr(struct fast_device *device, uint8_t value)
{
    bool mode_changed = (device->stored[PGCR] ^ value) >> 6 != 0;
    unsigned which;

    for (which = 0; which < 2; which++) {
        struct port *port = &device->port[which];
        bool was_enabled = port->enabled;

        set_roles(port, which, value, device->stored[PACR + which]);
        if (!port->enabled || mode_changed) {
            empty(port);
            restart_h2(port, device->now);
        } else if (!was_enabled) {
            begin_wait(port, device->now);
        }
    }
}

static void write_control(struct fast_device *device, unsigned which, uint8_t value)
{
    struct port *port = &device->port[which];
    uint8_t changed = device->stored[PACR + which] ^ value;

    set_roles(port, which, device->stored[PGCR], value);
    if (changed & 0xC0u) {
        empty(port);
        restart_h2(port, device->now);
    } else if (changed & 0x38u) {
        if (port->h2 != H2_STATUS) {
            port->h2_edge = false;
        }
        restart_h2(port, device->now);
    }
}

static void write_data(struct fast_device *device, unsigned which, uint8_t value)
{
    struct port *port = &device->port[which];

    if (port->kind != OUTPUT || !port->enabled) {
        port->final = value;
    } else if (port->held == 0) {
        port->final = value;
        port->held = 1;
        begin_wait(port, device->now);
    } else if (port->held == 1) {
        port->initial = value;
        port->held = 2;
    }
}

static void write_active(struct fast_device *device, unsigned number, uint8_t value)
{
    unsigned kept = ~(unsigned)value; /* of flags that a 1 clears */

    switch (number) {
    case PGCR:
        write_pgcr(device, value);
        break;
    case PACR:
    case PACR + 1:
        write_control(device, number - PACR, value);
        break;
    case DATA_A:
    case DATA_A + 1:
        write_data(device, number - DATA_A, value);
        break;
    case PSR:
        device->port[0].h1_edge &= kept & 1u;
        device->port[0].h2_edge &= kept >> 1 & 1u;
        device->port[1].h1_edge &= kept >> 2 & 1u;
        device->port[1].h2_edge &= kept >> 3 & 1u;
        break;
    case TCR:
        write_tcr(&device->timer, value);
        break;
    case TSR:
        device->timer.zds &= kept & 1u;
        break;
    default:
        write_preload(&device->timer, number, value);
        break;
    }
}

static inline void write_register(struct fast_device *device, unsigned number, uint8_t value)
{
    if (BIT(number) & ACTIVE) {
        write_active(device, number, value);
    }
    device->stored[number] = value & stored_bits[number];
}

/* ---- The other events ---- */

static void hand_changed(struct fast_device *device, unsigned hand, bool level)
{
    struct port *port = &device->port[hand / 2];

    if (level != (device->stored[PGCR] >> hand & 1u)) {
        return;
    }
    if (hand % 2 == 0) {
        h1_edge(device, hand / 2);
    } else if (port->h2 == H2_STATUS && port->enabled) {
        port->h2_edge = true;
    }
}

static inline void set_pin(struct fast_device *device, unsigned pin, uint32_t level)
{
    uint32_t before = device->outside;
    uint32_t changed;

    device->outside = (before & ~(1u << pin)) | level << pin;
    changed = before ^ device->outside;
    if (changed < BIT(PIN_TIN)) {
        return;
    }
    if (changed >= BIT(PIN_H1)) {
        hand_changed(device, pin - PIN_H1, level);
    } else if (pin == PIN_TIN) {
        tin_changed(&device->timer, level);
    }
}

static void reset(struct fast_device *device)
{
    unsigned which;

    memset(device->stored, 0, DATA_C);
    device->stored[PIVR] = VECTOR_AT_RESET;
    device->stored[TCR] = 0;
    device->stored[TIVR] = VECTOR_AT_RESET;
    for (which = 0; which < 2; which++) {
        struct port *port = &device->port[which];

        set_roles(port, which, 0, 0);
        empty(port);
        port->begun = false;
    }
    write_tcr(&device->timer, 0);
}

/* The vector, or FAST_SILENT. */
static inline uint32_t acknowledge_port(const struct fast_device *device)
{
    static const uint8_t order[8][4] = {{0, 1, 2, 3}, {1, 0, 2, 3}, {0, 1, 3, 2}, {1, 0, 3, 2},
                                        {2, 3, 0, 1}, {2, 3, 1, 0}, {3, 2, 0, 1}, {3, 2, 1, 0}};
    const uint8_t *highest = order[device->stored[PSRR] & 7u];
    uint8_t vector = device->stored[PIVR];
    unsigned set;

    if (!(device->stored[PSRR] & 0x10u) || (set = interrupts(device)) == 0) {
        return FAST_SILENT;
    }
    while (!(set >> *highest & 1u)) {
        highest++;
    }
    return vector == VECTOR_AT_RESET ? vector : (uint8_t)(vector + *highest);
}

static inline uint32_t acknowledge_timer(const struct fast_device *device)
{
    return device->timer.tcr >> 5 == 5 && device->timer.zds ? device->stored[TIVR] : FAST_SILENT;
}

static inline uint8_t *answer(uint8_t *answers, uint32_t value)
{
    answers[0] = value != FAST_SILENT;
    answers[1] = (uint8_t)value; /* 0 of FAST_SILENT */
    return answers + 2;
}

/* ---- The 53 bytes ---- */

#define PORT(which) (3 + 13 * (which))

static uint32_t number_from(const uint8_t *bytes)
{
    return (uint32_t)bytes[0] | (uint32_t)bytes[1] << 8 | (uint32_t)bytes[2] << 16 | (uint32_t)bytes[3] << 24;
}

static void number_to(uint32_t number, uint8_t *bytes)
{
    bytes[0] = (uint8_t)number;
    bytes[1] = (uint8_t)(number >> 8);
    bytes[2] = (uint8_t)(number >> 16);
    bytes[3] = (uint8_t)(number >> 24);
}

static inline void unpack_port(struct fast_device *device, unsigned which, const uint8_t *bytes)
{
    struct port *port = &device->port[which];
    uint8_t wait = bytes[8];
    uint8_t pulse = bytes[9];

    device->stored[DIRECTION_A + which] = bytes[0];
    device->stored[PACR + which] = bytes[1];
    set_roles(port, which, device->stored[PGCR], bytes[1]);
    port->final = bytes[2];
    port->initial = bytes[3];
    port->oldest = bytes[4];
    port->second = bytes[5];
    port->held = bytes[6];
    port->last_read = bytes[7];
    port->h1_edge = bytes[11] != 0;
    port->h2_edge = bytes[12] != 0;
    port->begun = wait != 0 || pulse != 0 || bytes[10] != 0;
    port->wait_ends = wait != 0 ? wait : pulse != 0 ? (uint64_t)pulse - PULSE_LENGTH : 0;
}

static inline void unpack_timer(struct timer *timer, const uint8_t *bytes)
{
    timer->tcr = bytes[31];
    timer->preload = number_from(bytes + 33);
    timer->count = number_from(bytes + 37);
    timer->prescaler = bytes[41];
    timer->zds = bytes[42] != 0;
    timer->square_high = bytes[43] != 0;
    timer->load_due = bytes[44] != 0;
    timer->tin = bytes[47] >> (PIN_TIN - 16) & 1u;
    timer->rise_held = bytes[52] != 0;
}

static inline void unpack(struct fast_device *device, const uint8_t *bytes)
{
    memset(device->stored, 0, REGISTERS);
    device->stored[PGCR] = bytes[0];
    device->stored[PSRR] = bytes[1];
    device->stored[PIVR] = bytes[2];
    device->stored[DIRECTION_C] = bytes[29];
    device->stored[DATA_C] = bytes[30];
    device->stored[TCR] = bytes[31];
    device->stored[TIVR] = bytes[32];
    device->stored[PRELOAD_HIGH] = bytes[35];
    device->stored[PRELOAD_HIGH + 1] = bytes[34];
    device->stored[PRELOAD_LOW] = bytes[33];
    device->outside = (uint32_t)bytes[45] | (uint32_t)bytes[46] << 8 | (uint32_t)bytes[47] << 16 |
                      (uint32_t)(bytes[48] != 0) << 24 | (uint32_t)(bytes[49] != 0) << 25 |
                      (uint32_t)(bytes[50] != 0) << 26 | (uint32_t)(bytes[51] != 0) << 27;
    device->now = 0;
    unpack_port(device, 0, bytes + PORT(0));
    unpack_port(device, 1, bytes + PORT(1));
    unpack_timer(&device->timer, bytes);
}

/* Whether number 8 lets a port pass that was unpacked from these bytes. */
static inline bool port_valid(const struct port *port, const uint8_t *bytes)
{
    uint8_t wait = bytes[8];
    uint8_t pulse = bytes[9];
    bool asserted = bytes[10] != 0;

    if (port->held > 2 || (port->held != 0 && (!port->enabled || port->kind == BIT_PORT)) ||
        (port->h1_edge && (!port->enabled || port->kind != BIT_PORT)) ||
        (port->h2_edge && (!port->enabled || port->h2 != H2_STATUS))) {
        return false;
    }
    if (!handshakes(port) || !ready(port)) {
        return !port->begun;
    }
    if (wait > wait_length(port)) {
        return false;
    }
    if (port->h2 == H2_INTERLOCKED) {
        return pulse == 0 && (wait != 0) != asserted;
    }
    return pulse <= PULSE_LENGTH && !asserted && (wait == 0 || pulse == 0);
}

static inline bool timer_valid(const struct timer *timer)
{
    if ((timer->tcr & 8u) || timer->preload > COUNT_MOST || timer->count > COUNT_MOST ||
        timer->prescaler > PRESCALER_FULL || (timer->rise_held && (timer->tcr & 5u) != 5)) {
        return false;
    }
    return running(timer) || (timer->prescaler == PRESCALER_FULL && !timer->zds && timer->square_high &&
                              timer->load_due);
}

/* Whether number 8 lets the device pass that was unpacked from these bytes. */
static inline bool valid(const struct fast_device *device, const uint8_t *bytes)
{
    return (bytes[1] & 0x80u) == 0 && ((bytes[2] & 3u) == 0 || bytes[2] == VECTOR_AT_RESET) &&
           port_valid(&device->port[0], bytes + PORT(0)) && port_valid(&device->port[1], bytes + PORT(1)) &&
           timer_valid(&device->timer);
}

static inline void pack_port(const struct fast_device *device, unsigned which, uint8_t *bytes)
{
    const struct port *port = &device->port[which];
    uint64_t wait_over = device->now - port->wait_ends; /* clocks since the wait's end; over 2^63 before it */
    bool waits = port->begun && (int64_t)wait_over < 0;

    bytes[0] = device->stored[DIRECTION_A + which];
    bytes[1] = device->stored[PACR + which];
    bytes[2] = port->final;
    bytes[3] = port->initial;
    bytes[4] = port->oldest;
    bytes[5] = port->second;
    bytes[6] = port->held;
    bytes[7] = port->last_read;
    bytes[8] = waits ? (uint8_t)-wait_over : 0;
    bytes[9] = port->h2 == H2_PULSED && pulse_runs(port, device->now) ? (uint8_t)(PULSE_LENGTH - wait_over) : 0;
    bytes[10] = port->h2 == H2_INTERLOCKED && port->begun && !waits;
    bytes[11] = port->h1_edge;
    bytes[12] = port->h2_edge;
}

static inline void pack_timer(const struct timer *timer, uint8_t *bytes)
{
    bytes[31] = timer->tcr;
    number_to(timer->preload, bytes + 33);
    number_to(timer->count, bytes + 37);
    bytes[41] = (uint8_t)timer->prescaler;
    bytes[42] = timer->zds;
    bytes[43] = timer->square_high;
    bytes[44] = timer->load_due;
    bytes[52] = timer->rise_held;
}

static inline void pack(const struct fast_device *device, uint8_t *bytes)
{
    bytes[0] = device->stored[PGCR];
    bytes[1] = device->stored[PSRR];
    bytes[2] = device->stored[PIVR];
    pack_port(device, 0, bytes + PORT(0));
    pack_port(device, 1, bytes + PORT(1));
    bytes[29] = device->stored[DIRECTION_C];
    bytes[30] = device->stored[DATA_C];
    bytes[32] = device->stored[TIVR];
    pack_timer(&device->timer, bytes);
    bytes[45] = (uint8_t)device->outside;
    bytes[46] = (uint8_t)(device->outside >> 8);
    bytes[47] = (uint8_t)(device->outside >> 16);
    bytes[48] = device->outside >> 24 & 1u;
    bytes[49] = device->outside >> 25 & 1u;
    bytes[50] = device->outside >> 26 & 1u;
    bytes[51] = device->outside >> 27 & 1u;
}

#endif
