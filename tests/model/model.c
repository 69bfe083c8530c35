/* The model follows document 01 paragraph by paragraph; a comment names the paragraph a rule stands in, and the
 * request of 02 where one has changed it.
 * "01, read as" marks a sentence of 01 that can be read in two ways, with the reading taken. */
#include "model.h"

#include <string.h>

/* HIT names a branch; a build with MODEL_COVERAGE counts how often each was taken. */
#ifdef MODEL_COVERAGE
#define HIT(branch) model_hit(branch)
#else
#define HIT(branch) ((void)0)
#endif

/* A build with MUTANT set to a number of tests/mutants.txt has that one misreading in it. The comparison
 * must notice each of them. */
#ifndef MUTANT
#define MUTANT 0
#endif
#define MISREAD(number) (MUTANT == (number))

#define PRESCALER_FULL 31u
#define COUNT_MOST 0xFFFFFFu
#define VECTOR_AT_RESET 0x0Fu
#define PSRR_BITS 0x7Fu /* 01, Registers: unused bits read 0: PSRR bit 7, TCR bit 3, TSR bits 7-1 */
#define TCR_BITS 0xF7u
#define TCR_SOURCE 0x06u
#define PIVR_BITS 0xFCu
#define HELD_MOST 2u
#define INPUT_WAIT (MISREAD(7) ? 3u : MISREAD(8) ? 5u : 4u) /* 01, Mode 0: two clocks for output, four for input */
#define OUTPUT_WAIT (MISREAD(9) ? 1u : MISREAD(10) ? 3u : 2u)
#define PULSE_LENGTH (MISREAD(11) ? 3u : MISREAD(12) ? 5u : 4u) /* 01, Mode 0: the pulse lasts four clocks */

enum port_kind { BUFFERED_INPUT, BUFFERED_OUTPUT, BIT_PORT };

enum h2_role { H2_STATUS_INPUT, H2_NEGATED, H2_ASSERTED, H2_INTERLOCKED, H2_PULSED };

enum timer_source { SOURCE_CLOCK = 0, SOURCE_GATED_CLOCK = 1, SOURCE_TIN_PRESCALED = 2, SOURCE_TIN_DIRECT = 3 };

enum tout_function { TOUT_PORT_C, TOUT_SQUARE_WAVE, TOUT_REQUEST_DISABLED, TOUT_REQUEST_ENABLED };

static bool bit(unsigned value, unsigned place)
{
    return ((value >> place) & 1u) != 0;
}

/* ---- What the registers say ---- */

/* 01, head: "modes 1 to 3 (in them both ports act as submode 1X)"; PGCR bits 7-6 mode, PACR 7-6 submode. */
static enum port_kind port_kind(const struct model_device *device, unsigned which)
{
    unsigned submode = device->port[which].control >> 6;

    if (device->pgcr >> 6 != 0) {
        return BIT_PORT;
    }
    return submode == 0 ? BUFFERED_INPUT : submode == 1 ? BUFFERED_OUTPUT : BIT_PORT;
}

/* 01, Mode 0: "PGCR: ... 5 H34 enable, 4 H12 enable". */
static bool enabled(const struct model_device *device, unsigned which)
{
    return bit(device->pgcr, 4 + which);
}

static unsigned h2_control(uint8_t control)
{
    return (control >> 3) & 7u;
}

/* 01, Mode 0: "H2 control 0XX: input ... 1X0 negated, 1X1 asserted in submode 1X; elsewhere 100 negated,
 * 101 asserted, 110 interlocked, 111 pulsed." */
static enum h2_role h2_role(const struct model_device *device, unsigned which)
{
    unsigned control = h2_control(device->port[which].control);

    if (control < 4) {
        return H2_STATUS_INPUT;
    }
    if (port_kind(device, which) == BIT_PORT) {
        return bit(control, 0) ? H2_ASSERTED : H2_NEGATED;
    }
    return control == 4 ? H2_NEGATED : control == 5 ? H2_ASSERTED : control == 6 ? H2_INTERLOCKED : H2_PULSED;
}

static bool is_handshake(enum h2_role role)
{
    return role == H2_INTERLOCKED || role == H2_PULSED;
}

/* 01, Mode 0: "Ready means enabled, with room (00) or final full (01)." */
static bool ready(const struct model_device *device, unsigned which)
{
    if (!enabled(device, which)) {
        return false;
    }
    switch (port_kind(device, which)) {
    case BUFFERED_INPUT:
        return device->port[which].held < HELD_MOST;
    case BUFFERED_OUTPUT:
        return device->port[which].held > 0;
    default:
        return false;
    }
}

static uint8_t wait_length(enum port_kind kind)
{
    return kind == BUFFERED_INPUT ? INPUT_WAIT : kind == BUFFERED_OUTPUT ? OUTPUT_WAIT : 0;
}

static enum timer_source timer_source(const struct model_device *device)
{
    return (enum timer_source)((device->tcr >> 1) & 3u);
}

/* 01, Timer: "00X port C; 01X TOUT square wave; 100, 101 TOUT request (disabled, enabled) with TIACK; 110,
 * 111 the same without TIACK." */
static enum tout_function tout_function(const struct model_device *device)
{
    if (!bit(device->tcr, 7)) {
        return bit(device->tcr, 6) ? TOUT_SQUARE_WAVE : TOUT_PORT_C;
    }
    return bit(device->tcr, 5) ? TOUT_REQUEST_ENABLED : TOUT_REQUEST_DISABLED;
}

static bool carries_tiack(const struct model_device *device)
{
    return bit(device->tcr, 7) && !bit(device->tcr, 6);
}

static bool tin_high(const struct model_device *device)
{
    return bit(device->outside[2], MODEL_PIN_TIN - MODEL_PIN_C);
}

/* 01, Timer: "01 the same, running only while TIN is high ... Bit 0 enables." */
static bool timer_running(const struct model_device *device)
{
    if (!bit(device->tcr, 0)) {
        return false;
    }
    return timer_source(device) != SOURCE_GATED_CLOCK || tin_high(device);
}

/* 01, Mode 0: "3-0 sense of H4-H1 (1: high is asserted)". Hands 0 to 3 are H1 to H4. */
static bool asserted_level(const struct model_device *device, unsigned hand)
{
    return bit(device->pgcr, hand);
}

/* ---- Status and interrupts ---- */

/* 01, Mode 0, the three submodes: what H1S says. Disabled, a port of 01 holds nothing and has room. */
static bool h1_status(const struct model_device *device, unsigned which)
{
    const struct model_port *port = &device->port[which];

    switch (port_kind(device, which)) {
    case BUFFERED_INPUT:
        HIT("H1S of 00");
        return port->held > 0;
    case BUFFERED_OUTPUT:
        if (bit(port->control, 0)) {
            HIT("H1S of 01, both empty");
            return port->held == 0;
        }
        HIT("H1S of 01, room");
        return port->held < HELD_MOST;
    default:
        HIT("H1S of 1X");
        return port->h1_edge;
    }
}

/* 01, Mode 0: "H2S set by an asserted edge ... H2S is 0 unless 0XX." */
static bool h2_status(const struct model_device *device, unsigned which)
{
    return (h2_role(device, which) == H2_STATUS_INPUT || MISREAD(72)) && device->port[which].h2_edge;
}

static bool status(const struct model_device *device, unsigned hand)
{
    return hand % 2 == 0 ? h1_status(device, hand / 2) : h2_status(device, hand / 2);
}

/* 01, Interrupts: "bits 6-5 = 10 takes H1S out of the interrupts, 11 H3S"; PACR bits 2 and 1 enable. */
static bool interrupts(const struct model_device *device, unsigned hand)
{
    unsigned request = (device->psrr >> 5) & 3u;
    uint8_t control = device->port[hand / 2].control;

    if ((request == 2 && hand == (MISREAD(65) ? 2 : 0)) || (request == 3 && hand == (MISREAD(65) ? 0 : 2))) {
        HIT("status taken out of the interrupts");
        return false;
    }
    return bit(control, hand % 2 == 0 ? 1 : 2) && status(device, hand);
}

/* 01, Interrupts: "Bits 2-0, highest first", the rows as 01 and 000's table 4.2 print them; 4 where no enabled status
 * is set. */
static unsigned highest_interrupt(const struct model_device *device)
{
    static const uint8_t order[8][4] = {
        {0, 1, 2, 3},
        {1, 0, 2, 3},
        {0, 1, 3, 2},
        {1, 0, 3, 2},
        {2, 3, 0, 1},
        {2, 3, 1, 0},
        {3, 2, 0, 1},
        {3, 2, 1, 0},
    };
    unsigned priority = device->psrr & 7u;
    unsigned place;

    if (MISREAD(13) && (priority == 1 || priority == 2)) {
        priority = 3 - priority;
    }
    if (MISREAD(14) && (priority == 5 || priority == 6)) {
        priority = 11 - priority;
    }
    if (MISREAD(78)) {
        priority = (priority & 3u) | (priority & 2u) << 1;
    }
    if (MISREAD(79)) {
        priority = (priority & 4u) | (priority & 1u) << 1 | (priority & 2u) >> 1;
    }
    if (MISREAD(80) && priority >= 4) {
        priority ^= 3u;
    }
    if (MISREAD(81)) {
        priority &= priority >= 4 ? 6u : 5u;
    }
    for (place = 0; place < 4; place++) {
        if (interrupts(device, order[priority][place])) {
            return order[priority][place];
        }
    }
    return 4;
}

/* 01, Interrupts: "responds when bit 4 is set and an enabled status is set: 0F if PIVR is 0F ..., else PIVR
 * plus 0, 1, 2, 3 for H1S, H2S, H3S, H4S." Read as: whether bit 3 is set makes no difference. */
MODEL_LINKAGE unsigned model_port_acknowledge(const struct model_device *device)
{
    unsigned hand = highest_interrupt(device);

    if (!bit(device->psrr, 4)) {
        HIT("port acknowledge without PIACK");
        return MODEL_SILENT;
    }
    if (MISREAD(33) && !bit(device->psrr, 3)) {
        return MODEL_SILENT;
    }
    if (hand == 4) {
        HIT("port acknowledge without a status");
        return MODEL_SILENT;
    }
    if (device->pivr == VECTOR_AT_RESET) {
        HIT("port acknowledge, vector not written");
        return VECTOR_AT_RESET;
    }
    HIT("port acknowledge");
    return (device->pivr + hand) & 0xFFu; /* a vector is a byte */
}

/* 01, Timer: "Timer acknowledge responds, with TIVR, exactly when TCR 7-5 is 101 and ZDS is 1." */
MODEL_LINKAGE unsigned model_timer_acknowledge(const struct model_device *device)
{
    if (device->tcr >> 5 != 5 && !(MISREAD(34) && device->tcr >> 5 == 7)) {
        HIT("timer acknowledge, TCR 7-5 not 101");
        return MODEL_SILENT;
    }
    if (!device->zds) {
        HIT("timer acknowledge without ZDS");
        return MODEL_SILENT;
    }
    HIT("timer acknowledge");
    return device->tivr;
}

/* ---- Pins ---- */

/* H2 driven by the part; 01, Mode 0, H2 control. Read as: a fixed level is driven whether enabled or not. */
static bool h2_asserted(const struct model_device *device, unsigned which)
{
    switch (h2_role(device, which)) {
    case H2_ASSERTED:
        HIT("H2 fixed asserted");
        return !(MISREAD(47) && !enabled(device, which));
    case H2_INTERLOCKED:
        HIT("H2 interlocked");
        return device->port[which].asserted;
    case H2_PULSED:
        HIT("H2 pulsed");
        return device->port[which].pulse > 0;
    default:
        HIT("H2 fixed negated");
        return false;
    }
}

static bool hand_level(const struct model_device *device, unsigned hand)
{
    unsigned which = hand / 2;

    if (hand % 2 == 0 || h2_role(device, which) == H2_STATUS_INPUT) {
        HIT("H pin is an input");
        return device->outside_hand[hand];
    }
    return h2_asserted(device, which) == asserted_level(device, hand);
}

/* 01, Registers: "A pin whose output buffer is on shows its latch; otherwise the outside level." */
static uint8_t port_levels(const struct model_device *device, unsigned which)
{
    const struct model_port *port = &device->port[which];

    return (uint8_t)((port->final & port->direction) | (device->outside[which] & ~port->direction));
}

/* 01, Registers: "TOUT as request while TCR 7-5 is 101 or 111 and ZDS is 1; otherwise ... the outside
 * level"; 01, Timer: the square wave, high while halted. */
static bool tout_level(const struct model_device *device, bool outside)
{
    switch (tout_function(device)) {
    case TOUT_SQUARE_WAVE:
        HIT("TOUT square wave");
        return device->square_high;
    case TOUT_REQUEST_ENABLED:
        HIT("TOUT request enabled");
        return device->zds ? false : outside;
    default:
        HIT("TOUT request disabled");
        return outside;
    }
}

/* 01, Registers: "Port C bits 2-7 may carry TIN, TOUT, DMAREQ, PIRQ, PIACK, TIACK; then direction does not
 * enable a buffer." Which function a pin carries: 01, Interrupts (PSRR) and Timer (TCR). */
static bool c_carries_function(const struct model_device *device, unsigned place)
{
    switch (place) {
    case 2:
        return timer_source(device) != SOURCE_CLOCK;
    case 3:
        return tout_function(device) != TOUT_PORT_C;
    case 4:
        return bit(device->psrr, 6);
    case 5:
        return bit(device->psrr, 3) || MISREAD(29);
    case 6:
        return bit(device->psrr, 4);
    case 7:
        return carries_tiack(device);
    default:
        return false;
    }
}

static bool c_level(const struct model_device *device, unsigned place)
{
    bool outside = bit(device->outside[2], place);

    if (!c_carries_function(device, place)) {
        return bit(device->c_direction, place) ? bit(device->c_latch, place) : outside;
    }
    switch (place) {
    case 3:
        return tout_level(device, outside);
    case 4: /* 01, head: "PC4 as DMAREQ stands high" */
        HIT("PC4 as DMAREQ");
        return MISREAD(28) ? outside : true;
    case 5: /* 01, Registers: "PIRQ is low while an enabled status is set" */
        HIT("PC5 as PIRQ");
        return highest_interrupt(device) == 4 ? outside : false;
    default: /* TIN, PIACK and TIACK are inputs */
        HIT("port C function that is an input");
        return outside;
    }
}

static uint8_t c_levels(const struct model_device *device)
{
    unsigned levels = 0;
    unsigned place;

    for (place = 0; place < 8; place++) {
        levels |= (unsigned)c_level(device, place) << place;
    }
    return (uint8_t)levels;
}

MODEL_LINKAGE bool model_level(const struct model_device *device, unsigned pin)
{
    if (pin < MODEL_PIN_C) {
        return bit(port_levels(device, pin / 8), pin % 8);
    }
    if (pin < MODEL_PIN_H1) {
        return c_level(device, pin - MODEL_PIN_C);
    }
    return hand_level(device, pin - MODEL_PIN_H1);
}

/* ---- Handshakes ---- */

/* 01, Mode 0: "H2 is asserted a fixed number of clocks after 'H2 negated and ready' begins to hold" and
 * "the wait begins ... each time readiness begins". */
static void begin_wait(struct model_device *device, unsigned which)
{
    if (is_handshake(h2_role(device, which)) && ready(device, which)) {
        HIT("a wait begins");
        device->port[which].wait = wait_length(port_kind(device, which));
    }
}

/* 01, Mode 0: "Restarted, H2 is negated with no wait or pulse, and a readiness that holds begins anew". */
static void restart_h2(struct model_device *device, unsigned which)
{
    device->port[which].asserted = false;
    device->port[which].wait = 0;
    device->port[which].pulse = 0;
    if (!MISREAD(37)) {
        begin_wait(device, which);
    }
}

/* 01, Mode 0: an accepted edge negates H2 or ends its pulse; the wait begins where the edge "leaves the port
 * ready", and one that "leaves the port not ready cancels a wait". */
static void accepted_edge(struct model_device *device, unsigned which)
{
    if (!ready(device, which)) {
        HIT("an accepted edge leaves the port not ready");
    }
    device->port[which].asserted = false;
    if (!MISREAD(38)) {
        device->port[which].pulse = 0;
    }
    if (!(MISREAD(39) && device->port[which].wait > 0)) {
        device->port[which].wait = 0;
        begin_wait(device, which);
    }
}

/* 01, Mode 0: under 110 H2 is asserted when the wait is over, under 111 it is pulsed for four clocks; elsewhere
 * nothing is said of a wait's end. 01, read as: the clock that ends the wait begins the pulse and is not one of its
 * four. */
static void wait_ends(struct model_device *device, unsigned which)
{
    switch (h2_role(device, which)) {
    case H2_INTERLOCKED:
        HIT("a wait ends, interlocked");
        device->port[which].asserted = true;
        break;
    case H2_PULSED:
        HIT("a wait ends, pulsed");
        device->port[which].pulse = PULSE_LENGTH;
        break;
    default:
        HIT("a wait ends where no handshake is");
        if (MISREAD(73)) {
            device->port[which].pulse = PULSE_LENGTH;
        }
        break;
    }
}

static void port_clock(struct model_device *device, unsigned which)
{
    struct model_port *port = &device->port[which];

    if (port->wait > 0) {
        port->wait--;
        if (port->wait == 0) {
            wait_ends(device, which);
        }
    } else if (port->pulse > 0) {
        HIT("a pulse goes on");
        port->pulse--;
    }
}

/* 01, Mode 0, 00: "stores all eight pin levels". */
static void store_input(struct model_device *device, unsigned which)
{
    struct model_port *port = &device->port[which];
    uint8_t levels = MISREAD(48) ? device->outside[which] : port_levels(device, which);

    if (port->held == 0) {
        HIT("00 stores the first byte");
        port->oldest = levels;
    } else {
        HIT("00 stores the second byte");
        port->second = levels;
    }
    port->held = port->held == 0 ? 1 : 2;
}

/* 01, Mode 0, 01: the edge "empties a full final latch ... and moves the initial up. Pins keep the last
 * final value." */
static void empty_final(struct model_device *device, unsigned which)
{
    struct model_port *port = &device->port[which];

    if (port->held > 1) {
        HIT("01 moves the initial latch up");
        port->final = port->initial;
    } else {
        HIT("01 is empty after the edge");
    }
    port->held = MISREAD(74) && port->held > 1 ? 1 : port->held - 1;
}

/* An asserted edge of H1. 01, Mode 0: the three submodes; "Enable clear: nothing is held, edge flags are 0". */
static void h1_asserted_edge(struct model_device *device, unsigned which)
{
    struct model_port *port = &device->port[which];
    enum port_kind kind = port_kind(device, which);

    if (!enabled(device, which)) {
        HIT("H1 edge, disabled");
        return;
    }
    if (kind == BIT_PORT) {
        HIT("H1 edge sets H1S of 1X");
        port->h1_edge = true;
        return;
    }
    if (kind == BUFFERED_INPUT && port->held >= HELD_MOST && !MISREAD(19)) {
        HIT("H1 edge, no room");
        return;
    }
    if (kind == BUFFERED_OUTPUT && port->held == 0) {
        HIT("H1 edge, final latch empty");
        return;
    }
    if (h2_role(device, which) == H2_INTERLOCKED && !port->asserted && !MISREAD(18)) {
        HIT("H1 edge, interlocked with H2 negated");
        if (MISREAD(68)) {
            begin_wait(device, which);
        }
        return;
    }
    if (MISREAD(36) && h2_role(device, which) == H2_PULSED && port->pulse == 0) {
        return;
    }
    if (kind == BUFFERED_INPUT) {
        store_input(device, which);
    } else {
        empty_final(device, which);
    }
    accepted_edge(device, which);
}

/* 01, Mode 0: "H2 control 0XX: input, H2S set by an asserted edge"; disabled, edge flags are 0. */
static void h2_asserted_edge(struct model_device *device, unsigned which)
{
    if (h2_role(device, which) != H2_STATUS_INPUT) {
        HIT("H2 edge, H2 is no input");
        return;
    }
    if (!enabled(device, which) && !MISREAD(35)) {
        HIT("H2 edge, disabled");
        return;
    }
    HIT("H2 edge sets H2S");
    device->port[which].h2_edge = true;
}

/* ---- Timer ---- */

/* 01, Timer: "Halted: prescaler 31, ZDS 0, square wave high, a load due, counter kept"; 02, R-2: "a halt ... drops" a
 * rise that is held. */
static void halt(struct model_device *device)
{
    if (!MISREAD(2)) {
        device->prescaler = PRESCALER_FULL;
    }
    device->zds = false;
    device->square_high = true;
    device->load_due = true;
    if (!MISREAD(87)) {
        device->rise_held = false;
    }
    if (MISREAD(67)) {
        device->count = 0;
    }
}

/* 01, Timer: "Lowering from 1 to 0 is an opening: ZDS set, square wave turned over." */
static bool opening(struct model_device *device)
{
    HIT("opening");
    device->zds = true;
    if (!(MISREAD(46) && tout_function(device) != TOUT_SQUARE_WAVE)) {
        device->square_high = !device->square_high;
    }
    return true;
}

static bool loaded(struct model_device *device)
{
    if (device->preload == 0 && (MISREAD(3) || (MISREAD(60) && device->count == 1))) {
        device->count = 0;
        return opening(device);
    }
    device->count = device->preload;
    return false;
}

/* 01, Timer: "The first count after entering run loads the preload; later ones lower the counter, or at zero
 * reload or roll." Answers whether the gate opened. */
static bool count_once(struct model_device *device)
{
    if (device->load_due) {
        HIT("the first count loads");
        device->load_due = false;
        if (!(MISREAD(1) && device->preload != 0)) {
            return loaded(device);
        }
        device->count = device->preload;
    }
    if (device->count == 0) {
        if (bit(device->tcr, 4) && !MISREAD(23)) {
            HIT("at zero: roll");
            device->count = COUNT_MOST;
            return false;
        }
        HIT("at zero: reload");
        return loaded(device);
    }
    HIT("the counter is lowered");
    device->count--;
    if (device->count > 0) {
        return false;
    }
    return opening(device);
}

/* 01, Timer: "Each source step lowers the prescaler; a step from 0 sets 31 and makes one count." */
static bool source_step(struct model_device *device)
{
    if (device->prescaler > 0) {
        device->prescaler--;
        return false;
    }
    HIT("the prescaler turns over");
    device->prescaler = PRESCALER_FULL;
    return count_once(device);
}

/* 01, Timer: "10 rising TIN through the prescaler; 11 rising TIN direct". */
static bool tin_step(struct model_device *device)
{
    if (timer_source(device) == SOURCE_TIN_PRESCALED ? !MISREAD(99) : MISREAD(98)) {
        HIT("a rise of TIN through the prescaler");
        return source_step(device);
    }
    HIT("a rise of TIN direct");
    if (MISREAD(63)) {
        device->prescaler = PRESCALER_FULL;
    }
    return count_once(device);
}

/* 02, R-2: a rise of TIN "with source 10 or 11 is held and takes effect at the next clock; further rises before it add
 * nothing; ... while the timer is halted none is held". Read as: a fall before the clock does not take it back. */
static void tin_edge(struct model_device *device, bool rising)
{
    if (!rising) {
        HIT("TIN falls under source 10 or 11");
        if (MISREAD(94)) {
            device->rise_held = false;
        }
    } else if (!bit(device->tcr, 0) && !MISREAD(95)) {
        HIT("TIN rises under source 10 or 11, halted");
    } else if (device->rise_held) {
        HIT("a further rise of TIN before the clock");
        if (MISREAD(86)) {
            (void)tin_step(device);
        }
    } else {
        HIT("a rise of TIN is held");
        if (MISREAD(85)) {
            (void)tin_step(device);
        } else {
            device->rise_held = true;
        }
    }
}

/* PC2's outside level changed. 01, Timer: the four sources. Read as: a fall under source 01 halts at once what ran, and
 * after a rise the next clock is the first step. */
static void tin_changed(struct model_device *device, bool rising)
{
    switch (timer_source(device)) {
    case SOURCE_CLOCK:
        HIT("PC2 changes, not TIN");
        break;
    case SOURCE_GATED_CLOCK:
        if (!rising && bit(device->tcr, 0) && !MISREAD(25)) {
            HIT("TIN falls under source 01");
            halt(device);
        } else if (!rising) {
            HIT("TIN falls under source 01, not enabled");
        } else {
            HIT("TIN rises under source 01");
            if (MISREAD(62) && timer_running(device)) {
                (void)source_step(device);
            }
            if (MISREAD(96)) {
                device->rise_held = true;
            }
        }
        break;
    default:
        tin_edge(device, rising);
        break;
    }
}

/* 02, R-2: a clock with source 10 or 11 takes the rise that is held. */
static bool take_held_rise(struct model_device *device)
{
    if (!device->rise_held) {
        return false;
    }
    HIT("a clock takes the held rise");
    device->rise_held = MISREAD(97);
    return tin_step(device);
}

/* 01, Timer: sources 00 and 01 step at each clock. A clock leaves a timer that is halted alone, and with these sources
 * a held rise that was handed in. Answers whether the gate opened. */
static bool timer_clock(struct model_device *device)
{
    if (!timer_running(device)) {
        return MISREAD(106) && take_held_rise(device);
    }
    if (timer_source(device) > SOURCE_GATED_CLOCK) {
        return take_held_rise(device);
    }
    if (MISREAD(107)) {
        device->rise_held = false;
    }
    return source_step(device);
}

MODEL_LINKAGE bool model_clock(struct model_device *device)
{
    port_clock(device, 0);
    port_clock(device, 1);
    return timer_clock(device);
}

/* ---- Outside levels ---- */

/* 01, Registers: "An outside level on a driven pin is remembered. An edge happens only at a pin event that
 * changes the level of a pin that is an input". Read as: the level that must change is the remembered one. */
MODEL_LINKAGE void model_pin(struct model_device *device, unsigned pin, bool level)
{
    if (pin >= MODEL_PIN_H1) {
        unsigned hand = pin - MODEL_PIN_H1;
        bool changed = device->outside_hand[hand] != level;

        device->outside_hand[hand] = level;
        if (!changed && !MISREAD(40)) {
            HIT("H pin keeps its level");
        } else if (level != asserted_level(device, hand)) {
            HIT("negated edge of an H pin");
        } else if (hand % 2 == 0) {
            h1_asserted_edge(device, hand / 2);
        } else {
            h2_asserted_edge(device, hand / 2);
        }
    } else {
        uint8_t *levels = &device->outside[pin / 8];
        uint8_t mask = (uint8_t)(1u << pin % 8);
        bool changed = ((*levels & mask) != 0) != level;

        *levels = (uint8_t)(level ? *levels | mask : *levels & ~mask);
        if (MISREAD(75) && pin == MODEL_PIN_TIN && !timer_running(device)) {
            halt(device);
        }
        if ((changed || MISREAD(105)) && pin == MODEL_PIN_TIN) {
            tin_changed(device, level);
        }
    }
}

/* ---- Writes ---- */

/* 01, Mode 0: what a write that changes the mode or submode field does to a port. */
static void empty_port(struct model_device *device, unsigned which)
{
    if (!MISREAD(41)) {
        device->port[which].held = 0;
    }
    if (!MISREAD(15)) {
        device->port[which].h1_edge = false;
        device->port[which].h2_edge = false;
    }
    restart_h2(device, which);
}

/* 01, Mode 0: "Enable clear: nothing is held, edge flags are 0, handshake H2 negated without wait or pulse". */
static void disable_port(struct model_device *device, unsigned which)
{
    if (!MISREAD(17)) {
        device->port[which].held = 0;
    }
    device->port[which].h1_edge = false;
    device->port[which].h2_edge = false;
    device->port[which].asserted = false;
    device->port[which].wait = 0;
    device->port[which].pulse = 0;
}

/* 01, read as: one write of PGCR is judged by its new value; a mode change concerns both ports; setting enable begins
 * readiness (in 00, since 01 is empty) and does nothing else; a port whose mode and enable stay is not touched. */
static void write_pgcr(struct model_device *device, uint8_t value)
{
    uint8_t before = device->pgcr;
    unsigned which;

    device->pgcr = value;
    for (which = 0; which < 2; which++) {
        if (before >> 6 != value >> 6 && !(MISREAD(64) && which == 1)) {
            HIT("PGCR write changes the mode");
            empty_port(device, which);
        } else if ((bit(before, 4 + which) || MISREAD(76)) && !enabled(device, which)) {
            HIT("PGCR write disables");
            disable_port(device, which);
        } else if (!bit(before, 4 + which) && enabled(device, which)) {
            HIT("PGCR write enables");
            if (MISREAD(77)) {
                empty_port(device, which);
            }
            begin_wait(device, which);
        } else {
            HIT("PGCR write keeps mode and enable");
        }
    }
}

/* 01, Mode 0: "A write that changes the mode or submode field ...; a change of H2 control restarts H2 only,
 * and clears H2S unless 0XX stays." Read as: a change of either bit of the field, relevant or not. */
static void write_control(struct model_device *device, unsigned which, uint8_t value)
{
    struct model_port *port = &device->port[which];
    uint8_t before = port->control;

    port->control = value;
    if (before >> 6 != value >> 6 && !(MISREAD(42) && before >> 7 && value >> 7)) {
        HIT("PACR write changes the submode");
        empty_port(device, which);
    } else if (h2_control(before) != h2_control(value) || MISREAD(61)) {
        HIT("PACR write changes H2 control");
        if (((h2_control(before) >= 4 || h2_control(value) >= 4) && !MISREAD(16)) || MISREAD(59)) {
            HIT("0XX does not stay at a PACR write");
            port->h2_edge = false;
        }
        restart_h2(device, which);
    } else {
        HIT("PACR write keeps submode and H2 control");
    }
}

/* 01, Mode 0, 01: "A write fills the final latch if empty, else the initial, else is dropped"; disabled, it
 * "sets the final value without filling it". */
static void write_buffered_output(struct model_device *device, unsigned which, uint8_t value)
{
    struct model_port *port = &device->port[which];

    if (!enabled(device, which)) {
        HIT("01 write, disabled");
        port->final = value;
    } else if (port->held == 0) {
        HIT("01 write fills the final latch");
        port->final = value;
        port->held = 1;
        begin_wait(device, which);
    } else if (port->held == 1) {
        HIT("01 write fills the initial latch");
        port->initial = value;
        port->held = 2;
        if (MISREAD(43)) {
            begin_wait(device, which);
        }
    } else if (MISREAD(20)) {
        port->initial = value;
    } else {
        HIT("01 write is dropped");
    }
}

/* 01, Mode 0: 00 "A write goes straight to the output latch, which is 01's final latch"; 1X the same. */
static void write_data(struct model_device *device, unsigned which, uint8_t value)
{
    if (port_kind(device, which) == BUFFERED_OUTPUT) {
        write_buffered_output(device, which, value);
    } else {
        HIT("00 or 1X write");
        device->port[which].final = value;
    }
}

/* 01, Registers: "Writing ones to PSR clears edge-set flags only." */
static void write_psr(struct model_device *device, uint8_t value)
{
    unsigned which;

    for (which = 0; which < 2; which++) {
        struct model_port *port = &device->port[which];

        if (bit(value, 2 * which)) {
            HIT("PSR write clears the H1 flag");
            port->h1_edge = false;
            if (MISREAD(27) && port_kind(device, which) == BUFFERED_INPUT) {
                port->held = 0;
            }
        }
        if (bit(value, 2 * which + 1)) {
            HIT("PSR write clears the H2 flag");
            port->h2_edge = false;
        }
    }
}

/* 01, Timer: "Changing the source while running keeps the prescaler." Read as: so does any write that leaves
 * the timer running, and choosing source 01 with TIN low halts at that write. 02, R-2: "a change of source drops" a
 * rise that is held. Read as: 10 to 11 is a change, and a write with the same source keeps the rise. */
static void write_tcr(struct model_device *device, uint8_t value)
{
    uint8_t before = device->tcr;
    enum timer_source source;

    if (MISREAD(104) && device->rise_held && timer_running(device)) {
        (void)take_held_rise(device);
    }
    device->tcr = value & TCR_BITS;
    source = timer_source(device);
    if (MISREAD(24) ? !bit(value, 0) : !timer_running(device)) {
        HIT("TCR write halts");
        halt(device);
        return;
    }
    device->load_due = device->load_due || MISREAD(66);
    if (((before ^ value) & TCR_SOURCE) == 0) {
        HIT("TCR write runs, the same source");
        if (MISREAD(93) || (MISREAD(109) && !bit(before, 0))) {
            device->rise_held = false;
        }
    } else {
        HIT("TCR write runs, another source");
        if (MISREAD(26)) {
            device->prescaler = PRESCALER_FULL;
        }
        if (!(MISREAD(89) && source == SOURCE_TIN_DIRECT) && !(MISREAD(90) && source == SOURCE_TIN_PRESCALED) &&
            !(MISREAD(91) && source == SOURCE_CLOCK) && !(MISREAD(92) && source == SOURCE_GATED_CLOCK)) {
            device->rise_held = false;
        }
    }
}

/* 01, Registers: "19-21 preload high, mid, low": three bytes, and no more of it is left. */
static void write_preload(struct model_device *device, unsigned shift, uint8_t value)
{
    if (MISREAD(103) && device->rise_held && timer_running(device)) {
        (void)take_held_rise(device);
    }
    device->preload = (device->preload & COUNT_MOST & ~(0xFFu << shift)) | (uint32_t)value << shift;
}

/* 01, Registers: the numbers; "All others read 0 and ignore writes ... Alternates ...; they and count
 * registers ignore writes. A write to PIVR stores the upper six bits and clears the lower two". */
MODEL_LINKAGE void model_write(struct model_device *device, unsigned number, uint8_t value)
{
    switch (number) {
    case MODEL_PGCR:
        write_pgcr(device, value);
        break;
    case MODEL_PSRR:
        device->psrr = value & PSRR_BITS;
        break;
    case MODEL_DIRECTION_A:
        device->port[0].direction = value;
        break;
    case MODEL_DIRECTION_B:
        device->port[1].direction = value;
        break;
    case MODEL_DIRECTION_C:
        device->c_direction = value;
        break;
    case MODEL_PIVR:
        device->pivr = MISREAD(21) ? value : value & PIVR_BITS;
        break;
    case MODEL_PACR:
        write_control(device, 0, value);
        break;
    case MODEL_PBCR:
        write_control(device, 1, value);
        break;
    case MODEL_DATA_A:
        write_data(device, 0, value);
        break;
    case MODEL_DATA_B:
        write_data(device, 1, value);
        break;
    case MODEL_DATA_C: /* 01, Registers: "writes always reach the latch" */
        device->c_latch = value;
        break;
    case MODEL_PSR:
        write_psr(device, value);
        break;
    case MODEL_TCR:
        write_tcr(device, value);
        break;
    case MODEL_TIVR:
        device->tivr = value;
        break;
    case MODEL_PRELOAD_HIGH:
        write_preload(device, 16, value);
        break;
    case MODEL_PRELOAD_MID:
        write_preload(device, 8, value);
        break;
    case MODEL_PRELOAD_LOW:
        write_preload(device, 0, value);
        break;
    case MODEL_TSR: /* 01, Timer: "Writing 1 to TSR bit 0 clears ZDS." */
        if (bit(value, 0) || MISREAD(22)) {
            HIT("TSR write clears ZDS");
            device->zds = false;
        } else {
            HIT("TSR write without bit 0");
        }
        break;
    default:
        HIT("write ignored");
        break;
    }
}

/* ---- Reads ---- */

/* 01, Mode 0, 00: "A data read ... removes the oldest." The second byte's place moves up, whether it holds a
 * byte or not: 01 does not say what a place contains that holds nothing, and no event shows it. */
static void remove_oldest(struct model_device *device, unsigned which, uint8_t answer)
{
    struct model_port *port = &device->port[which];
    bool was_ready = ready(device, which);

    port->last_read = MISREAD(49) ? answer : port->oldest;
    port->oldest = port->second;
    port->held--;
    if (!was_ready) {
        HIT("a read makes room");
        begin_wait(device, which);
    } else {
        HIT("a read empties");
        if (MISREAD(44)) {
            begin_wait(device, which);
        }
    }
}

/* 01, Mode 0: 00 "per bit, the oldest held byte (last one read when empty) where direction is 0, the output
 * latch where 1"; 01 and 1X "pin or final latch by direction", which is the pin's level in both cases. */
static uint8_t read_data(struct model_device *device, unsigned which)
{
    struct model_port *port = &device->port[which];
    uint8_t input = port->held > 0 ? port->oldest : port->last_read;
    uint8_t answer = (uint8_t)((port->final & port->direction) | (input & ~port->direction));

    if (port_kind(device, which) != BUFFERED_INPUT) {
        HIT("01 or 1X read");
        return port_levels(device, which);
    }
    if (port->held > 0) {
        remove_oldest(device, which, answer);
    } else {
        HIT("00 read, nothing held");
    }
    return answer;
}

/* 01, Registers: "Data C reads the pin where direction is 0, else the latch, either way". */
static uint8_t read_data_c(const struct model_device *device)
{
    if (MISREAD(31)) {
        return device->c_latch;
    }
    return (uint8_t)((device->c_latch & device->c_direction) | (c_levels(device) & ~device->c_direction));
}

/* 01, Registers: "PSR bits 7-4 are the levels of H4-H1, bits 3-0 H4S-H1S." */
static uint8_t read_psr(const struct model_device *device)
{
    unsigned value = 0;
    unsigned hand;

    for (hand = 0; hand < 4; hand++) {
        value |= (unsigned)hand_level(device, hand) << (4 + hand);
        value |= (unsigned)status(device, hand) << hand;
    }
    return (uint8_t)value;
}

/* 01, Registers: "Alternates read the eight pin levels". */
static uint8_t read_alternate(struct model_device *device, unsigned which)
{
    uint8_t levels = port_levels(device, which);

    if (MISREAD(6)) {
        (void)read_data(device, which);
    }
    return levels;
}

MODEL_LINKAGE uint8_t model_read(struct model_device *device, unsigned number)
{
    switch (number) {
    case MODEL_PGCR:
        return device->pgcr;
    case MODEL_PSRR:
        return device->psrr;
    case MODEL_DIRECTION_A:
        return device->port[0].direction;
    case MODEL_DIRECTION_B:
        return device->port[1].direction;
    case MODEL_DIRECTION_C:
        return device->c_direction;
    case MODEL_PIVR:
        return device->pivr;
    case MODEL_PACR:
        return device->port[0].control;
    case MODEL_PBCR:
        return device->port[1].control;
    case MODEL_DATA_A:
        return read_data(device, 0);
    case MODEL_DATA_B:
        return read_data(device, 1);
    case MODEL_ALTERNATE_A:
        return read_alternate(device, 0);
    case MODEL_ALTERNATE_B:
        return read_alternate(device, 1);
    case MODEL_DATA_C:
        return read_data_c(device);
    case MODEL_PSR:
        return read_psr(device);
    case MODEL_TCR:
        return device->tcr;
    case MODEL_TIVR:
        return device->tivr;
    case MODEL_PRELOAD_HIGH:
        return (uint8_t)(device->preload >> 16);
    case MODEL_PRELOAD_MID:
        return (uint8_t)(device->preload >> 8);
    case MODEL_PRELOAD_LOW:
        return (uint8_t)device->preload;
    case MODEL_COUNT_HIGH:
        return (uint8_t)(device->count >> 16);
    case MODEL_COUNT_MID:
        return (uint8_t)(device->count >> 8);
    case MODEL_COUNT_LOW:
        return (uint8_t)device->count;
    case MODEL_TSR:
        return device->zds;
    default:
        HIT("null register read");
        return 0;
    }
}

/* ---- A fresh device and reset ---- */

/* 01, A fresh device: "Reset does the same to control, direction and vector registers, status and handshakes,
 * but keeps data latches, the last byte read, preload, counter and outside levels." Read as: held bytes are
 * lost and do not become the last byte read. 02, R-2: "a reset ... drops" a rise that is held; the halt does. */
MODEL_LINKAGE void model_reset(struct model_device *device)
{
    bool rise_held = device->rise_held;
    unsigned which;

    device->pgcr = 0;
    device->psrr = 0;
    device->pivr = VECTOR_AT_RESET;
    for (which = 0; which < 2; which++) {
        struct model_port *port = &device->port[which];

        if (MISREAD(32) && port_kind(device, which) == BUFFERED_INPUT && port->held > 0) {
            port->last_read = port->oldest;
        }
        port->direction = 0;
        port->control = 0;
        disable_port(device, which);
        port->held = 0;
        if (MISREAD(30)) {
            port->final = 0;
        }
    }
    device->c_direction = 0;
    if (MISREAD(84)) {
        device->outside[2] &= (uint8_t)~(1u << (MODEL_PIN_TIN - MODEL_PIN_C));
    }
    device->tcr = 0;
    device->tivr = VECTOR_AT_RESET;
    halt(device);
    if (MISREAD(88)) {
        device->rise_held = rise_held;
    }
}

/* 01, A fresh device: "Every register zero, except both vector registers 0F; latches, preload and counter
 * zero; prescaler 31"; and 02, R-6, where 01 had every outside level high: "A fresh device should hold PC2's outside
 * level low and all other levels high." */
MODEL_LINKAGE struct model_device model_fresh(void)
{
    unsigned idle_low = MISREAD(83) ? MODEL_PIN_TIN + 1 : MODEL_PIN_TIN;
    struct model_device device;

    memset(&device, 0, sizeof device);
    device.prescaler = PRESCALER_FULL;
    memset(device.outside, 0xFF, sizeof device.outside);
    if (!MISREAD(82)) {
        device.outside[idle_low / 8] ^= (uint8_t)(1u << idle_low % 8);
    }
    device.outside_hand[0] = true;
    device.outside_hand[1] = true;
    device.outside_hand[2] = true;
    device.outside_hand[3] = true;
    model_reset(&device);
    return device;
}

/* ---- Number 8 ---- */

/* "a wait over its rule's length, a pulse over four clocks or both at once ... a wait, pulse or asserted
 * handshake where 110 or 111 doesn't apply or the port isn't ready, under 110 a ready port without exactly
 * one of wait and asserted handshake". Read as: a pulse under 111 only, the asserted mark under 110 only. */
static bool handshake_valid(const struct model_device *device, unsigned which)
{
    const struct model_port *port = &device->port[which];
    enum h2_role role = h2_role(device, which);
    bool is_ready = ready(device, which);

    if (port->wait > wait_length(port_kind(device, which)) && !MISREAD(51)) {
        HIT("8: a wait over its rule's length");
        return false;
    }
    if (port->pulse > PULSE_LENGTH) {
        HIT("8: a pulse over four clocks");
        return false;
    }
    if (port->wait > 0 && port->pulse > 0 && !MISREAD(52)) {
        HIT("8: a wait and a pulse");
        return false;
    }
    if (port->wait > 0 && !(is_handshake(role) && is_ready)) {
        HIT("8: a wait where none can be");
        return false;
    }
    if (port->pulse > 0 && !(role == H2_PULSED && is_ready) && !MISREAD(53)) {
        HIT("8: a pulse where none can be");
        return false;
    }
    if (port->asserted && !(role == H2_INTERLOCKED && is_ready)) {
        HIT("8: an asserted handshake where none can be");
        return false;
    }
    if (role == H2_INTERLOCKED && is_ready && (port->wait > 0) == port->asserted && !MISREAD(54)) {
        HIT("8: 110, ready, not exactly one of wait and asserted");
        return false;
    }
    return true;
}

/* "over two bytes held ... bytes held or edge flags where mode, submode, H2 control or enable allow none". */
static bool port_valid(const struct model_device *device, unsigned which)
{
    const struct model_port *port = &device->port[which];
    bool on = enabled(device, which);
    bool is_bit_port = port_kind(device, which) == BIT_PORT;

    if (port->held > HELD_MOST) {
        HIT("8: over two bytes held");
        return false;
    }
    if (port->held > 0 && (!on || is_bit_port)) {
        HIT("8: bytes held where none can be");
        return false;
    }
    if (port->h1_edge && (!on || !is_bit_port) && !MISREAD(55)) {
        HIT("8: an H1 flag where none can be");
        return false;
    }
    if (port->h2_edge && (!on || h2_role(device, which) != H2_STATUS_INPUT)) {
        HIT("8: an H2 flag where none can be");
        return false;
    }
    return handshake_valid(device, which);
}

/* "a prescaler over 31, a count or preload over FFFFFF ... or is halted otherwise than stated under Timer (fields added
 * later: ... set where their rule drops them)": 02, R-2, a rise held while halted, or with source 00 or 01. */
static bool timer_valid(const struct model_device *device)
{
    if (device->prescaler > PRESCALER_FULL) {
        HIT("8: a prescaler over 31");
        return false;
    }
    if (device->count > COUNT_MOST) {
        HIT("8: a count over FFFFFF");
        return false;
    }
    if (device->preload > COUNT_MOST) {
        HIT("8: a preload over FFFFFF");
        return false;
    }
    if (device->rise_held && timer_source(device) <= SOURCE_GATED_CLOCK && !MISREAD(102)) {
        HIT("8: a rise held with source 00 or 01");
        return false;
    }
    if (MISREAD(56) ? bit(device->tcr, 0) : timer_running(device)) {
        HIT("8: a running timer");
        return true;
    }
    if (device->prescaler != PRESCALER_FULL) {
        HIT("8: halted, prescaler not 31");
        return false;
    }
    if (device->zds) {
        HIT("8: halted, ZDS");
        return false;
    }
    if (!device->square_high) {
        HIT("8: halted, square wave low");
        return false;
    }
    if (!device->load_due) {
        HIT("8: halted, no load due");
        return false;
    }
    if (device->rise_held && !MISREAD(101)) {
        HIT("8: halted, a rise held");
        return false;
    }
    return true;
}

/* "a 1 in an unused register bit, a PIVR with a lower bit set other than 0F". */
MODEL_LINKAGE bool model_valid(const struct model_device *device)
{
    if ((device->psrr & ~PSRR_BITS) != 0) {
        HIT("8: PSRR bit 7");
        return false;
    }
    if ((device->tcr & ~TCR_BITS) != 0) {
        HIT("8: TCR bit 3");
        return false;
    }
    if ((device->pivr & ~PIVR_BITS & 0xFFu) != 0 && device->pivr != VECTOR_AT_RESET) {
        HIT("8: PIVR with a lower bit");
        return false;
    }
    return port_valid(device, 0) && port_valid(device, 1) && timer_valid(device);
}

/* ---- The device's bytes ---- */

static uint8_t take_byte(const uint8_t **bytes)
{
    return *(*bytes)++;
}

/* pit.h: "A flag is 0 or 1; any other value is read as 1." */
static bool take_flag(const uint8_t **bytes)
{
    return take_byte(bytes) != 0;
}

static uint32_t take_number(const uint8_t **bytes)
{
    uint32_t number = take_byte(bytes);

    number |= (uint32_t)take_byte(bytes) << 8;
    number |= (uint32_t)take_byte(bytes) << 16;
    number |= (uint32_t)take_byte(bytes) << 24;
    return number;
}

static void give_byte(uint8_t byte, uint8_t **bytes)
{
    *(*bytes)++ = byte;
}

static void give_flag(bool flag, uint8_t **bytes)
{
    give_byte(flag, bytes);
}

static void give_number(uint32_t number, uint8_t **bytes)
{
    give_byte((uint8_t)number, bytes);
    give_byte((uint8_t)(number >> 8), bytes);
    give_byte((uint8_t)(number >> 16), bytes);
    give_byte((uint8_t)(number >> 24), bytes);
}

#define TAKE(kind, place, most, name) device.place = take_##kind(&bytes);
#define GIVE(kind, place, most, name) give_##kind(device->place, &bytes);

MODEL_LINKAGE struct model_device model_from_bytes(const uint8_t *bytes)
{
    struct model_device device;

    MODEL_LAYOUT(TAKE)
    return device;
}

MODEL_LINKAGE void model_to_bytes(const struct model_device *device, uint8_t *bytes)
{
    MODEL_LAYOUT(GIVE)
}

/* ---- The event list ---- */

/* 01, The event list: "Bit-packed fields, most significant first, from the top bit of byte 0." */
static uint32_t field(const uint8_t *list, size_t position, unsigned width)
{
    uint32_t value = 0;
    unsigned place;

    for (place = 0; place < width; place++, position++) {
        value = value << 1 | ((list[position / 8] >> (7 - position % 8)) & 1u);
    }
    return value;
}

/* 01, The event list, numbers 2 and 3. Read as: within one event 2 comes before 3. */
MODEL_LINKAGE unsigned model_next_event(const uint8_t *list, size_t size, size_t position,
                                        struct model_event *event, size_t *after)
{
    static const uint8_t width[] = {
        [MODEL_WRITE] = MODEL_WRITE_BITS,
        [MODEL_READ] = MODEL_READ_BITS,
        [MODEL_PORT_ACKNOWLEDGE] = MODEL_BARE_BITS,
        [MODEL_TIMER_ACKNOWLEDGE] = MODEL_BARE_BITS,
        [MODEL_PIN] = MODEL_PIN_BITS,
        [MODEL_CLOCKS] = MODEL_CLOCKS_BITS,
        [MODEL_RESET] = MODEL_BARE_BITS,
        [MODEL_END] = MODEL_BARE_BITS,
    };
    size_t remain = 8 * size - position;

    memset(event, 0, sizeof *event);
    if (remain < 3) {
        HIT("2: no room for a kind");
        return MODEL_CUT_SHORT;
    }
    event->kind = field(list, position, 3);
    if (MISREAD(57) && event->kind == MODEL_PIN && remain >= 8 && field(list, position + 3, 5) >= MODEL_PINS) {
        return MODEL_NO_SUCH_PIN;
    }
    if (remain < width[event->kind]) {
        HIT("2: no room for the fields");
        return MODEL_CUT_SHORT;
    }
    *after = position + width[event->kind];
    if (event->kind == MODEL_WRITE || event->kind == MODEL_READ || event->kind == MODEL_PIN) {
        event->number = field(list, position + 3, 5);
    }
    if (event->kind == MODEL_WRITE) {
        event->value = field(list, position + 8, 8);
    } else if (event->kind == MODEL_PIN) {
        event->value = field(list, position + 8, 1);
    } else if (event->kind == MODEL_CLOCKS) {
        event->clocks = field(list, position + 3, 16) + 1;
    }
    if (event->kind == MODEL_PIN && event->number >= MODEL_PINS) {
        HIT("3: no such pin");
        return MODEL_NO_SUCH_PIN;
    }
    return MODEL_ACCEPTED;
}

static void record_answer(struct model_pass *pass, unsigned answer)
{
    if (pass->answers != NULL) {
        pass->answers[pass->totals.answers] = answer != MODEL_SILENT;
        pass->answers[pass->totals.answers + 1] = answer != MODEL_SILENT ? (uint8_t)answer : 0;
    }
    pass->totals.answers += 2;
}

/* 01, The event list: "Clocks are numbered by how many have passed, the first being 1"; 02, R-2: "an opening now falls
 * only on a clock". */
static void record_opening(struct model_pass *pass)
{
    if (pass->openings != NULL) {
        pass->openings[pass->totals.openings] = (uint32_t)pass->totals.clocks;
        if (MISREAD(108) && timer_source(&pass->device) > SOURCE_GATED_CLOCK) {
            pass->openings[pass->totals.openings]--;
        }
    }
    pass->totals.openings++;
}

static void play_clocks(struct model_pass *pass, uint32_t clocks)
{
    bool rise_held = pass->device.rise_held;
    uint32_t passed;

    for (passed = 0; passed < clocks; passed++) {
        if (MISREAD(100)) {
            pass->device.rise_held = rise_held && passed + 1 == clocks;
        }
        pass->totals.clocks++;
        if (model_clock(&pass->device)) {
            record_opening(pass);
        }
    }
}

/* 01, Interrupts: an acknowledge "clears nothing". */
static void play_acknowledge(struct model_pass *pass, bool of_port)
{
    if (of_port) {
        record_answer(pass, model_port_acknowledge(&pass->device));
        if (MISREAD(5)) {
            pass->device.port[0].h2_edge = false;
        }
    } else {
        record_answer(pass, model_timer_acknowledge(&pass->device));
        if (MISREAD(4)) {
            pass->device.zds = false;
        }
    }
}

MODEL_LINKAGE void model_play_event(struct model_pass *pass, const struct model_event *event)
{
    switch (event->kind) {
    case MODEL_WRITE:
        model_write(&pass->device, event->number, (uint8_t)event->value);
        break;
    case MODEL_READ:
        record_answer(pass, model_read(&pass->device, event->number));
        break;
    case MODEL_PORT_ACKNOWLEDGE:
        play_acknowledge(pass, true);
        break;
    case MODEL_TIMER_ACKNOWLEDGE:
        play_acknowledge(pass, false);
        break;
    case MODEL_PIN:
        model_pin(&pass->device, event->number, event->value != 0);
        break;
    case MODEL_CLOCKS:
        play_clocks(pass, event->clocks);
        break;
    default: /* reset; the end mark is not played */
        model_reset(&pass->device);
        break;
    }
}

/* 01, The event list: "After end, zero bits fill the last byte"; numbers 4 and 5. `after` is the bit after
 * the end mark. */
static unsigned judge_ending(const uint8_t *list, size_t size, size_t after, size_t *place)
{
    size_t filled = (after + 7) / 8;

    *place = after;
    if (field(list, after, (unsigned)(8 * filled - after)) != 0 && !(MISREAD(69) && filled < size)) {
        HIT("4: a fill bit is 1");
        while (MISREAD(58) && field(list, *place, 1) == 0) {
            (*place)++;
        }
        return MODEL_FILL_NOT_ZERO;
    }
    if (filled < size) {
        HIT("5: a byte after the last");
        *place = 8 * filled;
        return MODEL_BYTE_AFTER_END;
    }
    *place = 0;
    return MODEL_ACCEPTED;
}

/* Plays events up to the end mark. */
static unsigned play_events(struct model_pass *pass, const uint8_t *list, size_t size)
{
    struct model_event event;
    size_t position = 0;
    size_t after = 0;
    size_t place;
    unsigned refusal;

    for (;;) {
        refusal = model_next_event(list, size, position, &event, &after);
        if (refusal != MODEL_ACCEPTED) {
            pass->totals.place = position;
            return refusal;
        }
        if (event.kind == MODEL_END) {
            refusal = judge_ending(list, size, after, &place);
            pass->totals.place = place;
            return refusal;
        }
        model_play_event(pass, &event);
        position = after;
    }
}

/* Numbers 1 to 7 in their order: "then 1, then 2 and 3 event by event, then 4, 5, 6, 7". Fills the totals. */
static unsigned judge_list(struct model_pass *pass, const uint8_t *list, size_t list_size, size_t answers_size,
                           size_t openings_count)
{
    unsigned refusal;

    if (list_size > MODEL_LIST_MOST) {
        HIT("1: too long");
        return MODEL_TOO_LONG;
    }
    refusal = play_events(pass, list, list_size);
    if (refusal != MODEL_ACCEPTED) {
        return refusal;
    }
    if (MISREAD(70) && pass->totals.openings > openings_count) {
        return MODEL_OPENINGS_TOO_FEW;
    }
    if (pass->totals.answers > answers_size + (MISREAD(45) ? answers_size % 2 : 0)) {
        HIT("6: answers need more bytes");
        return MODEL_ANSWERS_TOO_FEW;
    }
    if (pass->totals.openings > openings_count) {
        HIT("7: openings outnumber the row");
        return MODEL_OPENINGS_TOO_FEW;
    }
    return MODEL_ACCEPTED;
}

MODEL_LINKAGE struct model_pass model_begin_pass(const struct model_device *device, uint8_t *answers,
                                                 uint32_t *openings)
{
    struct model_pass pass;

    memset(&pass, 0, sizeof pass);
    pass.device = *device;
    pass.answers = answers;
    pass.openings = openings;
    return pass;
}

/* Two passes: the first, on a copy and without rows, finds refusal and totals, so that a refused call writes
 * nothing. */
MODEL_LINKAGE unsigned model_play(struct model_device *device, const uint8_t *list, size_t list_size,
                                  uint8_t *answers, size_t answers_size, uint32_t *openings,
                                  size_t openings_count, struct model_totals *totals)
{
    struct model_pass pass = model_begin_pass(device, NULL, NULL);
    unsigned refusal = MODEL_DEVICE_NOT_VALID;

    if (model_valid(device) || (MISREAD(71) && list_size > MODEL_LIST_MOST)) {
        refusal = judge_list(&pass, list, list_size, answers_size, openings_count);
    }
    memset(totals, 0, sizeof *totals);
    if (refusal != MODEL_ACCEPTED) {
        HIT("refused");
        totals->place = pass.totals.place;
        return refusal;
    }
    HIT("accepted");
    pass = model_begin_pass(device, answers, openings);
    (void)play_events(&pass, list, list_size);
    *totals = pass.totals;
    *device = pass.device;
    return MODEL_ACCEPTED;
}
