/* A plain model of the MC68230, one clock at a time, written from document 01, the requests of 02 that are in (and
 * the data sheet, document 000, where they are silent) and from nothing else. It is what the library is compared
 * with, so it is slow and simple on purpose: every rule stands where 01 states it, and nothing is worked out by
 * arithmetic. */
#ifndef MODEL_H
#define MODEL_H

#include <stdbool.h>
#include <stddef.h>
#include <stdint.h>

#include "fields.h"

/* A file that includes model.c whole makes its functions its own with `static`. */
#ifndef MODEL_LINKAGE
#define MODEL_LINKAGE
#endif

#define MODEL_LIST_MOST 16384u /* 01, The event list: "at most 16,384 bytes" */
#define MODEL_CLOCKS_MOST 65536u /* of one event */
#define MODEL_CLOCKS_EVENTS_MOST ((8 * MODEL_LIST_MOST - MODEL_BARE_BITS) / MODEL_CLOCKS_BITS)
#define MODEL_ANSWERS_MOST (2 * ((8 * MODEL_LIST_MOST - MODEL_BARE_BITS) / MODEL_BARE_BITS)) /* acknowledges alone */
#define MODEL_RUN_ANSWERS 32768u /* 01, Lists to try: pit-run "lends 32,768 answer bytes and 8,192 openings" */
#define MODEL_RUN_OPENINGS 8192u
#define MODEL_PINS 28u
#define MODEL_REGISTERS 32u
#define MODEL_SILENT 0x100u /* an acknowledge the part does not respond to */

enum model_pin_number {
    MODEL_PIN_A = 0,
    MODEL_PIN_B = 8,
    MODEL_PIN_C = 16,
    MODEL_PIN_TIN = 18,
    MODEL_PIN_H1 = 24
};

enum model_register {
    MODEL_PGCR = 0,
    MODEL_PSRR = 1,
    MODEL_DIRECTION_A = 2,
    MODEL_DIRECTION_B = 3,
    MODEL_DIRECTION_C = 4,
    MODEL_PIVR = 5,
    MODEL_PACR = 6,
    MODEL_PBCR = 7,
    MODEL_DATA_A = 8,
    MODEL_DATA_B = 9,
    MODEL_ALTERNATE_A = 10,
    MODEL_ALTERNATE_B = 11,
    MODEL_DATA_C = 12,
    MODEL_PSR = 13,
    MODEL_TCR = 16,
    MODEL_TIVR = 17,
    MODEL_PRELOAD_HIGH = 19,
    MODEL_PRELOAD_MID = 20,
    MODEL_PRELOAD_LOW = 21,
    MODEL_COUNT_HIGH = 23,
    MODEL_COUNT_MID = 24,
    MODEL_COUNT_LOW = 25,
    MODEL_TSR = 26
};

enum model_kind {
    MODEL_WRITE = 0,
    MODEL_READ = 1,
    MODEL_PORT_ACKNOWLEDGE = 2,
    MODEL_TIMER_ACKNOWLEDGE = 3,
    MODEL_PIN = 4,
    MODEL_CLOCKS = 5,
    MODEL_RESET = 6,
    MODEL_END = 7
};

/* The bits of an event, its kind and its fields. */
enum model_bits {
    MODEL_WRITE_BITS = 3 + 5 + 8,
    MODEL_READ_BITS = 3 + 5,
    MODEL_PIN_BITS = 3 + 5 + 1,
    MODEL_CLOCKS_BITS = 3 + 16,
    MODEL_BARE_BITS = 3 /* acknowledges, reset and end */
};

enum model_refusal {
    MODEL_ACCEPTED = 0,
    MODEL_TOO_LONG = 1,
    MODEL_CUT_SHORT = 2,
    MODEL_NO_SUCH_PIN = 3,
    MODEL_FILL_NOT_ZERO = 4,
    MODEL_BYTE_AFTER_END = 5,
    MODEL_ANSWERS_TOO_FEW = 6,
    MODEL_OPENINGS_TOO_FEW = 7,
    MODEL_DEVICE_NOT_VALID = 8,
    MODEL_REFUSALS /* one more than the last */
};

/* What the kinds of fields.h are in a struct, how many bytes each takes, and the most that it can hold. */
typedef uint8_t model_byte;
typedef bool model_flag;
typedef uint32_t model_number;

enum model_width { MODEL_WIDTH_byte = 1, MODEL_WIDTH_flag = 1, MODEL_WIDTH_number = 4 };

#define MODEL_WIDEST_byte 0xFFu
#define MODEL_WIDEST_flag 1u
#define MODEL_WIDEST_number 0xFFFFFFFFu

#define MODEL_DECLARED(kind, member, most, name) model_##kind member;
#define MODEL_ADDED_WIDTH(kind, place, most, name) +MODEL_WIDTH_##kind

/* Port A with H1 and H2, or port B with H3 and H4, which are called H1 and H2 here too. */
struct model_port {
    MODEL_PORT_MEMBERS(MODEL_DECLARED)
};

struct model_device {
    MODEL_MEMBERS(MODEL_DECLARED)
    struct model_port port[2];
    uint8_t outside[3];   /* PA, PB, PC */
    bool outside_hand[4]; /* H1 to H4 */
};

enum { MODEL_DEVICE_SIZE = 0 MODEL_LAYOUT(MODEL_ADDED_WIDTH) };

struct model_event {
    unsigned kind;
    unsigned number; /* a register or a pin */
    unsigned value;  /* a byte written or a level */
    uint32_t clocks;
};

struct model_totals {
    uint64_t place;
    uint64_t answers;
    uint64_t openings;
    uint64_t clocks;
};

/* What one pass over a list makes; a row that is null is not written. */
struct model_pass {
    struct model_device device;
    struct model_totals totals;
    uint8_t *answers;
    uint32_t *openings;
};

MODEL_LINKAGE struct model_device model_fresh(void);
MODEL_LINKAGE struct model_device model_from_bytes(const uint8_t *bytes);
MODEL_LINKAGE void model_to_bytes(const struct model_device *device, uint8_t *bytes);

/* Whether number 8 of 01 lets the device pass. */
MODEL_LINKAGE bool model_valid(const struct model_device *device);

MODEL_LINKAGE void model_write(struct model_device *device, unsigned number, uint8_t value);
MODEL_LINKAGE uint8_t model_read(struct model_device *device, unsigned number);

MODEL_LINKAGE void model_pin(struct model_device *device, unsigned pin, bool level);

/* Answers whether the gate opened. */
MODEL_LINKAGE bool model_clock(struct model_device *device);

MODEL_LINKAGE void model_reset(struct model_device *device);
MODEL_LINKAGE unsigned model_port_acknowledge(const struct model_device *device);
MODEL_LINKAGE unsigned model_timer_acknowledge(const struct model_device *device);
MODEL_LINKAGE bool model_level(const struct model_device *device, unsigned pin);

/* Takes the event at `position` apart: 0 with the event and the position after it, or refusal 2 or 3. */
MODEL_LINKAGE unsigned model_next_event(const uint8_t *list, size_t size, size_t position,
                                        struct model_event *event, size_t *after);

/* A pass that begins with this device, and one event of it, which is not the end mark. */
MODEL_LINKAGE struct model_pass model_begin_pass(const struct model_device *device, uint8_t *answers,
                                                 uint32_t *openings);
MODEL_LINKAGE void model_play_event(struct model_pass *pass, const struct model_event *event);

/* Plays a list; see document 01, The event list. On a refusal nothing but `totals` is written. */
MODEL_LINKAGE unsigned model_play(struct model_device *device, const uint8_t *list, size_t list_size,
                                  uint8_t *answers, size_t answers_size, uint32_t *openings,
                                  size_t openings_count, struct model_totals *totals);

#ifdef MODEL_COVERAGE
/* Counts one passage through the branch of model.c that carries this name. */
void model_hit(const char *branch);
#endif

#endif
