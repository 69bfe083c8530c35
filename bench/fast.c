/* One MC68230 played from an event list, as fast as plain C gets it; fast_part.h has the part itself. Where the time is
 * saved:
 *
 *  - The list is copied to where zeros follow it, so that events are taken out of it without a test of its size.
 *  - One pass checks the list, counts the answers and bounds the openings by the clocks and TIN edges; only if
 *    that bound is over the row lent, the timer alone is played once more to count them. Then the list is
 *    played into what was lent, with no check left to make. */
#include "fast_part.h"

#define LIST_MOST 16384u

enum { WRITE, READ, PORT_ACKNOWLEDGE, TIMER_ACKNOWLEDGE, PIN, CLOCKS, RESET, END };

/* ---- The list ---- */

#define WIDTH_WRITE 16u
#define WIDTH_READ 8u
#define WIDTH_PIN 9u
#define WIDTH_CLOCKS 19u
#define WIDTH_KIND 3u

/* A copy with zeros behind it, so that the bits of an event can be taken anywhere without a test. */
struct list {
    uint32_t end; /* in bits */
    uint8_t bytes[LIST_MOST + 4];
};

static void copy_list(struct list *list, const uint8_t *bytes, size_t size)
{
    list->end = (uint32_t)(8 * size);
    if (size != 0) {
        memcpy(list->bytes, bytes, size);
    }
    memset(list->bytes + size, 0, 4);
}

/* The bits from `position` on, topmost first, at least 25 of them. The widest event has 19. */
static inline uint32_t bits_at(const struct list *list, uint32_t position)
{
    const uint8_t *at = list->bytes + position / 8;
    uint32_t bits = (uint32_t)at[0] << 24 | (uint32_t)at[1] << 16 | (uint32_t)at[2] << 8 | at[3];

    return bits << position % 8;
}

static inline unsigned kind_of(uint32_t bits)
{
    return bits >> 29;
}

static inline unsigned number_of(uint32_t bits)
{
    return bits >> 24 & 0x1Fu;
}

static inline uint8_t value_of(uint32_t bits)
{
    return (uint8_t)(bits >> 16);
}

static inline uint32_t level_of(uint32_t bits)
{
    return bits >> 23 & 1u;
}

static inline uint32_t clocks_of(uint32_t bits)
{
    return (bits >> 13 & 0xFFFFu) + 1;
}

struct checked {
    uint32_t refusal; /* 0 to 5 */
    uint32_t place;
    uint32_t answers;
    uint32_t clocks;
    uint32_t tin_levels; /* events at PC2 */
};

/* What an event adds to the sums of the check, which are kept in one number: its bits, in the lower half; above
 * them its answers, and whether it is a level for TIN. The topmost bit stops the check. */
#define EVENT(width, answers, tin) ((uint64_t)(width) | (uint64_t)(answers) << 32 | (uint64_t)(tin) << 48)
#define STOP ((uint64_t)1 << 63)

/* By the first eight bits. */
static const uint64_t event[256] = {
    [WRITE << 5 ... (WRITE << 5) + 31] = EVENT(WIDTH_WRITE, 0, 0),
    [READ << 5 ... (READ << 5) + 31] = EVENT(WIDTH_READ, 1, 0),
    [PORT_ACKNOWLEDGE << 5 ... (TIMER_ACKNOWLEDGE << 5) + 31] = EVENT(WIDTH_KIND, 1, 0),
    [PIN << 5 ... (PIN << 5) + PIN_TIN - 1] = EVENT(WIDTH_PIN, 0, 0),
    [(PIN << 5) + PIN_TIN] = EVENT(WIDTH_PIN, 0, 1),
    [(PIN << 5) + PIN_TIN + 1 ... (PIN << 5) + PINS - 1] = EVENT(WIDTH_PIN, 0, 0),
    [(PIN << 5) + PINS ... (PIN << 5) + 31] = STOP,
    [CLOCKS << 5 ... (CLOCKS << 5) + 31] = EVENT(WIDTH_CLOCKS, 0, 0),
    [RESET << 5 ... (RESET << 5) + 31] = EVENT(WIDTH_KIND, 0, 0),
    [END << 5 ... (END << 5) + 31] = STOP,
};

static struct checked refused(uint32_t refusal, uint32_t place)
{
    struct checked checked = {refusal, place, 0, 0, 0};

    return checked;
}

static struct checked check(const struct list *list)
{
    struct checked checked = {0, 0, 0, 0, 0};
    uint64_t sums = 0;
    uint32_t position = 0;
    uint32_t bits;

    for (;;) {
        bits = bits_at(list, position);
        sums += event[bits >> 24];
        if (sums >= STOP) {
            break;
        }
        if ((uint32_t)sums > list->end) {
            return refused(2, position);
        }
        position = (uint32_t)sums;
        if (kind_of(bits) == CLOCKS) {
            checked.clocks += clocks_of(bits);
        }
    }
    if (kind_of(bits) == PIN) {
        return refused(position + WIDTH_PIN > list->end ? 2 : 3, position);
    }
    if (position + WIDTH_KIND > list->end) {
        return refused(2, position);
    }
    position += WIDTH_KIND;
    if (position % 8 != 0 && bits_at(list, position) >> (24 + position % 8) != 0) {
        return refused(4, position);
    }
    position = (position + 7) / 8 * 8;
    if (position < list->end) {
        return refused(5, position);
    }
    checked.answers = 2 * (sums >> 32 & 0xFFFFu);
    checked.tin_levels = sums >> 48 & 0x7FFFu;
    return checked;
}

/* Counts take 32 steps or one direct TIN edge each, and openings two counts, after the first. Every second level
 * at PC2 may be a rise, and one may be held. */
static uint32_t openings_bound(const struct timer *timer, const struct checked *checked)
{
    uint32_t rises = (checked->tin_levels + 1) / 2 + timer->rise_held;
    uint32_t steps = checked->clocks + rises + PRESCALER_FULL - timer->prescaler;

    return (steps / STEPS_PER_COUNT + rises + 1) / 2;
}

/* Plays what concerns the timer, on a copy. */
static uint64_t count_openings(struct timer timer, const struct list *list)
{
    uint64_t opened = 0;
    uint32_t position = 0;

    for (;;) {
        uint32_t bits = bits_at(list, position);

        switch (kind_of(bits)) {
        case WRITE:
            position += WIDTH_WRITE;
            if (number_of(bits) == TCR) {
                write_tcr(&timer, value_of(bits));
            } else if (number_of(bits) - PRELOAD_HIGH < 3) {
                write_preload(&timer, number_of(bits), value_of(bits));
            }
            break;
        case READ:
            position += WIDTH_READ;
            break;
        case PIN:
            position += WIDTH_PIN;
            if (number_of(bits) == PIN_TIN && level_of(bits) != timer.tin) {
                tin_changed(&timer, level_of(bits));
            }
            break;
        case CLOCKS:
            position += WIDTH_CLOCKS;
            opened += pass_clocks(&timer, clocks_of(bits), 0, NULL, 0);
            break;
        case RESET:
            position += WIDTH_KIND;
            write_tcr(&timer, 0);
            break;
        case END:
            return opened;
        default:
            position += WIDTH_KIND;
            break;
        }
    }
}

/* Plays a checked list; answers the number of openings. */
static size_t play(struct fast_device *device, const struct list *list, uint8_t *answers, uint32_t *openings)
{
    uint32_t *row = openings;
    uint32_t position = 0;

    for (;;) {
        uint32_t bits = bits_at(list, position);

        switch (kind_of(bits)) {
        case WRITE:
            position += WIDTH_WRITE;
            write_register(device, number_of(bits), value_of(bits));
            break;
        case READ:
            position += WIDTH_READ;
            answers = answer(answers, read_register(device, number_of(bits)));
            break;
        case PORT_ACKNOWLEDGE:
            position += WIDTH_KIND;
            answers = answer(answers, acknowledge_port(device));
            break;
        case TIMER_ACKNOWLEDGE:
            position += WIDTH_KIND;
            answers = answer(answers, acknowledge_timer(device));
            break;
        case PIN:
            position += WIDTH_PIN;
            set_pin(device, number_of(bits), level_of(bits));
            break;
        case CLOCKS:
            position += WIDTH_CLOCKS;
            /* pass_clocks; with its answer added in one place the compiler takes 4 % more for row c of bench.c */
            if (clocked(&device->timer)) {
                row += step_clocks(&device->timer, clocks_of(bits), (uint32_t)device->now, row, REACHES);
            } else if (device->timer.rise_held) {
                row += take_rise(&device->timer, (uint32_t)device->now, row, REACHES);
            }
            device->now += clocks_of(bits);
            break;
        case RESET:
            position += WIDTH_KIND;
            reset(device);
            break;
        default:
            return (size_t)(row - openings);
        }
    }
}

/* ---- The call that plays a list ---- */

static uint32_t refuse(uint64_t *totals, uint32_t refusal, uint64_t place)
{
    totals[0] = place;
    totals[1] = 0;
    totals[2] = 0;
    totals[3] = 0;
    return refusal;
}

uint32_t fast_play(uint8_t *bytes, size_t device_size, const uint8_t *list_bytes, size_t list_size,
                   uint8_t *answers, size_t answers_size, uint32_t *openings, size_t openings_count,
                   uint64_t *totals, size_t totals_count)
{
    struct list list;
    struct fast_device device;
    struct checked checked;

    if (device_size != FAST_DEVICE_SIZE || totals_count != FAST_TOTALS) {
        return FAST_WRONG_SIZE;
    }
    unpack(&device, bytes);
    if (!valid(&device, bytes)) {
        return refuse(totals, 8, 0);
    }
    if (list_size > LIST_MOST) {
        return refuse(totals, 1, 0);
    }
    copy_list(&list, list_bytes, list_size);
    checked = check(&list);
    if (checked.refusal != 0) {
        return refuse(totals, checked.refusal, checked.place);
    }
    if (checked.answers > answers_size) {
        return refuse(totals, 6, 0);
    }
    if (openings_bound(&device.timer, &checked) > openings_count &&
        count_openings(device.timer, &list) > openings_count) {
        return refuse(totals, 7, 0);
    }
    totals[0] = 0;
    totals[1] = checked.answers;
    totals[2] = play(&device, &list, answers, openings);
    totals[3] = checked.clocks;
    pack(&device, bytes);
    return 0;
}
