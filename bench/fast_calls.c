/* Single calls. On the struct they are what a list's events are; on the 53 bytes only what a call concerns is unpacked
 * before and packed after, and what only stores is read and written where it stands. */
#include "fast_part.h"

#include <stdlib.h>

/* ---- Single calls on the struct ---- */

struct fast_device *fast_device_made(const uint8_t *bytes)
{
    struct fast_device *device = malloc(sizeof *device);

    if (device != NULL) {
        unpack(device, bytes);
    }
    return device;
}

void fast_device_bytes(const struct fast_device *device, uint8_t *bytes)
{
    pack(device, bytes);
}

uint32_t fast_device_write(struct fast_device *device, uint8_t number, uint8_t value)
{
    if (number < REGISTERS) {
        write_register(device, number, value);
    }
    return 0;
}

uint32_t fast_device_read(struct fast_device *device, uint8_t number)
{
    return number < REGISTERS ? read_register(device, number) : 0;
}

uint32_t fast_device_pin(struct fast_device *device, uint8_t pin, uint8_t level)
{
    if (pin < PINS) {
        set_pin(device, pin, level != 0);
    }
    return 0;
}

uint32_t fast_device_clocks(struct fast_device *device, uint32_t clocks, uint32_t passed, uint32_t *openings,
                            size_t openings_count, uint32_t *opened)
{
    *opened = clocks != 0 ? pass_clocks(&device->timer, clocks, passed, openings, openings_count) : 0;
    device->now += clocks;
    return 0;
}

uint32_t fast_device_reset(struct fast_device *device)
{
    reset(device);
    return 0;
}

uint32_t fast_device_port_acknowledge(const struct fast_device *device)
{
    return acknowledge_port(device);
}

uint32_t fast_device_timer_acknowledge(const struct fast_device *device)
{
    return acknowledge_timer(device);
}

/* Port C's buffers are off where a pin carries TIN, TOUT, DMAREQ, PIRQ, PIACK or TIACK. */
uint32_t fast_device_levels(const struct fast_device *device)
{
    uint8_t psrr = device->stored[PSRR];
    uint8_t tcr = device->timer.tcr;
    unsigned carried = (unsigned)((tcr & 6u) != 0) << 2 | (unsigned)((tcr & 0xC0u) != 0) << 3 |
                       (psrr >> 2 & 0x10u) | (psrr << 2 & 0x60u) | (unsigned)((tcr & 0xC0u) == 0x80) << 7;
    unsigned driven = device->stored[DIRECTION_C] & ~carried;
    unsigned c = (device->stored[DATA_C] & driven) | (undriven_c(device) & ~driven);

    return (uint32_t)levels(device, 0) | (uint32_t)levels(device, 1) << 8 | (uint32_t)c << 16 |
           (uint32_t)hand_levels(device) << PIN_H1;
}

/* ---- Single calls on the 53 bytes ---- */

static inline uint32_t word_at(const uint8_t *bytes)
{
    uint32_t word;

    memcpy(&word, bytes, sizeof word);
    return word;
}

/* pit.h: "writes each flag back as 0 or 1". They are, but for a device that was put together by hand. */
static inline void tidy(uint8_t *bytes)
{
    static const uint8_t flags[] = {13, 14, 15, 26, 27, 28, 42, 43, 44, 48, 49, 50, 51, 52};
    static const uint8_t over_one[] = {0, 0xFE, 0xFE, 0xFE}; /* three flags after another byte */
    uint32_t words = word_at(bytes + 12) | word_at(bytes + 25) | word_at(bytes + 41) | word_at(bytes + 47);
    size_t place;

    if ((words & word_at(over_one)) != 0 || ((bytes[51] | bytes[52]) & 0xFEu) != 0) {
        for (place = 0; place < sizeof flags; place++) {
            bytes[flags[place]] = bytes[flags[place]] != 0;
        }
    }
}

/* Where a register stands that only stores. */
static const uint8_t stored_at[REGISTERS] = {
    [PGCR] = 0,
    [PSRR] = 1,
    [DIRECTION_A] = PORT(0),
    [DIRECTION_A + 1] = PORT(1),
    [DIRECTION_C] = 29,
    [PIVR] = 2,
    [PACR] = PORT(0) + 1,
    [PACR + 1] = PORT(1) + 1,
    [DATA_C] = 30,
    [TCR] = 31,
    [TIVR] = 32,
    [PRELOAD_HIGH] = 35,
    [PRELOAD_HIGH + 1] = 34,
    [PRELOAD_LOW] = 33,
};

/* Unpacks what one port goes by, and nothing else. */
static inline void unpack_only_port(struct fast_device *device, unsigned which, const uint8_t *bytes)
{
    device->stored[PGCR] = bytes[0];
    device->outside = (uint32_t)bytes[45 + which] << 8 * which;
    device->now = 0;
    unpack_port(device, which, bytes + PORT(which));
}

uint32_t fast_fresh(uint8_t *bytes, size_t device_size)
{
    if (device_size != FAST_DEVICE_SIZE) {
        return FAST_WRONG_SIZE;
    }
    memset(bytes, 0, FAST_DEVICE_SIZE);
    bytes[2] = VECTOR_AT_RESET;
    bytes[32] = VECTOR_AT_RESET;
    bytes[41] = PRESCALER_FULL;
    bytes[43] = true;
    bytes[44] = true;
    memset(bytes + 45, 0xFF, 3);
    bytes[47] ^= BIT(PIN_TIN - 16); /* TIN idles low */
    memset(bytes + 48, true, 4);
    return 0;
}

uint32_t fast_valid(const uint8_t *bytes, size_t device_size)
{
    struct fast_device device;

    if (device_size != FAST_DEVICE_SIZE) {
        return FAST_WRONG_SIZE;
    }
    unpack(&device, bytes);
    return valid(&device, bytes);
}

static void write_port(uint8_t *bytes, unsigned number, uint8_t value)
{
    struct fast_device device;
    unsigned which = number % 2; /* PACR and data A have even numbers */

    unpack_only_port(&device, which, bytes);
    if (number >= DATA_A) {
        write_data(&device, which, value);
    } else {
        write_control(&device, which, value);
        device.stored[PACR + which] = value;
    }
    pack_port(&device, which, bytes + PORT(which));
}

static void write_ports(uint8_t *bytes, uint8_t value)
{
    struct fast_device device;

    unpack_only_port(&device, 0, bytes);
    unpack_only_port(&device, 1, bytes);
    write_pgcr(&device, value);
    bytes[0] = value;
    pack_port(&device, 0, bytes + PORT(0));
    pack_port(&device, 1, bytes + PORT(1));
}

static void write_timer(uint8_t *bytes, uint8_t value)
{
    struct timer timer;

    unpack_timer(&timer, bytes);
    write_tcr(&timer, value);
    pack_timer(&timer, bytes);
}

uint32_t fast_write(uint8_t *bytes, size_t device_size, uint8_t number, uint8_t value)
{
    unsigned kept = ~(unsigned)value; /* of flags that a 1 clears */

    if (device_size != FAST_DEVICE_SIZE) {
        return FAST_WRONG_SIZE;
    }
    tidy(bytes);
    switch (number) {
    case PGCR:
        write_ports(bytes, value);
        break;
    case PACR:
    case PACR + 1:
    case DATA_A:
    case DATA_A + 1:
        write_port(bytes, number, value);
        break;
    case PSR:
        bytes[PORT(0) + 11] &= kept & 1u;
        bytes[PORT(0) + 12] &= kept >> 1 & 1u;
        bytes[PORT(1) + 11] &= kept >> 2 & 1u;
        bytes[PORT(1) + 12] &= kept >> 3 & 1u;
        break;
    case TCR:
        write_timer(bytes, value);
        break;
    case TSR:
        bytes[42] &= kept & 1u;
        break;
    default:
        if (number < REGISTERS && stored_bits[number] != 0) {
            bytes[stored_at[number]] = value & stored_bits[number];
        }
        break;
    }
    return 0;
}

static uint32_t read_port(uint8_t *bytes, unsigned which)
{
    struct fast_device device;
    uint32_t value;

    unpack_only_port(&device, which, bytes);
    value = read_data(&device, which);
    pack_port(&device, which, bytes + PORT(which));
    return value;
}

uint32_t fast_read(uint8_t *bytes, size_t device_size, uint8_t number)
{
    struct fast_device device;

    if (device_size != FAST_DEVICE_SIZE) {
        return FAST_WRONG_SIZE;
    }
    tidy(bytes);
    switch (number) {
    case DATA_A:
    case DATA_A + 1:
        return read_port(bytes, number - DATA_A);
    case ALTERNATE_A:
    case ALTERNATE_A + 1:
        unpack_only_port(&device, number - ALTERNATE_A, bytes);
        return levels(&device, number - ALTERNATE_A);
    case DATA_C:
        unpack(&device, bytes);
        return read_data_c(&device);
    case PSR:
        unpack(&device, bytes);
        return read_psr(&device);
    case COUNT_HIGH:
    case COUNT_HIGH + 1:
    case COUNT_LOW:
        return bytes[37 + COUNT_LOW - number];
    case TSR:
        return bytes[42];
    default:
        return number < REGISTERS && stored_bits[number] != 0 ? bytes[stored_at[number]] : 0;
    }
}

static void hand_pin(uint8_t *bytes, unsigned hand, bool level)
{
    struct fast_device device;

    if (bytes[48 + hand] != level) {
        bytes[48 + hand] = level;
        unpack_only_port(&device, hand / 2, bytes);
        hand_changed(&device, hand, level);
        pack_port(&device, hand / 2, bytes + PORT(hand / 2));
    }
}

uint32_t fast_pin(uint8_t *bytes, size_t device_size, uint8_t pin, uint8_t level)
{
    struct timer timer;
    uint8_t *byte = &bytes[45 + pin / 8];
    uint8_t before;

    if (device_size != FAST_DEVICE_SIZE) {
        return FAST_WRONG_SIZE;
    }
    tidy(bytes);
    if (pin >= PINS) {
        return 0;
    }
    if (pin >= PIN_H1) {
        hand_pin(bytes, pin - PIN_H1, level != 0);
        return 0;
    }
    before = *byte;
    *byte = (uint8_t)((before & ~BIT(pin % 8)) | (unsigned)(level != 0) << pin % 8);
    if (pin == PIN_TIN && *byte != before) {
        unpack_timer(&timer, bytes);
        tin_changed(&timer, level != 0);
        pack_timer(&timer, bytes);
    }
    return 0;
}

/* A port that neither waits nor pulses has nothing of clocks. */
static inline void clock_port(uint8_t *bytes, unsigned which, uint32_t clocks)
{
    struct fast_device device;

    if (bytes[PORT(which) + 8] != 0 || bytes[PORT(which) + 9] != 0) {
        unpack_only_port(&device, which, bytes);
        device.now = clocks;
        pack_port(&device, which, bytes + PORT(which));
    }
}

uint32_t fast_clocks(uint8_t *bytes, size_t device_size, uint32_t clocks, uint32_t passed, uint32_t *openings,
                     size_t openings_count, uint32_t *opened)
{
    struct timer timer;

    if (device_size != FAST_DEVICE_SIZE) {
        return FAST_WRONG_SIZE;
    }
    tidy(bytes);
    *opened = 0;
    if (clocks != 0 && (bytes[31] & 1u)) {
        unpack_timer(&timer, bytes);
        *opened = pass_clocks(&timer, clocks, passed, openings, openings_count);
        pack_timer(&timer, bytes);
    }
    clock_port(bytes, 0, clocks);
    clock_port(bytes, 1, clocks);
    return 0;
}

uint32_t fast_reset(uint8_t *bytes, size_t device_size)
{
    struct timer timer;
    unsigned which;

    if (device_size != FAST_DEVICE_SIZE) {
        return FAST_WRONG_SIZE;
    }
    tidy(bytes);
    bytes[0] = 0;
    bytes[1] = 0;
    bytes[2] = VECTOR_AT_RESET;
    for (which = 0; which < 2; which++) {
        memset(bytes + PORT(which), 0, 2);     /* direction and control */
        bytes[PORT(which) + 6] = 0;            /* held */
        memset(bytes + PORT(which) + 8, 0, 5); /* wait, pulse, asserted and edge flags */
    }
    bytes[29] = 0;
    bytes[32] = VECTOR_AT_RESET;
    unpack_timer(&timer, bytes);
    write_tcr(&timer, 0);
    pack_timer(&timer, bytes);
    return 0;
}

uint32_t fast_port_acknowledge(const uint8_t *bytes, size_t device_size)
{
    struct fast_device device;

    if (device_size != FAST_DEVICE_SIZE) {
        return FAST_WRONG_SIZE;
    }
    if (!(bytes[1] & 0x10u)) {
        return FAST_SILENT;
    }
    device.stored[PSRR] = bytes[1];
    device.stored[PIVR] = bytes[2];
    unpack_only_port(&device, 0, bytes);
    unpack_only_port(&device, 1, bytes);
    return acknowledge_port(&device);
}

uint32_t fast_timer_acknowledge(const uint8_t *bytes, size_t device_size)
{
    if (device_size != FAST_DEVICE_SIZE) {
        return FAST_WRONG_SIZE;
    }
    return bytes[31] >> 5 == 5 && bytes[42] != 0 ? bytes[32] : FAST_SILENT;
}

uint32_t fast_levels(const uint8_t *bytes, size_t device_size)
{
    struct fast_device device;

    if (device_size != FAST_DEVICE_SIZE) {
        return FAST_WRONG_SIZE;
    }
    unpack(&device, bytes);
    return fast_device_levels(&device);
}
