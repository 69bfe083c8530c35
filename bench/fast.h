/* fast.h: the anchor, what the library's speed is held against. The job of include/pit.h, written by hand in plain C
 * to be as fast as it can be without losing its readability, and without a proof. bench/run anchor compares it with
 * the model of tests/model.
 *
 * The calls without `device_` in their names are those of pit.h: the same arguments, the same answers, the same
 * 53 bytes. One difference: what single calls do to a device that fast_valid denies is not said.
 *
 * The calls with `device_` are for a program that holds the anchor's own device, as an emulator would. */
#ifndef FAST_H
#define FAST_H

#include <stddef.h>
#include <stdint.h>

#define FAST_DEVICE_SIZE 53u
#define FAST_TOTALS 4u /* place, answer bytes, openings, clocks */
#define FAST_WRONG_SIZE 0xFFFFFFFFu
#define FAST_SILENT 0x100u /* an acknowledge that the part does not respond to */

uint32_t fast_play(uint8_t *device, size_t device_size, const uint8_t *list, size_t list_size,
                   uint8_t *answers, size_t answers_size, uint32_t *openings, size_t openings_count,
                   uint64_t *totals, size_t totals_count);

uint32_t fast_fresh(uint8_t *device, size_t device_size);
uint32_t fast_valid(const uint8_t *device, size_t device_size);
uint32_t fast_write(uint8_t *device, size_t device_size, uint8_t number, uint8_t value);
uint32_t fast_read(uint8_t *device, size_t device_size, uint8_t number);
uint32_t fast_pin(uint8_t *device, size_t device_size, uint8_t pin, uint8_t level);
uint32_t fast_clocks(uint8_t *device, size_t device_size, uint32_t clocks, uint32_t passed,
                     uint32_t *openings, size_t openings_count, uint32_t *opened);
uint32_t fast_reset(uint8_t *device, size_t device_size);
uint32_t fast_port_acknowledge(const uint8_t *device, size_t device_size);
uint32_t fast_timer_acknowledge(const uint8_t *device, size_t device_size);
uint32_t fast_levels(const uint8_t *device, size_t device_size);

struct fast_device;

/* A device of its own, from the 53 bytes of a valid one; `free` ends it. NULL where there is no memory. */
struct fast_device *fast_device_made(const uint8_t *bytes);
void fast_device_bytes(const struct fast_device *device, uint8_t *bytes);

uint32_t fast_device_write(struct fast_device *device, uint8_t number, uint8_t value);
uint32_t fast_device_read(struct fast_device *device, uint8_t number);
uint32_t fast_device_pin(struct fast_device *device, uint8_t pin, uint8_t level);
uint32_t fast_device_clocks(struct fast_device *device, uint32_t clocks, uint32_t passed, uint32_t *openings,
                            size_t openings_count, uint32_t *opened);
uint32_t fast_device_reset(struct fast_device *device);
uint32_t fast_device_port_acknowledge(const struct fast_device *device);
uint32_t fast_device_timer_acknowledge(const struct fast_device *device);
uint32_t fast_device_levels(const struct fast_device *device);

#endif
