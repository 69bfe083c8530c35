/* A library behind pit.h that is the model once more. It stands in for the real one where the comparison
 * itself is tried: as it is no difference may be found, and built with one of the misreadings of
 * tests/mutants.txt (-DMUTANT=n) a difference must be found. */
#define MODEL_LINKAGE static
#include "model/model.c"

#include "pit.h"

uint32_t pit_fresh(uint8_t *device, size_t device_size)
{
    struct model_device fresh = model_fresh();

    if (device_size != PIT_DEVICE_SIZE) {
        return PIT_WRONG_SIZE;
    }
    model_to_bytes(&fresh, device);
    return 0;
}

uint32_t pit_valid(const uint8_t *device, size_t device_size)
{
    struct model_device model;

    if (device_size != PIT_DEVICE_SIZE) {
        return PIT_WRONG_SIZE;
    }
    model = model_from_bytes(device);
    return model_valid(&model);
}

uint32_t pit_play(uint8_t *device, size_t device_size, const uint8_t *list, size_t list_size, uint8_t *answers,
                  size_t answers_size, uint32_t *openings, size_t openings_count, uint64_t *totals,
                  size_t totals_count)
{
    struct model_device model;
    struct model_totals found;
    unsigned refusal;

    if (device_size != PIT_DEVICE_SIZE || totals_count != PIT_TOTALS) {
        return PIT_WRONG_SIZE;
    }
    model = model_from_bytes(device);
    refusal = model_play(&model, list, list_size, answers, answers_size, openings, openings_count, &found);
    if (refusal == MODEL_ACCEPTED) {
        model_to_bytes(&model, device);
    }
    totals[PIT_PLACE] = found.place;
    totals[PIT_ANSWERS] = found.answers;
    totals[PIT_OPENINGS] = found.openings;
    totals[PIT_CLOCKS] = found.clocks;
    return refusal;
}

uint32_t pit_write(uint8_t *device, size_t device_size, uint8_t number, uint8_t value)
{
    struct model_device model;

    if (device_size != PIT_DEVICE_SIZE) {
        return PIT_WRONG_SIZE;
    }
    model = model_from_bytes(device);
    model_write(&model, number, value);
    model_to_bytes(&model, device);
    return 0;
}

uint32_t pit_read(uint8_t *device, size_t device_size, uint8_t number)
{
    struct model_device model;
    uint8_t value;

    if (device_size != PIT_DEVICE_SIZE) {
        return PIT_WRONG_SIZE;
    }
    model = model_from_bytes(device);
    value = model_read(&model, number);
    model_to_bytes(&model, device);
    return value;
}

uint32_t pit_pin(uint8_t *device, size_t device_size, uint8_t pin, uint8_t level)
{
    struct model_device model;

    if (device_size != PIT_DEVICE_SIZE) {
        return PIT_WRONG_SIZE;
    }
    model = model_from_bytes(device);
    if (pin < MODEL_PINS) {
        model_pin(&model, pin, level != 0);
    }
    model_to_bytes(&model, device);
    return 0;
}

uint32_t pit_clocks(uint8_t *device, size_t device_size, uint32_t clocks, uint32_t passed, uint32_t *openings,
                    size_t openings_count, uint32_t *opened)
{
    struct model_device model;

    if (device_size != PIT_DEVICE_SIZE) {
        return PIT_WRONG_SIZE;
    }
    model = model_from_bytes(device);
    *opened = 0;
    while (clocks-- > 0) {
        passed++;
        if (model_clock(&model)) {
            if (*opened < openings_count) {
                openings[*opened] = passed;
            }
            (*opened)++;
        }
    }
    model_to_bytes(&model, device);
    return 0;
}

uint32_t pit_reset(uint8_t *device, size_t device_size)
{
    struct model_device model;

    if (device_size != PIT_DEVICE_SIZE) {
        return PIT_WRONG_SIZE;
    }
    model = model_from_bytes(device);
    model_reset(&model);
    model_to_bytes(&model, device);
    return 0;
}

uint32_t pit_port_acknowledge(const uint8_t *device, size_t device_size)
{
    struct model_device model;

    if (device_size != PIT_DEVICE_SIZE) {
        return PIT_WRONG_SIZE;
    }
    model = model_from_bytes(device);
    return model_port_acknowledge(&model);
}

uint32_t pit_timer_acknowledge(const uint8_t *device, size_t device_size)
{
    struct model_device model;

    if (device_size != PIT_DEVICE_SIZE) {
        return PIT_WRONG_SIZE;
    }
    model = model_from_bytes(device);
    return model_timer_acknowledge(&model);
}

uint32_t pit_levels(const uint8_t *device, size_t device_size)
{
    struct model_device model;
    uint32_t levels = 0;
    unsigned pin;

    if (device_size != PIT_DEVICE_SIZE) {
        return PIT_WRONG_SIZE;
    }
    model = model_from_bytes(device);
    for (pin = 0; pin < MODEL_PINS; pin++) {
        levels |= (uint32_t)model_level(&model, pin) << pin;
    }
    return levels;
}
