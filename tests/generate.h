/* Makes lists, devices and rooms to compare with. Everything follows from a seed and a number, the same on
 * every machine. */
#ifndef GENERATE_H
#define GENERATE_H

#include <stddef.h>
#include <stdint.h>

#include "model/model.h"

#define GENERATE_LIST_ROOM (MODEL_LIST_MOST + 64u)

struct generate_random {
    uint64_t state;
};

struct generate_list {
    uint8_t bytes[GENERATE_LIST_ROOM];
    size_t size;
};

struct generate_rooms {
    size_t answers;
    size_t openings;
};

struct generate_random generate_seeded(uint64_t seed, uint64_t number);
uint32_t generate_below(struct generate_random *random, uint32_t limit);

/* A device that number 8 of 01 lets pass: fresh, played to, or put together field by field. */
void generate_valid_device(struct generate_random *random, uint8_t *bytes);

/* A device with one or more clauses of number 8 broken; a few are random bytes or come out valid. */
void generate_any_device(struct generate_random *random, uint8_t *bytes);

/* A well-formed list that does much to the given device. */
void generate_list(struct generate_random *random, const uint8_t *device, struct generate_list *list);

/* A well-formed list of about 16,384 bytes, at times of exactly that many. */
void generate_longest_list(struct generate_random *random, struct generate_list *list);

/* So many clocks events, of 65,536 clocks each. */
void generate_clocks_list(struct generate_list *list, unsigned events);

/* A list made from an intact one by cutting, flipping, adding or replacing. */
void generate_damaged_list(struct generate_random *random, const struct generate_list *intact,
                           struct generate_list *list);

/* Rooms for a list that needs these many answer bytes and openings: exact, too few, odd, none, plenty. */
struct generate_rooms generate_rooms(struct generate_random *random, size_t answers, size_t openings);

#endif
