/* Prints generated lists and the devices they are for, in the form of tests/regressions.
 *   samples COUNT SEED [--damaged] */
#include "generate.h"
#include "hex.h"

#include <stdio.h>
#include <stdlib.h>
#include <string.h>

int main(int argument_count, char **arguments)
{
    static struct generate_list list;
    static struct generate_list damaged;
    bool damage = argument_count == 4 && strcmp(arguments[3], "--damaged") == 0;
    uint8_t device[MODEL_DEVICE_SIZE];
    uint64_t number;

    if (argument_count != 3 && !damage) {
        fprintf(stderr, "usage: samples COUNT SEED [--damaged]\n");
        return 2;
    }
    for (number = 0; number < strtoull(arguments[1], NULL, 10); number++) {
        struct generate_random random = generate_seeded(strtoull(arguments[2], NULL, 10), number);

        generate_valid_device(&random, device);
        generate_list(&random, device, &list);
        generate_damaged_list(&random, &list, &damaged);
        print_hex("D", device, sizeof device);
        print_hex("L", damage ? damaged.bytes : list.bytes, damage ? damaged.size : list.size);
    }
    return 0;
}
