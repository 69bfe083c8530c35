/* Plays a list from standard input on a fresh model, and prints what pit-run is to print of it or, with --trace, what
 * pit-trace is to print. */
#include "model/model.h"

#include <inttypes.h>
#include <stdio.h>
#include <string.h>

static uint8_t list[MODEL_LIST_MOST + 1];
static size_t list_size;
static uint8_t answers[MODEL_RUN_ANSWERS];
static uint32_t openings[MODEL_RUN_OPENINGS];

static void print_answers(size_t used)
{
    size_t place;

    for (place = 0; place < used; place += 2) {
        if (answers[place] != 0) {
            printf("A %02X\n", answers[place + 1]);
        } else {
            printf("A --\n");
        }
    }
}

static void print_acknowledge(const char *mark, unsigned answer)
{
    if (answer == MODEL_SILENT) {
        printf(" %s=--", mark);
    } else {
        printf(" %s=%02X", mark, answer);
    }
}

/* What a read of each register would give, each from the device as it stands. */
static void print_registers(const struct model_device *device)
{
    unsigned number;

    for (number = 0; number < MODEL_REGISTERS; number++) {
        struct model_device copy = *device;

        printf("%02X", model_read(&copy, number));
    }
}

static void print_part(const struct model_pass *pass, unsigned event)
{
    unsigned pin;

    printf("T %u %" PRIu64 " PINS=", event, pass->totals.clocks);
    for (pin = 0; pin < MODEL_PINS; pin++) {
        printf("%d", model_level(&pass->device, pin));
    }
    printf(" REGS=");
    print_registers(&pass->device);
    print_acknowledge("PACK", model_port_acknowledge(&pass->device));
    print_acknowledge("TACK", model_timer_acknowledge(&pass->device));
    printf("\n");
}

/* A line after each event of an accepted list. */
static void print_parts(void)
{
    struct model_device fresh = model_fresh();
    struct model_pass pass = model_begin_pass(&fresh, NULL, NULL);
    struct model_event event;
    size_t position = 0;
    unsigned number;

    for (number = 0;; number++) {
        (void)model_next_event(list, list_size, position, &event, &position);
        if (event.kind == MODEL_END) {
            return;
        }
        model_play_event(&pass, &event);
        print_part(&pass, number);
    }
}

static void print_openings(size_t used)
{
    size_t place;

    for (place = 0; place < used; place++) {
        printf("G %" PRIu32 "\n", openings[place]);
    }
}

int main(int argument_count, char **arguments)
{
    bool trace = argument_count == 2 && strcmp(arguments[1], "--trace") == 0;
    struct model_device device = model_fresh();
    struct model_totals totals;
    unsigned refusal;

    if (argument_count != 1 && !trace) {
        fprintf(stderr, "usage: expect [--trace] < LIST\n");
        return 2;
    }
    list_size = fread(list, 1, sizeof list, stdin);
    refusal = model_play(&device, list, list_size, answers, sizeof answers, openings, MODEL_RUN_OPENINGS, &totals);
    printf("R %u %" PRIu64 "\n", refusal, totals.place);
    if (refusal == MODEL_ACCEPTED) {
        if (trace) {
            print_parts();
        } else {
            print_answers((size_t)totals.answers);
        }
        print_openings((size_t)totals.openings);
        printf("C %" PRIu64 "\n", totals.clocks);
    }
    return ferror(stdin) || fflush(stdout) != 0 ? 2 : 0;
}
