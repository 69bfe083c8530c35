/* Times the library, the anchor (fast.h) and the model of tests/model, built with the same compiler and -O2, in the
 * same run on the same lists. All three start from the same bytes and write them back; the model plays each list twice
 * (once to find the totals), as its own way to write nothing on a refusal.
 *
 *   bench                the tables; exit 1 where results differ or a target is missed, of the model or of the anchor
 *   bench counted FILE   the same, the anchor's targets not by time but by the instructions in FILE, lines
 *                        `ROW WHO NUMBER`
 *   bench names          lines `ROW WHO GOES`: what FILE should have, and in how many goes to count it
 *   bench ROW WHO GOES   plays that row so often and says nothing, for a counter of instructions
 *   bench growth         how the library's time grows with events, openings and clocks */
#define _POSIX_C_SOURCE 199309L

#include "fast.h"
#include "generate.h"
#include "measure.h"
#include "pit.h"
#include "writer.h"

#define ROUNDS 15
#define ROUND_SECONDS 0.02
#define ANSWERS_ROOM MODEL_ANSWERS_MOST
#define OPENINGS_ROOM 8192u
#define CLOCKS_EVENTS_MOST MODEL_CLOCKS_EVENTS_MOST
#define clocks_list generate_clocks_list
#define SHORT_LISTS 256u
#define SHORT_SIZE 32u
#define GOAL 2.0 /* what library / anchor is to come to in every row */

/* What is played in one go. */
static struct {
    double model_portion; /* the part of the list that the model is given; its figures are scaled up */
    unsigned lists;       /* lists played in one go, each on its device */
    uint8_t device[PIT_DEVICE_SIZE];
    struct generate_list list[SHORT_LISTS];
    struct generate_list part; /* the list the model plays where model_portion is under 1 */
} work;

/* Rows whose results differ, and rows that miss a target: of the model, of the anchor. */
static int differences;
static int behind_model;
static int behind_anchor;

/* ---- Lists ---- */

static struct writer begin(struct generate_list *list)
{
    struct writer writer = {list->bytes, 0};

    return writer;
}

/* Three-bit events up to the last byte, and the end: the list's size. */
static size_t filled_up(struct writer *writer, size_t bytes)
{
    while (writer_fits(writer, MODEL_BARE_BITS, bytes)) {
        writer_bare(writer, MODEL_TIMER_ACKNOWLEDGE);
    }
    return writer_end(writer);
}

/* Writes and reads of every register but the timer's control, and levels at every pin but PC2. */
static void traffic_list(struct generate_random *random, struct generate_list *list, size_t bytes)
{
    struct writer writer = begin(list);

    while (writer_fits(&writer, MODEL_WRITE_BITS, bytes)) {
        unsigned number = generate_below(random, MODEL_REGISTERS);
        unsigned pin = generate_below(random, MODEL_PINS);

        switch (generate_below(random, 3)) {
        case 0:
            writer_write(&writer, number == MODEL_TCR ? MODEL_TIVR : number, generate_below(random, 256));
            break;
        case 1:
            writer_read(&writer, number);
            break;
        default:
            writer_pin(&writer, pin == MODEL_PIN_TIN ? MODEL_PIN_C : pin, generate_below(random, 2));
            break;
        }
    }
    list->size = filled_up(&writer, bytes);
}

/* A byte in through port A and a byte out through port B, each with the clocks its handshake takes. */
static void transfer(struct writer *writer, unsigned byte)
{
    writer_pin(writer, byte % 8, byte >> 3 & 1);
    writer_clocks(writer, 4);
    writer_pin(writer, MODEL_PIN_H1, 0);
    writer_pin(writer, MODEL_PIN_H1, 1);
    writer_read(writer, MODEL_DATA_A);
    writer_write(writer, MODEL_DATA_B, byte & 0xFF);
    writer_clocks(writer, 2);
    writer_pin(writer, MODEL_PIN_H1 + 2, 0);
    writer_pin(writer, MODEL_PIN_H1 + 2, 1);
}

#define TRANSFER_BITS (5 * MODEL_PIN_BITS + 2 * MODEL_CLOCKS_BITS + MODEL_READ_BITS + MODEL_WRITE_BITS)

/* Interlocked first, pulsed from the middle on. */
static void handshake_list(struct generate_list *list, size_t bytes)
{
    struct writer writer = begin(list);
    unsigned byte = 0;

    writer_write(&writer, MODEL_DIRECTION_B, 0xFF);
    writer_write(&writer, MODEL_PACR, 0x30);
    writer_write(&writer, MODEL_PBCR, 0x70);
    writer_write(&writer, MODEL_PGCR, 0x30);
    while (writer_fits(&writer, TRANSFER_BITS, bytes / 2)) {
        transfer(&writer, byte++);
    }
    writer_write(&writer, MODEL_PACR, 0x38);
    writer_write(&writer, MODEL_PBCR, 0x78);
    while (writer_fits(&writer, TRANSFER_BITS, bytes)) {
        transfer(&writer, byte++);
    }
    list->size = filled_up(&writer, bytes);
}

/* A sample on TIN: a rise, the clock that takes it, and a fall. */
static void sample(struct writer *writer)
{
    writer_pin(writer, MODEL_PIN_TIN, 1);
    writer_clocks(writer, 1);
    writer_pin(writer, MODEL_PIN_TIN, 0);
}

#define SAMPLE_BITS (2 * MODEL_PIN_BITS + MODEL_CLOCKS_BITS)

/* Samples counted directly, source 11, and from the middle on through the prescaler, source 10. */
static void sample_list(struct generate_list *list, size_t bytes)
{
    struct writer writer = begin(list);

    writer_pin(&writer, MODEL_PIN_TIN, 0);
    writer_write(&writer, MODEL_PRELOAD_LOW, 3);
    writer_write(&writer, MODEL_TCR, 0x07);
    while (writer_fits(&writer, SAMPLE_BITS, bytes / 2)) {
        sample(&writer);
    }
    writer_write(&writer, MODEL_TCR, 0x05);
    while (writer_fits(&writer, SAMPLE_BITS, bytes)) {
        sample(&writer);
    }
    list->size = filled_up(&writer, bytes);
}

/* Thirty-two bytes: set up, a few transfers and reads, and some clocks of the timer. */
static void short_list(struct generate_random *random, struct generate_list *list)
{
    struct writer writer = begin(list);

    writer_write(&writer, MODEL_PRELOAD_LOW, generate_below(random, 4));
    writer_write(&writer, MODEL_TCR, 0x01);
    writer_write(&writer, MODEL_PGCR, 0x30);
    writer_clocks(&writer, 1 + generate_below(random, 16));
    while (writer_fits(&writer, MODEL_WRITE_BITS, SHORT_SIZE)) {
        unsigned pin = generate_below(random, MODEL_PINS);

        switch (generate_below(random, 3)) {
        case 0:
            writer_write(&writer, MODEL_DATA_B, generate_below(random, 256));
            break;
        case 1:
            writer_read(&writer, generate_below(random, MODEL_REGISTERS));
            break;
        default:
            writer_pin(&writer, pin, generate_below(random, 2));
            break;
        }
    }
    list->size = filled_up(&writer, SHORT_SIZE);
}

/* ---- Rows ---- */

static void begin_work(void)
{
    work.model_portion = 1;
    work.lists = 1;
    (void)pit_fresh(work.device, PIT_DEVICE_SIZE);
}

/* A device with the timer running on the clock from this preload. */
static void timer_device(uint32_t preload)
{
    begin_work();
    (void)pit_write(work.device, PIT_DEVICE_SIZE, MODEL_PRELOAD_HIGH, (uint8_t)(preload >> 16));
    (void)pit_write(work.device, PIT_DEVICE_SIZE, MODEL_PRELOAD_MID, (uint8_t)(preload >> 8));
    (void)pit_write(work.device, PIT_DEVICE_SIZE, MODEL_PRELOAD_LOW, (uint8_t)preload);
    (void)pit_write(work.device, PIT_DEVICE_SIZE, MODEL_TCR, 0x01);
}

/* Clocks events, the model's 64 of them. */
static void many_clocks(unsigned events)
{
    clocks_list(&work.list[0], events);
    clocks_list(&work.part, 64);
    work.model_portion = 64.0 / events;
}

static void row_a(void)
{
    timer_device(0x10000); /* 215 openings */
    many_clocks(CLOCKS_EVENTS_MOST);
}

static void row_b1(void)
{
    timer_device(1);
    clocks_list(&work.list[0], 8);
}

static void row_b2(void)
{
    timer_device(255);
    many_clocks(1024);
}

static struct generate_random traffic(size_t bytes)
{
    struct generate_random random = generate_seeded(68230, 0);

    begin_work();
    traffic_list(&random, &work.list[0], bytes);
    return random;
}

static void row_c(void)
{
    (void)traffic(MODEL_LIST_MOST);
}

static void row_d(void)
{
    begin_work();
    handshake_list(&work.list[0], MODEL_LIST_MOST);
}

/* Its random numbers go on from row c's. */
static void row_e(void)
{
    struct generate_random random = traffic(MODEL_LIST_MOST);
    unsigned number;

    work.lists = SHORT_LISTS;
    for (number = 0; number < SHORT_LISTS; number++) {
        short_list(&random, &work.list[number]);
    }
}

static void row_f(void)
{
    begin_work();
    sample_list(&work.list[0], MODEL_LIST_MOST);
}

static const struct row {
    const char *name;
    const char *what;
    double model_least; /* model / library, by time */
    double anchor_most; /* library / anchor, by instructions where they are counted, else by time */
    void (*make)(void);
} rows[] = {
    {"a", "6,898 clocks events of 65,536; model: 64 of them, scaled", 1000, 2.0, row_a},
    {"b1", "8,192 openings at preload 1 (8 clocks events)", 2, 2.0, row_b1},
    {"b2", "8,192 openings at preload 255 (1,024 events; model: 64, scaled)", 100, 2.0, row_b2},
    {"c", "register and pin traffic, 16,384 bytes", 1 / 1.5, 2.5, row_c},
    {"d", "handshakes, interlocked and pulsed, in and out, 16,384 bytes", 1 / 1.5, 2.5, row_d},
    {"e", "256 lists of 32 bytes, a fresh device each", 1 / 1.5, 2.5, row_e},
    {"f", "a sample clock on TIN, sources 11 and 10, 16,384 bytes", 1, 2.5, row_f},
};

#define ROWS (sizeof rows / sizeof rows[0])

/* ---- Players ---- */

/* What a play makes; entries past those used keep what they held. */
struct result {
    uint32_t refusal;
    uint64_t totals[PIT_TOTALS];
    uint8_t device[PIT_DEVICE_SIZE];
    uint8_t answers[ANSWERS_ROOM];
    uint32_t openings[OPENINGS_ROOM];
};

static void play_with_library(const struct generate_list *list, struct result *result)
{
    memcpy(result->device, work.device, PIT_DEVICE_SIZE);
    result->refusal = pit_play(result->device, PIT_DEVICE_SIZE, list->bytes, list->size, result->answers, ANSWERS_ROOM,
                               result->openings, OPENINGS_ROOM, result->totals, PIT_TOTALS);
}

static void play_with_anchor(const struct generate_list *list, struct result *result)
{
    memcpy(result->device, work.device, PIT_DEVICE_SIZE);
    result->refusal = fast_play(result->device, PIT_DEVICE_SIZE, list->bytes, list->size, result->answers, ANSWERS_ROOM,
                                result->openings, OPENINGS_ROOM, result->totals, PIT_TOTALS);
}

static void play_with_model(const struct generate_list *list, struct result *result)
{
    struct model_device model = model_from_bytes(work.device);
    struct model_totals totals;

    result->refusal = model_play(&model, list->bytes, list->size, result->answers, ANSWERS_ROOM, result->openings,
                                 OPENINGS_ROOM, &totals);
    model_to_bytes(&model, result->device);
    result->totals[PIT_PLACE] = totals.place;
    result->totals[PIT_ANSWERS] = totals.answers;
    result->totals[PIT_OPENINGS] = totals.openings;
    result->totals[PIT_CLOCKS] = totals.clocks;
}

enum who { MODEL, ANCHOR, LIBRARY, PLAYERS };

static const struct {
    const char *name;
    unsigned goes; /* to count instructions; the model takes long */
    void (*play)(const struct generate_list *list, struct result *result);
} players[PLAYERS] = {
    [MODEL] = {"model", 1, play_with_model},
    [ANCHOR] = {"anchor", 10, play_with_anchor},
    [LIBRARY] = {"library", 10, play_with_library},
};

static const struct generate_list *lists_of(enum who who)
{
    return who == MODEL && work.model_portion < 1 ? &work.part : work.list;
}

static void play_once(enum who who)
{
    static struct result result;
    const struct generate_list *list = lists_of(who);
    unsigned number;

    for (number = 0; number < work.lists; number++) {
        players[who].play(&list[number], &result);
    }
}

/* The library against another player, on all lists of that player. */
static void same_results(const char *row, enum who other)
{
    static struct result expected, found;
    const struct generate_list *list = lists_of(other);
    unsigned number;

    for (number = 0; number < work.lists; number++) {
        memset(&expected, 0xA5, sizeof expected);
        memset(&found, 0xA5, sizeof found);
        players[other].play(&list[number], &expected);
        players[LIBRARY].play(&list[number], &found);
        if (found.refusal != 0 || memcmp(&expected, &found, sizeof found) != 0) {
            printf("%s: library and %s differ\n", row, players[other].name);
            differences++;
            return;
        }
    }
}

/* ---- Time ---- */

/* The best time of one go, over rounds of as many goes as fill a round's time. */
struct timing {
    enum who who;
    unsigned goes;
    double best;
};

static void time_round(struct timing *timing)
{
    double begun = measure_seconds();
    double each;
    unsigned go;

    for (go = 0; go < timing->goes; go++) {
        play_once(timing->who);
    }
    each = (measure_seconds() - begun) / timing->goes;
    timing->best = each < timing->best ? each : timing->best;
}

static struct timing begin_timing(enum who who)
{
    struct timing timing = {who, 1, 1e9};

    time_round(&timing);
    if (timing.best < ROUND_SECONDS) {
        timing.goes = 1 + (unsigned)(ROUND_SECONDS / (timing.best + 1e-9));
    }
    return timing;
}

/* Rounds of all players take turns, so that they meet the same load of the machine. */
static void time_players(double *seconds)
{
    struct timing timing[PLAYERS];
    unsigned who, round;

    for (who = 0; who < PLAYERS; who++) {
        timing[who] = begin_timing(who);
    }
    for (round = 0; round < ROUNDS; round++) {
        for (who = 0; who < PLAYERS; who++) {
            time_round(&timing[who]);
        }
    }
    for (who = 0; who < PLAYERS; who++) {
        seconds[who] = timing[who].best;
    }
    seconds[MODEL] /= work.model_portion;
}

/* ---- The tables ---- */

static const char *verdict(bool met, int *missed)
{
    *missed += !met;
    return met ? "met" : "MISSED";
}

static void print_anchor_verdict(const struct row *row, double ratio)
{
    printf(" %8.2f  %s", row->anchor_most, verdict(ratio <= row->anchor_most, &behind_anchor));
    if (ratio <= row->anchor_most && ratio > GOAL) {
        printf(", the goal of %.2f not", GOAL);
    }
}

static void print_times(const struct row *row, bool counted)
{
    double seconds[PLAYERS];
    double ratio;

    row->make();
    same_results(row->name, ANCHOR);
    same_results(row->name, MODEL);
    time_players(seconds);
    ratio = seconds[MODEL] / seconds[LIBRARY];
    printf("%-3s %-64s %13.1f %9.1f %9.1f", row->name, row->what, seconds[MODEL] * 1e6, seconds[ANCHOR] * 1e6,
           seconds[LIBRARY] * 1e6);
    printf(" %10.2f %8.2f  %-6s", ratio, row->model_least, verdict(ratio >= row->model_least, &behind_model));
    ratio = seconds[LIBRARY] / seconds[ANCHOR];
    printf(" %10.2f", ratio);
    if (!counted) {
        print_anchor_verdict(row, ratio);
    }
    printf("\n");
    fflush(stdout);
}

static void print_instructions(const struct row *row, const char *file_name)
{
    double model = measure_counted(file_name, row->name, players[MODEL].name);
    double anchor = measure_counted(file_name, row->name, players[ANCHOR].name);
    double library = measure_counted(file_name, row->name, players[LIBRARY].name);

    row->make(); /* for model_portion */
    printf("%-3s %-64s %13.0f %9.0f %9.0f %10.2f", row->name, row->what, model / work.model_portion, anchor, library,
           library / anchor);
    print_anchor_verdict(row, library / anchor);
    printf("\n");
}

static int print_tables(const char *file_name)
{
    unsigned number;

    printf("%-68s %13s %9s %9s %10s %8s  %-6s %10s%s\n", "time of one go", "model us", "anchor us", "lib. us",
           "model/lib.", "at least", "", "lib./anch.", file_name == NULL ? "  at most" : "");
    for (number = 0; number < ROWS; number++) {
        print_times(&rows[number], file_name != NULL);
    }
    if (file_name != NULL) {
        printf("\n%-68s %13s %9s %9s %10s %8s\n", "instructions of one go", "model", "anchor", "library",
               "lib./anch.", "at most");
        for (number = 0; number < ROWS; number++) {
            print_instructions(&rows[number], file_name);
        }
    }
    printf("\nrows that differ: %d; that miss the model's target: %d; that miss the anchor's: %d\n", differences,
           behind_model, behind_anchor);
    return differences + behind_model + behind_anchor != 0;
}

/* ---- Growth ---- */

static void print_growth(const char *unit, double units)
{
    struct timing timing = begin_timing(LIBRARY);
    unsigned round;

    for (round = 0; round < ROUNDS; round++) {
        time_round(&timing);
    }
    printf("%12.0f %-10s %12.1f us %10.2f ns each\n", units, unit, timing.best * 1e6, timing.best * 1e9 / units);
}

static int print_all_growth(void)
{
    unsigned part;

    for (part = 1; part <= 16; part *= 2) {
        (void)traffic(MODEL_LIST_MOST / 16 * part);
        print_growth("list bytes", (double)work.list[0].size);
    }
    for (part = 1; part <= 8; part *= 2) {
        timer_device(1);
        clocks_list(&work.list[0], part);
        print_growth("openings", 1024.0 * part);
    }
    for (part = 1; part <= 16; part *= 2) {
        timer_device(0xFFFFFF);
        clocks_list(&work.list[0], CLOCKS_EVENTS_MOST * part / 16);
        print_growth("clocks", (double)MODEL_CLOCKS_MOST * (CLOCKS_EVENTS_MOST * part / 16));
    }
    return 0;
}

/* ---- The program ---- */

static int usage(void)
{
    fprintf(stderr, "usage: bench [counted FILE | names | ROW WHO GOES | growth]\n");
    return 2;
}

static int print_names(void)
{
    unsigned number, who;

    for (number = 0; number < ROWS; number++) {
        for (who = 0; who < PLAYERS; who++) {
            printf("%s %s %u\n", rows[number].name, players[who].name, players[who].goes);
        }
    }
    return 0;
}

static int play_row(const char *name, const char *player, unsigned long goes)
{
    unsigned number = 0;
    unsigned who = 0;

    while (number < ROWS && strcmp(rows[number].name, name) != 0) {
        number++;
    }
    while (who < PLAYERS && strcmp(players[who].name, player) != 0) {
        who++;
    }
    if (number == ROWS || who == PLAYERS) {
        return usage();
    }
    rows[number].make();
    while (goes-- > 0) {
        play_once(who);
    }
    return 0;
}

int main(int argument_count, char **arguments)
{
    if (argument_count == 1) {
        return print_tables(NULL);
    }
    if (argument_count == 2 && strcmp(arguments[1], "growth") == 0) {
        return print_all_growth();
    }
    if (argument_count == 2 && strcmp(arguments[1], "names") == 0) {
        return print_names();
    }
    if (argument_count == 3 && strcmp(arguments[1], "counted") == 0) {
        return print_tables(arguments[2]);
    }
    if (argument_count == 4) {
        return play_row(arguments[1], arguments[2], strtoul(arguments[3], NULL, 10));
    }
    return usage();
}
