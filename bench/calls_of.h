/* The calls that are timed, once for each player: calls.c includes this file for each, with these defined.
 *
 *   HANDLE        a device as the player's calls take it, a pointer
 *   ON(device)    the arguments of a call that name it
 *   MADE(bytes)   a new one, which `free` ends
 *   CALL(name)    the player's pit_name
 *   OF(name)      the player's name for what stands here */

static struct {
    HANDLE plain;
    HANDLE running;
    HANDLE sampling;
    HANDLE interrupting[INTERRUPTING];
} OF(device);

/* Devices as they are at the start, in the place of those that calls have changed. */
static void OF(begin)(void)
{
    unsigned number;

    free(OF(device).plain);
    free(OF(device).running);
    free(OF(device).sampling);
    OF(device).plain = MADE(plain);
    OF(device).running = MADE(running);
    OF(device).sampling = MADE(sampling);
    for (number = 0; number < INTERRUPTING; number++) {
        free(OF(device).interrupting[number]);
        OF(device).interrupting[number] = MADE(interrupting[number]);
    }
}

static uint32_t OF(write)(uint32_t random)
{
    return CALL(write)(ON(OF(device).plain), random & 31, (uint8_t)(random >> 8));
}

static uint32_t OF(read)(uint32_t random)
{
    return CALL(read)(ON(OF(device).plain), random & 31);
}

static uint32_t OF(pin)(uint32_t random)
{
    return CALL(pin)(ON(OF(device).plain), (uint8_t)(random % PIT_PINS), random >> 8 & 1);
}

static uint32_t OF(clock)(uint32_t random)
{
    return random + CALL(clocks)(ON(OF(device).running), 1, 0, openings, OPENINGS, &opened);
}

static uint32_t OF(clocks)(uint32_t random)
{
    return CALL(clocks)(ON(OF(device).plain), 1 + (random & 255), 0, openings, OPENINGS, &opened);
}

static uint32_t OF(levels)(uint32_t random)
{
    return random + CALL(levels)(ON(OF(device).plain));
}

static uint32_t OF(reset)(uint32_t random)
{
    return random + CALL(reset)(ON(OF(device).plain));
}

static uint32_t OF(port_acknowledge)(uint32_t random)
{
    return random + CALL(port_acknowledge)(ON(OF(device).plain));
}

static uint32_t OF(vector)(uint32_t random)
{
    return random + CALL(port_acknowledge)(ON(OF(device).interrupting[random % INTERRUPTING]));
}

static uint32_t OF(timer_acknowledge)(uint32_t random)
{
    return random + CALL(timer_acknowledge)(ON(OF(device).plain));
}

static uint32_t OF(write_data)(uint32_t random)
{
    return CALL(write)(ON(OF(device).plain), PIT_PADR + (random >> 16 & 1), (uint8_t)(random >> 8));
}

static uint32_t OF(read_data)(uint32_t random)
{
    return CALL(read)(ON(OF(device).plain), PIT_PADR + (random >> 16 & 1));
}

static uint32_t OF(h1)(uint32_t random)
{
    static uint8_t level;

    level ^= 1;
    return random + CALL(pin)(ON(OF(device).plain), PIT_H1, level);
}

static uint32_t OF(take)(uint32_t random)
{
    uint32_t sum = CALL(pin)(ON(OF(device).plain), PIT_H1, 0);

    sum += CALL(pin)(ON(OF(device).plain), PIT_H1, 1);
    return random + sum + CALL(read)(ON(OF(device).plain), PIT_PADR);
}

static uint32_t OF(give)(uint32_t random)
{
    uint32_t sum = CALL(write)(ON(OF(device).plain), PIT_PBDR, (uint8_t)random);

    sum += CALL(pin)(ON(OF(device).plain), PIT_H3, 0);
    return random + sum + CALL(pin)(ON(OF(device).plain), PIT_H3, 1);
}

static uint32_t OF(sample)(uint32_t random)
{
    uint32_t sum = CALL(pin)(ON(OF(device).sampling), PIT_TIN, 1);

    sum += CALL(clocks)(ON(OF(device).sampling), 1, 0, openings, OPENINGS, &opened);
    return random + sum + CALL(pin)(ON(OF(device).sampling), PIT_TIN, 0);
}

/* An event of a list by a single call, and a look at the device after it. */
static struct answer OF(answer)(HANDLE device, const struct model_event *event, uint32_t passed)
{
    struct answer answer;

    memset(&answer, 0xA5, sizeof answer);
    switch (event->kind) {
    case MODEL_WRITE:
        answer.value = CALL(write)(ON(device), (uint8_t)event->number, (uint8_t)event->value);
        break;
    case MODEL_READ:
        answer.value = CALL(read)(ON(device), (uint8_t)event->number);
        break;
    case MODEL_PIN:
        answer.value = CALL(pin)(ON(device), (uint8_t)event->number, (uint8_t)event->value);
        break;
    case MODEL_CLOCKS:
        answer.value = CALL(clocks)(ON(device), event->clocks, passed, answer.row, OPENINGS, &answer.opened);
        break;
    case MODEL_RESET:
        answer.value = CALL(reset)(ON(device));
        break;
    default: /* acknowledges come after every event */
        break;
    }
    answer.levels = CALL(levels)(ON(device));
    answer.of_port = CALL(port_acknowledge)(ON(device));
    answer.of_timer = CALL(timer_acknowledge)(ON(device));
    return answer;
}

#undef HANDLE
#undef ON
#undef MADE
#undef CALL
#undef OF
