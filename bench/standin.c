/* The anchor under the names of pit.h, so that tests/compare.c can play it beside the model. */
#define fast_play pit_play
#define fast_fresh pit_fresh
#define fast_valid pit_valid
#define fast_write pit_write
#define fast_read pit_read
#define fast_pin pit_pin
#define fast_clocks pit_clocks
#define fast_reset pit_reset
#define fast_port_acknowledge pit_port_acknowledge
#define fast_timer_acknowledge pit_timer_acknowledge
#define fast_levels pit_levels

#include "pit.h" /* fast.h declares the same once more */

#include "fast.c"
#include "fast_calls.c"
