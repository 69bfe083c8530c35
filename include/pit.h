/* pit.h: one MC68230 parallel interface/timer, played from an event list or call by call.
 *
 * The library is libpit_c.a; README.md, 'For firmware', has the commands that build it and link with it.
 *
 *   - It is x86-64 code for the System V calling convention, with no more than SSE2; position-independent. It can't
 *     be linked into programs for other machines, nor called by the convention of 64-bit Windows.
 *   - It is freestanding: it needs no function of the program that it is linked into, no C library and no start-up. It
 *     allocates nothing and prints nothing.
 *   - It has no data, initialised or zeroed, only code and constants. All state is in the device, which the caller
 *     owns, and no pointer is kept after a call. So calls may be made from several threads at once, and one may be
 *     interrupted by another, each with a device and rows of its own.
 *   - No call takes more than PIT_STACK bytes of stack, whatever it is given, and none recurses. As the convention
 *     allows, up to 128 of them lie below the stack pointer: a handler that interrupts a call on the same stack leaves
 *     them alone.
 *   - Time goes with the list's events and with openings, not with the number of clocks.
 *
 * The device is PIT_DEVICE_SIZE bytes, at any address. Every byte string of that size is a device; what
 * number 8 below forbids is refused by pit_play and told by pit_valid, and every other call has a defined answer for
 * it all the same. The buffers of one call must not overlap.
 *
 * A buffer of length 0 is not touched, and may be NULL: a list, answers or a row of openings. A device or totals of
 * length 0 may be NULL too and are answered PIT_WRONG_SIZE. pit_clocks's `opened` is always a place.
 *
 *
 * Version
 *
 * PIT_VERSION is the size of the device. Fields are only ever appended to the layout: a field keeps its place for
 * good, and a later version is a greater number. It moves when a field is added, and with nothing else; so a device
 * that was stored is of the version that its length tells. A call that is handed another size than the library's
 * own answers PIT_WRONG_SIZE: a program that checks what pit_fresh answers also checks that header and library go
 * together.
 *
 *
 * Layout of the device, a byte each unless stated
 *
 *    0  PGCR        1  PSRR        2  PIVR
 *    3  port A: direction          16  port B: direction
 *    4          control (PACR)     17          control (PBCR)
 *    5          final latch        18          final latch
 *    6          initial latch      19          initial latch
 *    7          oldest input byte  20          oldest input byte
 *    8          second input byte  21          second input byte
 *    9          bytes held, 0-2    22          bytes held, 0-2
 *   10          last byte read     23          last byte read
 *   11          H2 wait, clocks    24          H4 wait, clocks
 *   12          H2 pulse, clocks   25          H4 pulse, clocks
 *   13          H2 asserted (110)  26          H4 asserted (110)
 *   14          H1 edge flag       27          H3 edge flag
 *   15          H2 edge flag       28          H4 edge flag
 *   29  port C: direction          30  port C: latch
 *   31  TCR                        32  TIVR
 *   33-36  preload, least significant byte first
 *   37-40  count, least significant byte first
 *   41  prescaler                  42  ZDS
 *   43  square wave is high        44  a load is due
 *   45-47  outside levels of PA, PB, PC, bit n for pin n
 *   48-51  outside levels of H1, H2, H3, H4, a flag each
 *   52  a rise of TIN is held
 *
 * The flags are bytes 13, 14, 15, 26, 27, 28, 42, 43, 44 and 48 to 52. A flag is 0 or 1; any other value is read as
 * 1. A call that may change the device (one that takes it without const) and answers neither a refusal nor
 * PIT_WRONG_SIZE writes each flag back as 0 or 1: it makes 1 of a flag of 2 to 255, also where nothing else happens.
 * Nothing else is normalised: values out of range stay as they are until something happens to the field.
 *
 *
 * The event list
 *
 * Fields follow each other bit by bit, each with its most significant bit first, from the top bit of byte 0; nothing
 * is aligned. An event is a kind of 3 bits and its fields:
 *
 *   kind                          fields                   bits in all
 *   0  write a register           register 5, value 8      16
 *   1  read a register            register 5               8
 *   2  port acknowledge                                    3
 *   3  timer acknowledge                                   3
 *   4  an outside level at a pin  pin 5, level 1           9
 *   5  clocks                     their number less 1, 16  19
 *   6  reset                                               3
 *   7  end                                                 3
 *
 * The end mark stands last; zero bits fill the byte it ends in, and no byte follows. A list has at most
 * PIT_LIST_MOST bytes, and a clocks event 1 to 65,536 clocks, so all clock numbers of a list fit 32 bits (at most
 * 452,067,328). E0 is the shortest list: no event.
 *
 * Each read and each acknowledge appends two answer bytes, in the order of the events: 1 and the byte that came, or 0
 * and 0 for an acknowledge that the part did not respond to. A read always responds, with 1 and 0 for a register
 * that is none.
 *
 * An opening is the counter's step from 1 to 0, and falls only on a clock. Its number is how many clocks of this list
 * had passed, the one that opened counted in, so the numbers of a list rise strictly. Reset does not turn the number
 * back. The next list's numbers begin anew.
 *
 *
 * A rise of TIN
 *
 * With source 10 or 11 (TCR bits 2-1) and TCR bit 0 set the timer counts rises of TIN, outside levels that change PC2
 * from low to high. A rise is held, and the next clock takes it, as one step however many there were: two rises in one
 * clock period count once. Count, prescaler and ZDS don't move before that clock, and the step goes by the preload and
 * TCR bit 4 as they stand then. A fall doesn't take the rise back, and of many clocks at once the first takes it. A
 * halt (TCR bit 0 cleared), a reset or another source drops it; a write of TCR with the same source and bit 0 set keeps
 * it. While the timer is halted none is held.
 *
 *
 * Refusals of pit_play, and their place in bits from the start of the list
 *
 *   number                        given exactly when                              place
 *   1  PIT_REFUSED_TOO_LONG       the list has more than PIT_LIST_MOST bytes      0
 *   2  PIT_REFUSED_CUT_SHORT      fewer bits remain than the next event needs     that event's first bit
 *   3  PIT_REFUSED_PIN            a pin event names pin 28 to 31                  that event's first bit
 *   4  PIT_REFUSED_FILL           a fill bit after the end mark is 1              the first bit after the end mark
 *   5  PIT_REFUSED_AFTER_END      a byte follows the one with the end's last bit  that byte's first bit
 *   6  PIT_REFUSED_ANSWERS        answers need more bytes than lent, two each     0
 *   7  PIT_REFUSED_OPENINGS       openings outnumber the lent row                 0
 *   8  PIT_REFUSED_DEVICE         the device is one that can't be, see below      0
 *
 * The first that holds is told, in this order: 8; 1; 2 and 3 event by event, 2 before 3 in one event; 4; 5; 6; 7. A
 * list that just stops without an end mark is 2 at 8 times its size.
 *
 * 8: a prescaler over 31; a count or preload over FFFFFF; over two bytes held; an H2 or H4 wait over 4 in submode 00
 * or over 2 in submode 01; a pulse over 4; a wait and a pulse at once; a 1 in PSRR bit 7 or TCR bit 3; a PIVR with bit
 * 1 or 0 set other than 0F; bytes held in a port that isn't enabled in mode 0, submode 00 or 01; an H1 (H3) edge flag
 * in a port that isn't enabled in submode 1X or modes 1 to 3; an H2 (H4) edge flag in one that isn't enabled with H2
 * control 0XX; a wait where the control isn't 110 or 111, a pulse where it isn't 111, an asserted mark where it isn't
 * 110, or any of these in a port that isn't ready (enabled, with room for a byte in submode 00, with a full final
 * latch in 01) or not in mode 0, submode 00 or 01; under 110 a ready port without exactly one of wait and asserted
 * mark; a halted timer (TCR bit 0 clear, or source 01 with PC2's outside level low) whose prescaler isn't 31, with
 * ZDS set, the square wave low, no load due or a rise of TIN held; a rise of TIN held with source 00 or 01. pit_fresh
 * makes no such device, and no call turns another device into one.
 */
#ifndef PIT_H
#define PIT_H

#include <stddef.h>
#include <stdint.h>

#ifdef __cplusplus
extern "C" {
#endif

#define PIT_DEVICE_SIZE 53u
#define PIT_VERSION PIT_DEVICE_SIZE

/* No call takes more bytes of stack, return address and arguments on the stack counted in. */
#define PIT_STACK 2048u

#define PIT_LIST_MOST 16384u /* bytes of a list */

/* What pit_play answers. A later library may have further refusals; these keep their numbers. */
#define PIT_ACCEPTED 0u
#define PIT_REFUSED_TOO_LONG 1u
#define PIT_REFUSED_CUT_SHORT 2u
#define PIT_REFUSED_PIN 3u
#define PIT_REFUSED_FILL 4u
#define PIT_REFUSED_AFTER_END 5u
#define PIT_REFUSED_ANSWERS 6u
#define PIT_REFUSED_OPENINGS 7u
#define PIT_REFUSED_DEVICE 8u

/* What a call answers where a size is not the one it asks for; nothing is then written. */
#define PIT_WRONG_SIZE 0xFFFFFFFFu

/* What an acknowledge answers where the part does not respond. */
#define PIT_SILENT 0x100u

/* The numbers of totals that pit_play hands back. */
#define PIT_PLACE 0    /* a refusal's place, in bits from the start of the list */
#define PIT_ANSWERS 1  /* answer bytes written, two for each read and each acknowledge */
#define PIT_OPENINGS 2 /* opening numbers written */
#define PIT_CLOCKS 3   /* clocks passed */
#define PIT_TOTALS 4u

/* Kinds of events, for whoever writes a list. */
#define PIT_EVENT_WRITE 0u
#define PIT_EVENT_READ 1u
#define PIT_EVENT_PORT_ACKNOWLEDGE 2u
#define PIT_EVENT_TIMER_ACKNOWLEDGE 3u
#define PIT_EVENT_PIN 4u
#define PIT_EVENT_CLOCKS 5u
#define PIT_EVENT_RESET 6u
#define PIT_EVENT_END 7u

/* Registers, by the data sheet's names. All other numbers read 0 and ignore writes. */
#define PIT_PGCR 0u   /* port general control */
#define PIT_PSRR 1u   /* port service request */
#define PIT_PADDR 2u  /* direction of port A, bit n for pin n: 0 input, 1 output */
#define PIT_PBDDR 3u  /* direction of port B */
#define PIT_PCDDR 4u  /* direction of port C */
#define PIT_PIVR 5u   /* port interrupt vector */
#define PIT_PACR 6u   /* port A control */
#define PIT_PBCR 7u   /* port B control */
#define PIT_PADR 8u   /* data A */
#define PIT_PBDR 9u   /* data B */
#define PIT_PAAR 10u  /* alternate A: the pins of port A; ignores writes */
#define PIT_PBAR 11u  /* alternate B; ignores writes */
#define PIT_PCDR 12u  /* data C */
#define PIT_PSR 13u   /* port status */
#define PIT_TCR 16u   /* timer control */
#define PIT_TIVR 17u  /* timer interrupt vector */
#define PIT_CPRH 19u  /* preload, high byte */
#define PIT_CPRM 20u  /* preload, middle byte */
#define PIT_CPRL 21u  /* preload, low byte */
#define PIT_CNTRH 23u /* count, high byte; ignores writes */
#define PIT_CNTRM 24u /* count, middle byte; ignores writes */
#define PIT_CNTRL 25u /* count, low byte; ignores writes */
#define PIT_TSR 26u   /* timer status: bit 0 is ZDS, and writing 1 to it clears it */

/* Pins: n is 0 to 7. */
#define PIT_PA(n) (0u + (n))
#define PIT_PB(n) (8u + (n))
#define PIT_PC(n) (16u + (n))
#define PIT_H1 24u
#define PIT_H2 25u
#define PIT_H3 26u
#define PIT_H4 27u
#define PIT_PINS 28u

/* What pins of port C may carry in its place. */
#define PIT_TIN PIT_PC(2)
#define PIT_TOUT PIT_PC(3)
#define PIT_DMAREQ PIT_PC(4)
#define PIT_PIRQ PIT_PC(5)
#define PIT_PIACK PIT_PC(6)
#define PIT_TIACK PIT_PC(7)

/* Makes a fresh device: 0, or PIT_WRONG_SIZE. Every register is 0 but both vectors, which are 0F; latches, preload
 * and counter are 0, the prescaler 31, no rise is held; PC2's outside level is low, where TIN idles, and every other is
 * high. So a program that runs the timer by TIN's level (source 01), or counts its rises, gives PC2 its level with
 * pit_pin before it enables the timer. What the bytes held before doesn't matter. */
uint32_t pit_fresh(uint8_t *device, size_t device_size);

/* Whether pit_play would take the device: 1, or 0 where it would refuse it with 8; or PIT_WRONG_SIZE. */
uint32_t pit_valid(const uint8_t *device, size_t device_size);

/* Plays a list. It answers
 *   PIT_ACCEPTED, with the new device, the answer bytes, the opening numbers and the totals (place 0); answer bytes
 *     and opening numbers past those used keep what they held;
 *   or a refusal, with its place in the totals, whose others are 0; device, answers and openings are then as they
 *     were to the byte, and no event of the list has happened;
 *   or PIT_WRONG_SIZE where device_size is not PIT_DEVICE_SIZE or totals_count is not PIT_TOTALS; nothing is
 *     written then, the totals neither.
 * A list of n bytes has at most 8 * n / 3 answers, that is 16 * n / 3 answer bytes. */
uint32_t pit_play(uint8_t *device, size_t device_size, const uint8_t *list, size_t list_size,
                  uint8_t *answers, size_t answers_size, uint32_t *openings, size_t openings_count,
                  uint64_t *totals, size_t totals_count);

/* Writes a register: 0, or PIT_WRONG_SIZE. A number that is no register, and all over 31, ignore the write: flags are
 * then written back as 0 or 1 and all other bytes stay. */
uint32_t pit_write(uint8_t *device, size_t device_size, uint8_t number, uint8_t value);

/* Reads a register, with what the read does to the part: its byte, or PIT_WRONG_SIZE. Only reads of data A and B
 * do something; any other writes flags back as 0 or 1, and all other bytes stay. A number that is no register, and all
 * over 31, read 0. */
uint32_t pit_read(uint8_t *device, size_t device_size, uint8_t number);

/* An outside level, 0 or 1 (any other value is 1), comes to a pin: 0, or PIT_WRONG_SIZE. It opens nothing: a rise of
 * TIN takes effect at the next clock. A pin over 27 is none: flags are written back as 0 or 1, and all other bytes
 * stay. */
uint32_t pit_pin(uint8_t *device, size_t device_size, uint8_t pin, uint8_t level);

/* Passes clocks, numbered on from the clocks passed before. Answers 0, with how many of them opened the gate at
 * *opened and their numbers in the row as far as it reaches; entries past them keep what they held. Or a refusal
 * (there is none today) or PIT_WRONG_SIZE, where nothing is written, *opened neither. Clock numbers are taken modulo
 * 2^32. No clocks: flags are written back as 0 or 1, all other bytes stay, and *opened is 0. */
uint32_t pit_clocks(uint8_t *device, size_t device_size, uint32_t clocks, uint32_t passed,
                    uint32_t *openings, size_t openings_count, uint32_t *opened);

/* Resets the part: 0, or PIT_WRONG_SIZE. Control, direction and vector registers, status and handshakes are as in a
 * fresh device, and a held rise of TIN is dropped; data latches, the last byte read, preload, counter and outside
 * levels stay. */
uint32_t pit_reset(uint8_t *device, size_t device_size);

/* Acknowledges a port or timer interrupt, which changes nothing: the vector, PIT_SILENT or PIT_WRONG_SIZE. */
uint32_t pit_port_acknowledge(const uint8_t *device, size_t device_size);
uint32_t pit_timer_acknowledge(const uint8_t *device, size_t device_size);

/* The levels shown at the 28 pins, bit n for pin n; or PIT_WRONG_SIZE. */
uint32_t pit_levels(const uint8_t *device, size_t device_size);

#ifdef __cplusplus
}
#endif

#endif
