/* The fields of a device, a row for each, in the order of the layout in include/pit.h. From these rows come the
 * model's structs, the device from its bytes and back, how many bytes these are, the names in a report, the places of
 * the flags and what devices the generator makes. A new field is a row at the end of MODEL_FIELDS, and its rules in
 * model.c (and in generate.c's arrange_port or construct_timer, where other fields decide what it may be).
 *
 *   FIELD(kind, member, most, name)    a member that this row declares
 *   ELEMENT(kind, place, most, name)   an element of an array that model.h declares
 *   PORT(..)                           all fields of a port
 *
 * A kind is `byte`, `flag` (a byte, 0 or 1; any other value is read as 1) or `number` (four bytes, the least
 * significant first). `most` ends the range from 0 outside of which number 8 of 01 refuses the device, whatever its
 * other fields are. */
#ifndef FIELDS_H
#define FIELDS_H

/* Port A with H1 and H2, or port B with H3 and H4, whose members are named for H1 and H2 too. `port` is what stands
 * before a member to make it a place in the device, `of` what stands before its name. */
#define MODEL_PORT_FIELDS(FIELD, port, of, h1, h2)                                                                   \
    FIELD(byte, port direction, 0xFF, of "direction")                                                                \
    FIELD(byte, port control, 0xFF, of "control")                                                                    \
    FIELD(byte, port final, 0xFF, of "final latch")                                                                  \
    FIELD(byte, port initial, 0xFF, of "initial latch")                                                              \
    FIELD(byte, port oldest, 0xFF, of "oldest input byte")                                                           \
    FIELD(byte, port second, 0xFF, of "second input byte")                                                           \
    FIELD(byte, port held, 2, of "bytes held") /* input bytes in submode 00, full output latches in 01 */            \
    FIELD(byte, port last_read, 0xFF, of "last byte read")                                                           \
    FIELD(byte, port wait, 4, of h2 " wait")                                                                         \
    FIELD(byte, port pulse, 4, of h2 " pulse")                                                                       \
    FIELD(flag, port asserted, 1, of h2 " asserted") /* under 110 */                                                 \
    FIELD(flag, port h1_edge, 1, of h1 " edge flag")                                                                 \
    FIELD(flag, port h2_edge, 1, of h2 " edge flag")

#define MODEL_FIELDS(FIELD, ELEMENT, PORT)                                                                           \
    FIELD(byte, pgcr, 0xFF, "PGCR")                                                                                  \
    FIELD(byte, psrr, 0x7F, "PSRR")                                                                                  \
    FIELD(byte, pivr, 0xFF, "PIVR")                                                                                  \
    PORT(ELEMENT, port[0]., "port A ", "H1", "H2")                                                                   \
    PORT(ELEMENT, port[1]., "port B ", "H3", "H4")                                                                   \
    FIELD(byte, c_direction, 0xFF, "direction C")                                                                    \
    FIELD(byte, c_latch, 0xFF, "latch C")                                                                            \
    FIELD(byte, tcr, 0xFF, "TCR")                                                                                    \
    FIELD(byte, tivr, 0xFF, "TIVR")                                                                                  \
    FIELD(number, preload, 0xFFFFFF, "preload")                                                                      \
    FIELD(number, count, 0xFFFFFF, "count")                                                                          \
    FIELD(byte, prescaler, 31, "prescaler")                                                                          \
    FIELD(flag, zds, 1, "ZDS")                                                                                       \
    FIELD(flag, square_high, 1, "square wave is high")                                                               \
    FIELD(flag, load_due, 1, "a load is due")                                                                        \
    ELEMENT(byte, outside[0], 0xFF, "outside PA")                                                                    \
    ELEMENT(byte, outside[1], 0xFF, "outside PB")                                                                    \
    ELEMENT(byte, outside[2], 0xFF, "outside PC")                                                                    \
    ELEMENT(flag, outside_hand[0], 1, "outside H1")                                                                  \
    ELEMENT(flag, outside_hand[1], 1, "outside H2")                                                                  \
    ELEMENT(flag, outside_hand[2], 1, "outside H3")                                                                  \
    ELEMENT(flag, outside_hand[3], 1, "outside H4")                                                                  \
    FIELD(flag, rise_held, 1, "a rise of TIN is held")

/* Every field of the layout, as ROW(kind, place in struct model_device, most, name). */
#define MODEL_LAYOUT(ROW) MODEL_FIELDS(ROW, ROW, MODEL_PORT_FIELDS)

/* The members that the rows declare, as ROW(kind, member, most, name). */
#define MODEL_MEMBERS(ROW) MODEL_FIELDS(ROW, MODEL_NO_FIELD, MODEL_NO_FIELD)
#define MODEL_PORT_MEMBERS(ROW) MODEL_PORT_FIELDS(ROW, , "", "", "")
#define MODEL_NO_FIELD(...)

#endif
