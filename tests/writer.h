/* Writes event lists: bit-packed fields, most significant first, from the top bit of byte 0 (01, The event list). The
 * only place in the tests and benchmarks that knows how an event is packed; the model takes them apart. */
#ifndef WRITER_H
#define WRITER_H

#include "model/model.h"

/* Writing may begin inside a byte; the rest of that byte is then 0 beforehand. */
struct writer {
    uint8_t *bytes;
    size_t bits; /* written so far */
};

static inline void writer_put(struct writer *writer, uint32_t value, unsigned width)
{
    while (width-- > 0) {
        uint8_t *byte = &writer->bytes[writer->bits / 8];
        unsigned shift = 7 - (unsigned)(writer->bits % 8);

        *byte = (uint8_t)((shift == 7 ? 0 : *byte) | (value >> width & 1u) << shift);
        writer->bits++;
    }
}

static inline void writer_write(struct writer *writer, unsigned number, uint8_t value)
{
    writer_put(writer, MODEL_WRITE, 3);
    writer_put(writer, number, 5);
    writer_put(writer, value, 8);
}

static inline void writer_read(struct writer *writer, unsigned number)
{
    writer_put(writer, MODEL_READ, 3);
    writer_put(writer, number, 5);
}

static inline void writer_pin(struct writer *writer, unsigned pin, bool level)
{
    writer_put(writer, MODEL_PIN, 3);
    writer_put(writer, pin, 5);
    writer_put(writer, level, 1);
}

/* 1 to 65,536 clocks. */
static inline void writer_clocks(struct writer *writer, uint32_t clocks)
{
    writer_put(writer, MODEL_CLOCKS, 3);
    writer_put(writer, clocks - 1, 16);
}

/* An event without fields: an acknowledge or a reset. */
static inline void writer_bare(struct writer *writer, enum model_kind kind)
{
    writer_put(writer, kind, 3);
}

/* Writes the end mark, and answers how many bytes the list has; the last one is filled with zeros. */
static inline size_t writer_end(struct writer *writer)
{
    writer_put(writer, MODEL_END, 3);
    return (writer->bits + 7) / 8;
}

/* Whether so many more bits, and the end mark, fit into a list of so many bytes. */
static inline bool writer_fits(const struct writer *writer, unsigned bits, size_t bytes)
{
    return writer->bits + bits + MODEL_BARE_BITS <= 8 * bytes;
}

#endif
