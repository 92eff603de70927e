#include "repair.h"

#include "pezvoran_format.h"

/* The kind itself, or one that the byte picks. */
static unsigned of_kind(uint8_t byte)
{
    unsigned kinds[PEZVORAN_KIND_PRIM], count = 0;
    if (pezvoran_body_length(byte) != 0)
        return byte;
    for (unsigned kind = 1; kind <= PEZVORAN_KIND_PRIM; kind++)
        if (pezvoran_body_length(kind) != 0)
            kinds[count++] = kind;
    return kinds[byte % count];
}

/* Whether a byte is good as the next of a body of which so many are there. */
static int good(const pezvoran_writer *writer, unsigned kind, const uint8_t *body, size_t there, uint8_t byte)
{
    if (!pezvoran_is_good(writer, pezvoran_fields(kind)[there], byte))
        return 0;
    if (there == 0)
        return !pezvoran_is_declared(writer, kind, byte);
    return kind != PEZVORAN_KIND_VARIABLE || there != 2 || body[1] == PEZVORAN_TOP_LEVEL || byte == PEZVORAN_NO_NAME;
}

/* The byte itself where it is good, else a good one that it picks; -1 where there is none. */
static int good_byte(const pezvoran_writer *writer, unsigned kind, const uint8_t *body, size_t there, uint8_t byte)
{
    if (good(writer, kind, body, there, byte))
        return byte;
    uint8_t all[256];
    unsigned count = 0;
    for (unsigned other = 0; other < 256; other++)
        if (good(writer, kind, body, there, (uint8_t)other))
            all[count++] = (uint8_t)other;
    return count == 0 ? -1 : all[byte % count];
}

size_t record_length(uint8_t kind)
{
    return 1 + pezvoran_body_length(of_kind(kind));
}

size_t repair(const uint8_t *bytes, size_t length, unsigned labels, int whole, uint8_t *file)
{
    pezvoran_writer writer;
    pezvoran_writer_init(&writer, file, length + REPAIR_ADDS, labels);
    size_t at = 0;
    while (at < length) {
        unsigned kind = of_kind(bytes[at++]);
        uint8_t body[LONGEST_RECORD];
        size_t size = 0;
        int byte = 0;
        for (; size < pezvoran_body_length(kind) && byte >= 0; size++, at++) {
            byte = good_byte(&writer, kind, body, size, at < length ? bytes[at] : 0);
            body[size] = (uint8_t)byte;
        }
        if (byte >= 0)
            pezvoran_write(&writer, kind, body, size);
    }
    for (unsigned label = 5; whole && label < labels; label++)
        if (writer.types[label] == PEZVORAN_FUNCTION && !writer.defined[label])
            pezvoran_write_function(&writer, (uint8_t)label, PEZVORAN_NO_VARIABLE, NULL, 0);
    return writer.length;
}
