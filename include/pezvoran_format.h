/* Pezvoran for those who write statement files in C: the kinds of records, the lengths of their bodies, and a writer that refuses at the call what the
   operations would refuse. docs/FORMAT.md says what the records mean. All functions are in this header, and nothing has to be linked for them. C99 or later, or
   C++.

       static uint8_t file[PEZVORAN_FILE_BYTES];
       pezvoran_writer writer;
       pezvoran_writer_init(&writer, file, sizeof file, PEZVORAN_LABELS);
       unsigned refusal = pezvoran_write_label(&writer, 5, PEZVORAN_PLAIN, 0);
       if (refusal == 0)
           refusal = pezvoran_write_forbid(&writer, 5);
       if (refusal == 0)
           refusal = pezvoran_writer_finish(&writer);
       if (refusal != 0)
           puts(pezvoran_writer_text(refusal));
       else
           answer = verdict(file, writer.length, table, PEZVORAN_TABLE_WORDS); */
#ifndef PEZVORAN_FORMAT_H
#define PEZVORAN_FORMAT_H

#include "pezvoran.h"

#include <string.h>

#ifdef __cplusplus
extern "C" {
#endif

/* ---- kinds */

typedef enum {
    PEZVORAN_KIND_NAME = 1,
    PEZVORAN_KIND_LABEL = 2,
    PEZVORAN_KIND_FORBID = 3,
    PEZVORAN_KIND_FUNCTION = 4,
    PEZVORAN_KIND_VARIABLE = 5,
    PEZVORAN_KIND_GRANT = 6,
    PEZVORAN_KIND_PROPERTY = 7,
    PEZVORAN_KIND_HELD = 8,
    PEZVORAN_KIND_PROFILE = 9,
    PEZVORAN_KIND_COPY = 16,
    PEZVORAN_KIND_LOAD = 17,
    PEZVORAN_KIND_STORE = 18,
    PEZVORAN_KIND_MAKE = 19,
    PEZVORAN_KIND_MAKE_FUNCTION = 20,
    PEZVORAN_KIND_CALL = 21,
    PEZVORAN_KIND_NEW = 22,
    PEZVORAN_KIND_RETURN = 23,
    PEZVORAN_KIND_THROW = 24,
    PEZVORAN_KIND_CATCH = 25,
    PEZVORAN_KIND_PRIM = 26
} pezvoran_kind;

/* The name of a kind. */
static inline const char *pezvoran_kind_text(unsigned kind)
{
    switch (kind) {
    case PEZVORAN_KIND_NAME: return "name";
    case PEZVORAN_KIND_LABEL: return "label";
    case PEZVORAN_KIND_FORBID: return "forbid";
    case PEZVORAN_KIND_FUNCTION: return "function";
    case PEZVORAN_KIND_VARIABLE: return "variable";
    case PEZVORAN_KIND_GRANT: return "grant";
    case PEZVORAN_KIND_PROPERTY: return "property";
    case PEZVORAN_KIND_HELD: return "held";
    case PEZVORAN_KIND_PROFILE: return "profile";
    case PEZVORAN_KIND_COPY: return "copy";
    case PEZVORAN_KIND_LOAD: return "load";
    case PEZVORAN_KIND_STORE: return "store";
    case PEZVORAN_KIND_MAKE: return "make";
    case PEZVORAN_KIND_MAKE_FUNCTION: return "make function";
    case PEZVORAN_KIND_CALL: return "call";
    case PEZVORAN_KIND_NEW: return "new";
    case PEZVORAN_KIND_RETURN: return "return";
    case PEZVORAN_KIND_THROW: return "throw";
    case PEZVORAN_KIND_CATCH: return "catch";
    case PEZVORAN_KIND_PRIM: return "prim";
    default: return "no kind has this number";
    }
}

/* The fields of a kind, from the left, as a letter for what each byte may be; empty where there is no such kind. */
static inline const char *pezvoran_fields(unsigned kind)
{
    switch (kind) {
    case PEZVORAN_KIND_NAME: return "nm";
    case PEZVORAN_KIND_LABEL: return "Ltb";
    case PEZVORAN_KIND_FORBID: return "a";
    case PEZVORAN_KIND_FUNCTION: return "fvvvvvvv";
    case PEZVORAN_KIND_VARIABLE: return "Vso";
    case PEZVORAN_KIND_GRANT: return "g";
    case PEZVORAN_KIND_PROPERTY: return "hnh";
    case PEZVORAN_KIND_HELD: return "gh";
    case PEZVORAN_KIND_PROFILE: return "c";
    case PEZVORAN_KIND_COPY: return "svv";
    case PEZVORAN_KIND_LOAD: return "svvkp";
    case PEZVORAN_KIND_STORE: return "svkv";
    case PEZVORAN_KIND_MAKE: return "svd";
    case PEZVORAN_KIND_MAKE_FUNCTION: return "svfp";
    case PEZVORAN_KIND_CALL: return "svvvvvvvvv";
    case PEZVORAN_KIND_NEW: return "svvwpvvvvvv";
    case PEZVORAN_KIND_RETURN: return "sv";
    case PEZVORAN_KIND_THROW: return "sv";
    case PEZVORAN_KIND_CATCH: return "sv";
    case PEZVORAN_KIND_PRIM: return "sv";
    default: return "";
    }
}

/* The bytes of the longest body. */
enum { PEZVORAN_BODY_BYTES = 11 };

/* The bytes of a body, 0 where there is no such kind. */
static inline size_t pezvoran_body_length(unsigned kind)
{
    return strlen(pezvoran_fields(kind));
}

/* ---- numbers */

enum {
    PEZVORAN_PLAIN = 1, /* types of labels */
    PEZVORAN_FUNCTION = 2,
    PEZVORAN_ARRAY = 3,

    PEZVORAN_TOP_LEVEL = 0, /* the scope of what stands in no function */
    PEZVORAN_NO_VARIABLE = 0,
    PEZVORAN_NO_NAME = 255, /* of a variable */

    PEZVORAN_CLASSES = 8,       /* of names, from 0 to 7 */
    PEZVORAN_CLASS_KEY = 128,   /* and c: all names of class c; see pezvoran_class_key */
    PEZVORAN_OUTSIDE_KEY = 136, /* and c: all names outside class c; see pezvoran_outside_key */
    PEZVORAN_NO_KEY = 255       /* refused 5 wherever a key stands */
};

/* The key of all names of a class; PEZVORAN_NO_KEY where there is no such class. */
static inline unsigned pezvoran_class_key(unsigned name_class)
{
    return name_class < PEZVORAN_CLASSES ? PEZVORAN_CLASS_KEY + name_class : (unsigned)PEZVORAN_NO_KEY;
}

/* The key of all names outside a class; PEZVORAN_NO_KEY where there is no such class. */
static inline unsigned pezvoran_outside_key(unsigned name_class)
{
    return name_class < PEZVORAN_CLASSES ? PEZVORAN_OUTSIDE_KEY + name_class : (unsigned)PEZVORAN_NO_KEY;
}

/* ---- the writer */

/* What was written, and what it declares. Only `file`, `length` and `field` are for callers to read. */
typedef struct {
    uint8_t *file;
    size_t length; /* of what was written */
    size_t field;  /* after a refusal from 3 to 6: the byte of the body that it is about, from 0 */
    size_t capacity, labels;
    uint8_t types[PEZVORAN_LARGE_LABELS];   /* of each label, 0 where it is not declared */
    uint8_t defined[PEZVORAN_LARGE_LABELS]; /* 1 where a label has its function record */
    uint8_t owners[PEZVORAN_VARIABLES];     /* of each variable, 1 where it is not declared */
    uint8_t masked[PEZVORAN_NAMES];         /* 1 where a name has its record */
    uint8_t profiled;                       /* 1 where there is a profile */
} pezvoran_writer;

/* What the writer answers where the record is good and the buffer has no room for it. No refusal has this number. */
enum { PEZVORAN_NO_ROOM = 32 };

/* A writer of an empty file, in a buffer of `capacity` bytes, of which PEZVORAN_FILE_BYTES are always enough. `labels` is PEZVORAN_LABELS or
   PEZVORAN_LARGE_LABELS: the edition. Any other number is taken for PEZVORAN_LABELS. */
static inline void pezvoran_writer_init(pezvoran_writer *writer, uint8_t *buffer, size_t capacity, size_t labels)
{
    memset(writer, 0, sizeof *writer);
    writer->file = buffer;
    writer->capacity = capacity;
    writer->labels = labels == PEZVORAN_LARGE_LABELS ? PEZVORAN_LARGE_LABELS : PEZVORAN_LABELS;
    memset(writer->types, PEZVORAN_PLAIN, 5);
    writer->types[3] = PEZVORAN_FUNCTION;
    memset(writer->owners, 1, sizeof writer->owners);
}

/* Whether a value is good in a field with this letter. One above 255 is good nowhere. */
static inline int pezvoran_is_good(const pezvoran_writer *writer, char field, unsigned value)
{
    if (value > UINT8_MAX)
        return 0;
    uint8_t byte = (uint8_t)value;
    unsigned type = byte >= 5 ? writer->types[byte] : 0;
    int known = writer->owners[byte] != 1;
    switch (field) {
    case 'n': return byte < PEZVORAN_NAMES;                                    /* a name */
    case 'm': return byte % 2 == 1;                                            /* a class mask */
    case 'L': return byte >= 5 && byte < writer->labels;                       /* a label to declare */
    case 't': return byte >= PEZVORAN_PLAIN && byte <= PEZVORAN_ARRAY;         /* a type */
    case 'b': return byte <= 1;                                                /* whether it is built-in */
    case 'a': return writer->types[byte] != 0;                                 /* a declared label */
    case 'h': return writer->types[byte] != 0 && byte != 3;                    /* a declared label of the host */
    case 'f': return type == PEZVORAN_FUNCTION;                                /* a function label, from 5 up */
    case 'p': return type == PEZVORAN_PLAIN;                                   /* a plain label, from 5 up */
    case 'd': return type == PEZVORAN_PLAIN || type == PEZVORAN_ARRAY;         /* a plain or array label, from 5 up */
    case 's': return type == PEZVORAN_FUNCTION || byte == PEZVORAN_TOP_LEVEL;  /* a scope */
    case 'V': return byte >= 2;                                                /* a variable to declare */
    case 'v': return known || byte == PEZVORAN_NO_VARIABLE;                    /* a declared variable or none */
    case 'w': return known;                                                    /* a declared variable */
    case 'g': return writer->owners[byte] == PEZVORAN_TOP_LEVEL;               /* a declared variable of the top level */
    case 'o': return byte < PEZVORAN_NAMES || byte == PEZVORAN_NO_NAME;        /* a name or none */
    case 'c': return byte < PEZVORAN_CLASSES;                                  /* a class of names */
    case 'k': return byte < PEZVORAN_NAMES || (byte >= PEZVORAN_CLASS_KEY && byte < PEZVORAN_OUTSIDE_KEY + PEZVORAN_CLASSES); /* a key */
    default: return 0;
    }
}

/* The refusal of a value that is not good there. */
static inline unsigned pezvoran_refusal_of(char field)
{
    if (strchr("Vvwg", field) != NULL)
        return PEZVORAN_BAD_VARIABLE;
    return strchr("Lahfpds", field) != NULL ? PEZVORAN_BAD_LABEL : PEZVORAN_BAD_VALUE;
}

/* Whether an earlier record declares what this one does. */
static inline int pezvoran_is_declared(const pezvoran_writer *writer, unsigned kind, unsigned number)
{
    switch (kind) {
    case PEZVORAN_KIND_NAME: return writer->masked[number];
    case PEZVORAN_KIND_LABEL: return writer->types[number] != 0;
    case PEZVORAN_KIND_FUNCTION: return writer->defined[number];
    case PEZVORAN_KIND_VARIABLE: return writer->owners[number] != 1;
    case PEZVORAN_KIND_PROFILE: return writer->profiled;
    default: return 0;
    }
}

/* The refusal of a record that would come next, 0 where there is none: 9 for a file too long, then 1, 2, the first bad value from the left, and 6 last. */
static inline unsigned pezvoran_judge(pezvoran_writer *writer, unsigned kind, const unsigned *body, size_t length)
{
    const char *fields = pezvoran_fields(kind);
    if (length >= PEZVORAN_FILE_BYTES - writer->length)
        return PEZVORAN_FILE_TOO_LONG;
    if (fields[0] == '\0')
        return PEZVORAN_UNKNOWN_KIND;
    if (length != strlen(fields))
        return PEZVORAN_RECORD_CUT_SHORT;
    for (writer->field = 0; writer->field < length; writer->field++)
        if (!pezvoran_is_good(writer, fields[writer->field], body[writer->field]))
            return pezvoran_refusal_of(fields[writer->field]);
    writer->field = 2;
    if (kind == PEZVORAN_KIND_VARIABLE && body[1] != PEZVORAN_TOP_LEVEL && body[2] != PEZVORAN_NO_NAME)
        return PEZVORAN_BAD_VALUE;
    writer->field = 0;
    return pezvoran_is_declared(writer, kind, body[0]) ? PEZVORAN_DECLARED_TWICE : 0;
}

/* Notes what a good record declares. */
static inline void pezvoran_declare(pezvoran_writer *writer, unsigned kind, const unsigned *body)
{
    switch (kind) {
    case PEZVORAN_KIND_NAME: writer->masked[body[0]] = 1; break;
    case PEZVORAN_KIND_LABEL: writer->types[body[0]] = (uint8_t)body[1]; break;
    case PEZVORAN_KIND_FUNCTION: writer->defined[body[0]] = 1; break;
    case PEZVORAN_KIND_VARIABLE: writer->owners[body[0]] = (uint8_t)body[1]; break;
    case PEZVORAN_KIND_PROFILE: writer->profiled = 1; break;
    default: break;
    }
}

/* Writes any record by its kind and the values of its fields: 0 where it was written, else the refusal with which the operations would answer the file with it,
   or PEZVORAN_NO_ROOM; nothing is written then. A value above 255, for which a file has no byte, is refused as any other that is bad in its field: 3, 4 or 5.
   Values that are not as many as the kind has fields are refused 2. */
static inline unsigned pezvoran_write_values(pezvoran_writer *writer, unsigned kind, const unsigned *values, size_t count)
{
    unsigned refusal = pezvoran_judge(writer, kind, values, count);
    if (refusal != 0)
        return refusal;
    if (count >= writer->capacity - writer->length)
        return PEZVORAN_NO_ROOM;
    pezvoran_declare(writer, kind, values);
    writer->file[writer->length++] = (uint8_t)kind;
    for (size_t i = 0; i < count; i++)
        writer->file[writer->length++] = (uint8_t)values[i];
    return 0;
}

/* The same by the bytes of a body. */
static inline unsigned pezvoran_write(pezvoran_writer *writer, unsigned kind, const uint8_t *body, size_t length)
{
    unsigned values[PEZVORAN_BODY_BYTES] = {0};
    for (size_t i = 0; i < length && i < PEZVORAN_BODY_BYTES; i++)
        values[i] = body[i];
    return pezvoran_write_values(writer, kind, values, length);
}

/* The end of the file: 0, or 7 where a function label has no function record. */
static inline unsigned pezvoran_writer_finish(const pezvoran_writer *writer)
{
    for (size_t label = 5; label < writer->labels; label++)
        if (writer->types[label] == PEZVORAN_FUNCTION && !writer->defined[label])
            return PEZVORAN_FUNCTION_MISSING;
    return 0;
}

/* A line of plain words for what the writer answers. */
static inline const char *pezvoran_writer_text(unsigned answer)
{
    return answer == PEZVORAN_NO_ROOM ? "the buffer has no room for the record" : pezvoran_refusal_text(answer);
}

/* ---- a call for each kind; the fields are those of docs/FORMAT.md. Numbers are taken whole, so that none is cut down to a byte on the way. */

static inline unsigned pezvoran_write_name(pezvoran_writer *writer, unsigned name, unsigned mask)
{
    const unsigned values[] = {name, mask};
    return pezvoran_write_values(writer, PEZVORAN_KIND_NAME, values, sizeof values / sizeof values[0]);
}

static inline unsigned pezvoran_write_label(pezvoran_writer *writer, unsigned label, unsigned type, unsigned built_in)
{
    const unsigned values[] = {label, type, built_in};
    return pezvoran_write_values(writer, PEZVORAN_KIND_LABEL, values, sizeof values / sizeof values[0]);
}

static inline unsigned pezvoran_write_forbid(pezvoran_writer *writer, unsigned label)
{
    return pezvoran_write_values(writer, PEZVORAN_KIND_FORBID, &label, 1);
}

/* A record whose body ends with six variables, of which `count` are given and the others are none; more than six are refused 2. */
static inline unsigned pezvoran_write_six(pezvoran_writer *writer, unsigned kind, const unsigned *first, const unsigned *variables, size_t count)
{
    unsigned values[PEZVORAN_BODY_BYTES] = {0};
    size_t length = pezvoran_body_length(kind);
    if (count > 6)
        return pezvoran_write_values(writer, kind, values, length + 1);
    memcpy(values, first, (length - 6) * sizeof *first);
    if (count > 0)
        memcpy(values + length - 6, variables, count * sizeof *variables);
    return pezvoran_write_values(writer, kind, values, length);
}

static inline unsigned pezvoran_write_function(pezvoran_writer *writer, unsigned label, unsigned this_variable, const unsigned *formals, size_t count)
{
    const unsigned first[] = {label, this_variable};
    return pezvoran_write_six(writer, PEZVORAN_KIND_FUNCTION, first, formals, count);
}

static inline unsigned pezvoran_write_variable(pezvoran_writer *writer, unsigned variable, unsigned owner, unsigned name)
{
    const unsigned values[] = {variable, owner, name};
    return pezvoran_write_values(writer, PEZVORAN_KIND_VARIABLE, values, sizeof values / sizeof values[0]);
}

static inline unsigned pezvoran_write_grant(pezvoran_writer *writer, unsigned variable)
{
    return pezvoran_write_values(writer, PEZVORAN_KIND_GRANT, &variable, 1);
}

static inline unsigned pezvoran_write_property(pezvoran_writer *writer, unsigned label, unsigned name, unsigned to)
{
    const unsigned values[] = {label, name, to};
    return pezvoran_write_values(writer, PEZVORAN_KIND_PROPERTY, values, sizeof values / sizeof values[0]);
}

static inline unsigned pezvoran_write_held(pezvoran_writer *writer, unsigned variable, unsigned label)
{
    const unsigned values[] = {variable, label};
    return pezvoran_write_values(writer, PEZVORAN_KIND_HELD, values, sizeof values / sizeof values[0]);
}

static inline unsigned pezvoran_write_profile(pezvoran_writer *writer, unsigned name_class)
{
    return pezvoran_write_values(writer, PEZVORAN_KIND_PROFILE, &name_class, 1);
}

static inline unsigned pezvoran_write_copy(pezvoran_writer *writer, unsigned scope, unsigned y, unsigned source)
{
    const unsigned values[] = {scope, y, source};
    return pezvoran_write_values(writer, PEZVORAN_KIND_COPY, values, sizeof values / sizeof values[0]);
}

static inline unsigned pezvoran_write_load(pezvoran_writer *writer, unsigned scope, unsigned y, unsigned object, unsigned key, unsigned wrapper)
{
    const unsigned values[] = {scope, y, object, key, wrapper};
    return pezvoran_write_values(writer, PEZVORAN_KIND_LOAD, values, sizeof values / sizeof values[0]);
}

static inline unsigned pezvoran_write_store(pezvoran_writer *writer, unsigned scope, unsigned object, unsigned key, unsigned value)
{
    const unsigned values[] = {scope, object, key, value};
    return pezvoran_write_values(writer, PEZVORAN_KIND_STORE, values, sizeof values / sizeof values[0]);
}

static inline unsigned pezvoran_write_make(pezvoran_writer *writer, unsigned scope, unsigned y, unsigned label)
{
    const unsigned values[] = {scope, y, label};
    return pezvoran_write_values(writer, PEZVORAN_KIND_MAKE, values, sizeof values / sizeof values[0]);
}

static inline unsigned pezvoran_write_make_function(pezvoran_writer *writer, unsigned scope, unsigned y, unsigned label, unsigned prototype)
{
    const unsigned values[] = {scope, y, label, prototype};
    return pezvoran_write_values(writer, PEZVORAN_KIND_MAKE_FUNCTION, values, sizeof values / sizeof values[0]);
}

static inline unsigned pezvoran_write_call(pezvoran_writer *writer, unsigned scope, unsigned y, unsigned callee, unsigned this_variable,
                                           const unsigned *arguments, size_t count)
{
    const unsigned first[] = {scope, y, callee, this_variable};
    return pezvoran_write_six(writer, PEZVORAN_KIND_CALL, first, arguments, count);
}

static inline unsigned pezvoran_write_new(pezvoran_writer *writer, unsigned scope, unsigned y, unsigned callee, unsigned t, unsigned label,
                                          const unsigned *arguments, size_t count)
{
    const unsigned first[] = {scope, y, callee, t, label};
    return pezvoran_write_six(writer, PEZVORAN_KIND_NEW, first, arguments, count);
}

static inline unsigned pezvoran_write_return(pezvoran_writer *writer, unsigned scope, unsigned value)
{
    const unsigned values[] = {scope, value};
    return pezvoran_write_values(writer, PEZVORAN_KIND_RETURN, values, sizeof values / sizeof values[0]);
}

static inline unsigned pezvoran_write_throw(pezvoran_writer *writer, unsigned scope, unsigned value)
{
    const unsigned values[] = {scope, value};
    return pezvoran_write_values(writer, PEZVORAN_KIND_THROW, values, sizeof values / sizeof values[0]);
}

static inline unsigned pezvoran_write_catch(pezvoran_writer *writer, unsigned scope, unsigned y)
{
    const unsigned values[] = {scope, y};
    return pezvoran_write_values(writer, PEZVORAN_KIND_CATCH, values, sizeof values / sizeof values[0]);
}

static inline unsigned pezvoran_write_prim(pezvoran_writer *writer, unsigned scope, unsigned object)
{
    const unsigned values[] = {scope, object};
    return pezvoran_write_values(writer, PEZVORAN_KIND_PRIM, values, sizeof values / sizeof values[0]);
}

#ifdef __cplusplus
}
#endif

#endif
