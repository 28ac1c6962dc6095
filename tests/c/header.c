/* The sizes and offsets of the header's types, as the library has them. Compiled as C11 and as C++. */
#include "flecsq.h"

#include <assert.h>

#define LIES(type, field, at, bytes) \
    static_assert(offsetof(type, field) == (at), #type "." #field " lies elsewhere"); \
    static_assert(sizeof(((type *)0)->field) == (bytes), #type "." #field " has another size")

static_assert(sizeof(flecsq) == 16, "a handle has another size");
LIES(flecsq, at, 0, 8);
LIES(flecsq, is_open, 8, 1);

static_assert(sizeof(flecsq_span) == 16, "a span has another size");
LIES(flecsq_span, at, 0, 8);
LIES(flecsq_span, len, 8, 8);

static_assert(sizeof(flecsq_ran) == 24, "what was run has another size");
LIES(flecsq_ran, written, 0, 8);
LIES(flecsq_ran, lines, 8, 8);
LIES(flecsq_ran, refused, 16, 8);

static_assert(sizeof(flecsq_entity) == 8, "an entity has another size");
LIES(flecsq_entity, index, 0, 4);
LIES(flecsq_entity, generation, 4, 2);

static_assert(sizeof(flecsq_table) == 40, "a table has another size");
LIES(flecsq_table, entities, 0, 8);
LIES(flecsq_table, count, 8, 8);
LIES(flecsq_table, serial_low, 16, 8);
LIES(flecsq_table, serial_high, 24, 8);
LIES(flecsq_table, slot, 32, 4);

static_assert(sizeof(flecsq_values) == 24, "values have another size");
LIES(flecsq_values, at, 0, 8);
LIES(flecsq_values, len, 8, 8);
LIES(flecsq_values, size, 16, 8);

flecsq none = FLECSQ_NONE;
