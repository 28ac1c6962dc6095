/* flecsq for C and C++: worlds of entities, with their queries, as docs/LANGUAGE.md tells their lines.
 *
 *     flecsq world = FLECSQ_NONE;
 *     flecsq_span told;
 *     flecsq_open(low, high, &world);
 *     flecsq_line(&world, (const uint8_t *)"entity Sun", 10);
 *     flecsq_line(&world, (const uint8_t *)"show Sun", 8);
 *     flecsq_output(&world, &told);
 *     printf("%.*s", (int)told.len, (const char *)told.at);
 *     flecsq_close(&world);
 *
 * What a caller owes. None of it is checked, and where it isn't kept anything may happen:
 *
 * - One call at a time with a handle, and all of them on one thread. Each thread may have handles of its own.
 * - A handle begins as FLECSQ_NONE. While it is open it isn't copied, and nothing but these functions touches its fields.
 *   It may be moved, as by a struct that has it, if the old place is never used again.
 * - Bytes that a call takes by a pointer and a length are there, and stay as they are until it has returned. A length of 0 may come with any
 *   pointer. What it writes to (`to`, `output`, and all that is not const) overlaps nothing else that the same call is given.
 * - No call comes from a signal handler, or from the child of a fork in a process with threads.
 * - A thread that calls has 128 KB of stack. (Less than 48 KB were taken by all tests; nothing proves a bound.)
 * - malloc, realloc and free are those of one allocator, and align blocks of 16 bytes and more to 16, as they do on Linux.
 *
 * No function keeps a pointer that it is given. None exits, aborts, prints, locks, starts a thread or throws.
 *
 * Text is bytes with a length. It ends by no zero, and isn't null. A unit of length is a byte.
 *
 * This header is written by hand, and a test compares it with the sources of the library.
 */
#ifndef FLECSQ_H
#define FLECSQ_H

#include <stdbool.h>
#include <stddef.h>
#include <stdint.h>

#ifdef __cplusplus
extern "C" {
#endif

/* A handle: an engine, or none. An engine is a session of its own: a world, its stored queries, and what its lines have printed. */
typedef struct flecsq {
    void *at;
    bool is_open;
} flecsq;

/* What a handle is before `flecsq_open` and after `flecsq_close`. */
#define FLECSQ_NONE {NULL, false}

/* What calls answer. */
enum {
    FLECSQ_OK = 0,
    FLECSQ_REFUSED = 1,   /* the line, command or text was refused, and changed nothing: of a line the output says why */
    FLECSQ_MEMORY = 2,    /* malloc or realloc gave nothing */
    FLECSQ_CLOSED = 3,    /* the handle holds no engine */
    FLECSQ_UNKNOWN = 4,   /* no entity has the name, or a number is that of no entity, id or query */
    FLECSQ_ROOM = 5,      /* the output doesn't fit in the buffer */
    FLECSQ_TOO_LONG = 6,  /* the script has more than 16,777,216 bytes, or the engine has run SIZE_MAX lines */
    FLECSQ_LINE_FEED = 7, /* a line feed stands in the line */
    FLECSQ_NUMBER = 8,    /* more than eight values */
    FLECSQ_STALE = 9,     /* what the query names was deleted, or has other traits now: read the query again */
    FLECSQ_NO_THIS = 10,  /* the query has no `$this` */
    FLECSQ_NOT_TABLED = 11, /* the rows of the query don't come by table */
    FLECSQ_DEAD = 12,     /* the entity isn't alive */
    FLECSQ_GONE = 13,     /* the table isn't there any more */
    FLECSQ_NOT_HELD = 14, /* the table doesn't hold the id, or has no values of it */
    FLECSQ_NO_DATA = 15,  /* the id has no fields */
    FLECSQ_WATCHED = 16,  /* a stored query observes that values of the id are set: set them one by one */
    FLECSQ_BRINGS = 17,   /* setting the id may bring other facts, by With or a mirror: set them one by one */
    FLECSQ_SIZE = 18,     /* the bytes aren't one value for each row */
    FLECSQ_FULL = 19      /* the world has carried out nearly 2^64 commands */
};

/* Bytes that are lent. Nobody frees them. */
typedef struct flecsq_span {
    const uint8_t *at;
    size_t len;
} flecsq_span;

/* Opens an engine, in which no line was run. An engine that the handle holds is closed first.
 *
 * `low` and `high` are sixteen bytes by which names are hashed, so that nobody can choose names that make it slow: take them from getrandom
 * where others write lines. They change no output.
 *
 * Answers OK or MEMORY. After MEMORY the handle holds no engine. */
int32_t flecsq_open(uint64_t low, uint64_t high, flecsq *handle);

/* Closes the engine and frees all that it has, its output too. Does nothing where the handle holds none. */
void flecsq_close(flecsq *handle);

/* Runs a line of a script, without its line feed. What it prints comes after what the output has, each line of it with a line feed. Lines are
 * counted from 1 on, also empty and refused ones.
 *
 * Answers OK, REFUSED, CLOSED, MEMORY, LINE_FEED or TOO_LONG. After REFUSED the world is as it was, and the output ends with the line
 * `error NUMBER REASON`. After CLOSED, LINE_FEED and TOO_LONG nothing was run. After MEMORY the output is as it was; the world may have changed,
 * so all later lines answer MEMORY too: read the output, then close. */
int32_t flecsq_line(flecsq *handle, const uint8_t *line, size_t len);

/* Lends what lines have printed since the output was forgotten: until the next `flecsq_line`, `flecsq_forget`, `flecsq_open` or `flecsq_close`
 * with this handle. It takes the same few instructions for any length.
 *
 * Answers OK or CLOSED, and after CLOSED leaves `out` as it was. */
int32_t flecsq_output(flecsq *handle, flecsq_span *out);

/* Copies the first bytes of the output, as many as there are and `room` has place for, and answers how many. Of no engine these are none. */
size_t flecsq_copy(flecsq *handle, uint8_t *to, size_t room);

/* Forgets the output, and keeps its memory for what comes. A program that runs for long does so after each line, or each frame.
 *
 * Answers OK or CLOSED. */
int32_t flecsq_forget(flecsq *handle);

/* Commands without text. They do what the lines of the same names do, but count as no lines. What monitors and observers tell of them comes after the
 * output, as by a line.
 *
 * An entity is a number: its index, and its generation times 2^32; 0 is none. An id is a number too: that of a component or tag is its index, and
 * that of a pair is made by `flecsq_pair`. Indexes are 1 to 16,777,215.
 *
 * All answer OK, REFUSED, UNKNOWN, CLOSED or MEMORY. After REFUSED, UNKNOWN and CLOSED nothing has changed, and nothing is printed: the line
 * of the same command says why. After MEMORY the output is as it was, and either nothing has changed, or no more lines and commands are
 * run and each answers MEMORY. */

/* The id of a component or tag, by its entity. */
static inline uint64_t flecsq_id(uint64_t entity) { return entity & 0xffffffffu; }

/* The id of a pair, by its entities. */
static inline uint64_t flecsq_pair(uint64_t relationship, uint64_t target) {
    return (uint64_t)1 << 63 | flecsq_id(relationship) << 32 | flecsq_id(target);
}

/* Gives the live entity of a name, which has so many bytes; UNKNOWN where there is none, and then `entity` is as it was. */
int32_t flecsq_find(flecsq *handle, const uint8_t *name, size_t len, uint64_t *entity);

/* Makes an entity without a name, and gives it. Unless it answers OK, `entity` is as it was. */
int32_t flecsq_new(flecsq *handle, uint64_t *entity);

/* Adds an id to an entity, its values zeros, with what traits bring and a base gives. */
int32_t flecsq_add(flecsq *handle, uint64_t entity, uint64_t id);

/* Does what `flecsq_add` does, then gives the fact these values, one for each field of the component in their order. Answers NUMBER, too, where they are
 * more than eight. (A value beyond those of int64_t goes by a line.) */
int32_t flecsq_set(flecsq *handle, uint64_t entity, uint64_t id, const int64_t *values, size_t count);

/* Takes an id from an entity. Where it isn't held nothing changes, and the answer is OK. */
int32_t flecsq_remove(flecsq *handle, uint64_t entity, uint64_t id);

/* Deletes an entity, and what goes with it. */
int32_t flecsq_delete(flecsq *handle, uint64_t entity);

/* Queries, and their rows as data.
 *
 * A query is read once and has a number. While the world changes it is asked as often as wanted, in its tables: all entities with the same ids
 * stand in one table, and for each id with fields the table has a column of values, one for each of its entities, in the same order.
 *
 * What a table and a column point to is lent, and nobody frees it: until the next `flecsq_line`, command (`flecsq_new` to `flecsq_delete`,
 * `flecsq_entity_named`), `flecsq_set_column`, `flecsq_open` or `flecsq_close` with this handle. Nobody writes to it. The calls here print nothing. */

/* An entity in a table. */
typedef struct flecsq_entity {
    uint32_t index;
    uint16_t generation;
} flecsq_entity;

/* The number of an entity in a table, as commands take it. */
static inline uint64_t flecsq_number(flecsq_entity entity) { return (uint64_t)entity.generation << 32 | entity.index; }

/* A table: its entities, one for each row, how many these are, and by which key other calls find it (`serial_low`, `serial_high`, `slot`). A key stays
 * that of this table for ever, and is never that of another one. So a table may be kept for longer than its pointer, and another count may stand there. */
typedef struct flecsq_table {
    const flecsq_entity *entities;
    size_t count;
    uint64_t serial_low;
    uint64_t serial_high;
    uint32_t slot;
} flecsq_table;

/* The values of an id in a table, one for each row: where they are, how many bytes all have, and how many one has. In a value the fields follow one
 * another without gaps, each as its kind is in little-endian memory. Nothing is promised of alignment: copy a value by memcpy. */
typedef struct flecsq_values {
    const uint8_t *at;
    size_t len;
    size_t size;
} flecsq_values;

/* Makes an entity with a name of so many bytes, and gives it, as the line `entity NAME` does: a command, with what all commands answer. UNKNOWN where the
 * bytes are no UTF-8. Unless it answers OK, `entity` is as it was. */
int32_t flecsq_entity_named(flecsq *handle, const uint8_t *name, size_t len, uint64_t *entity);

/* Reads the text of a query, of so many bytes, and gives its number: 1, 2, 3 .., none of which this engine gives twice. It stays that of the query
 * until `flecsq_drop`, and its memory goes with the engine at the latest. It is no stored query: no line knows it, and what it names may be deleted.
 *
 * Answers OK, REFUSED, NO_THIS, CLOSED or MEMORY. After REFUSED the text has a fault, or is no UTF-8: the line `query TEXT` says which. Unless it answers
 * OK, `query` is as it was. */
int32_t flecsq_query(flecsq *handle, const uint8_t *text, size_t len, uint64_t *query);

/* Frees a query, whose number is that of none from now on.
 *
 * Answers OK, UNKNOWN or CLOSED. */
int32_t flecsq_drop(flecsq *handle, uint64_t query);

/* Gives the tables whose rows are those of a query: each entity in them is `$this` of one row, and there is no other row. They come in no promised
 * order, and the empty ones are left out. `tables` has place for `room` of them, and `count` gets how many there are in all. It takes no memory.
 *
 * Rows come by table where `$this` is the only variable, nothing has `cascade`, and each term, in groups too, asks `$this` itself for one id by name: no
 * `up`, no wildcard as `*`, no followed relationship, no inherited component. Rows of other queries print by a line, and `flecsq_matches` asks them.
 *
 * Answers OK; ROOM, where there are more than `room`, the first of which were written; or UNKNOWN, STALE, NOT_TABLED or CLOSED, and then nothing was
 * written. */
int32_t flecsq_tables(flecsq *handle, uint64_t query, flecsq_table *tables, size_t room, size_t *count);

/* Gives the values of an id in a table: of any that it holds, whether a query names it or not. Of a table it reads the key alone, so `count` may be that of
 * an earlier call: `len` divided by `size` is how many rows there are now.
 *
 * Answers OK, UNKNOWN (of the id), GONE, NOT_HELD or CLOSED. Unless it answers OK, `values` are as they were. */
int32_t flecsq_column(flecsq *handle, const flecsq_table *table, uint64_t id, flecsq_values *values);

/* Sets the values of an id for all rows of a table, as `flecsq_set` of each of its entities would, by row. The bytes are as `flecsq_column` gives them, `len`
 * of them in all. They aren't those that it lends: compute into memory of your own. It takes no memory, and monitors don't hear of it.
 *
 * Answers OK, or the first that applies of UNKNOWN (of the id), WATCHED, GONE, NOT_HELD, NO_DATA, BRINGS, SIZE and FULL; or CLOSED; or MEMORY, where a
 * line or command before was refused memory and the engine runs no more. Unless it answers OK, nothing has changed. */
int32_t flecsq_set_column(flecsq *handle, const flecsq_table *table, uint64_t id, const uint8_t *bytes, size_t len);

/* Tells whether an entity is `$this` of some row of a query, of any that `flecsq_query` reads. No other entity is tried.
 *
 * Answers OK, UNKNOWN (of the query or the entity), STALE, DEAD, CLOSED or MEMORY. Unless it answers OK, `is` is as it was. */
int32_t flecsq_matches(flecsq *handle, uint64_t query, uint64_t entity, bool *is);

/* What was run of a script: how many bytes were written to `output`, and how many lines were run and refused. */
typedef struct flecsq_ran {
    size_t written;
    size_t lines;
    size_t refused;
} flecsq_ran;

/* Runs a whole script, lines with their line feeds, in an engine of its own, which is closed at the end. `low` and `high` are as those of
 * `flecsq_open`.
 *
 * Answers OK, MEMORY, ROOM or TOO_LONG. After OK the first `written` bytes of `output` are the script's output, also where lines were refused.
 * After the others they are a prefix of it, and `lines` and `refused` are 0. */
int32_t flecsq_run(uint64_t low, uint64_t high, const uint8_t *script, size_t len, uint8_t *output, size_t room, flecsq_ran *ran);

/* Gives the version, as `0.1.0 (proved)` or, of a build without proofs, `0.1.0 (not proved)`. It stays there for ever. */
void flecsq_version(flecsq_span *out);

/* Gives a text for what a call answered, for messages. It stays there for ever. */
void flecsq_explain(int32_t status, flecsq_span *out);

#ifdef __cplusplus
}
#endif

#endif
