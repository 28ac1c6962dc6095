/* A malloc or realloc that gives nothing at its n-th call, for each n until a run is refused nothing: what is printed is as much as was asked for
 * in whole lines, and all memory is given back. Linked with --wrap=malloc,--wrap=realloc,--wrap=free. Tells how many were refused. */
#include "flecsq.h"

#include <stdio.h>
#include <stdlib.h>
#include <string.h>

void *__real_malloc(size_t size);
void *__real_realloc(void *at, size_t size);
void __real_free(void *at);

static long calls, refused_call, blocks;

static int is_refused(void) { return ++calls == refused_call; }

void *__wrap_malloc(size_t size) {
    void *at = is_refused() ? NULL : __real_malloc(size);
    blocks += at != NULL;
    return at;
}

void *__wrap_realloc(void *at, size_t size) {
    if (is_refused()) {
        return NULL;
    }
    blocks += at == NULL;
    return __real_realloc(at, size);
}

void __wrap_free(void *at) {
    blocks -= at != NULL;
    __real_free(at);
}

static const char *const LINES[] = {
    "component Position x:i32 y:i32", "entity Planet", "entity Sun", "entity Earth", "set Sun Position 10 -3", "add Earth (ChildOf,Sun)",
    "add Earth Planet", "show Earth", "query Position(up)", "keep near (ChildOf,$p), Position($p)", "monitor placed Position(self|up)",
    "on set moved Position", "new", "set #68.0 Position 7 7", "add #68.0 (ChildOf,Earth)", "rows near", "query Position,, Planet",
    "query *, !Planet || Position", "set Sun Position 1 2", "delete Earth", "show Earth", "drop near", "fly",
};
enum { COUNT = sizeof LINES / sizeof *LINES };

static char output[8192], script[2048];
static size_t output_len, script_len, ends[COUNT + 1];

static int wrong(const char *what) {
    printf("%s, where call %ld is refused\n", what, refused_call);
    return 1;
}

/* Runs the lines, and answers whether all is right: how many were run stands in `run`. */
static int by_lines(int *run) {
    flecsq handle = FLECSQ_NONE;
    flecsq_span out;
    int bad = 0;
    *run = 0;
    if (flecsq_open(1, 2, &handle) != FLECSQ_OK) {
        bad = handle.is_open && wrong("a handle is open that is not");
    } else {
        for (int32_t status = FLECSQ_OK; *run < COUNT; ++*run) {
            status = flecsq_line(&handle, (const uint8_t *)LINES[*run], strlen(LINES[*run]));
            if (status != FLECSQ_OK && status != FLECSQ_REFUSED) {
                bad |= status != FLECSQ_MEMORY && wrong("another status than MEMORY");
                bad |= flecsq_line(&handle, NULL, 0) != FLECSQ_MEMORY && wrong("a line is run after MEMORY");
                break;
            }
        }
        bad |= flecsq_output(&handle, &out) != FLECSQ_OK && wrong("no output");
        bad |= (out.len != ends[*run] || memcmp(out.at, output, out.len)) && wrong("the output is not that of the lines that were run");
    }
    flecsq_close(&handle);
    flecsq_close(&handle);
    return bad;
}

enum { COMMANDS = 21 };

/* Asks for the tables of a query, and sets the values of them. It takes no memory. */
static int32_t set_columns(flecsq *handle, uint64_t query) {
    static const uint8_t zeros[64];
    flecsq_table tables[4];
    flecsq_values values;
    size_t count = 0;
    const long before = calls;
    int32_t status = flecsq_tables(handle, query, tables, 4, &count);
    for (size_t n = 0; n < count && status == FLECSQ_OK; n++) {
        status = flecsq_column(handle, &tables[n], 64, &values);
        status = status == FLECSQ_OK ? flecsq_set_column(handle, &tables[n], 64, zeros, values.len) : status;
    }
    return calls == before && (count == 2 || status != FLECSQ_OK) ? status : FLECSQ_NUMBER;
}

/* Whether an entity matches a query, as is known. */
static int32_t matches(flecsq *handle, uint64_t query, uint64_t entity) {
    bool is = false;
    int32_t status = flecsq_matches(handle, query, entity, &is);
    return status == FLECSQ_OK && !is ? FLECSQ_NUMBER : status;
}

/* Carries out a command, and answers its status. */
static int32_t command(flecsq *handle, int number, uint64_t made[6]) {
    const uint64_t position = 64, planet = 65, child_of = 1;
    const int64_t values[2] = {10, -3};
    switch (number) {
    case 0: return flecsq_line(handle, (const uint8_t *)"component Position x:i32 y:i32", 30);
    case 1: return flecsq_line(handle, (const uint8_t *)"entity Planet", 13);
    case 2: return flecsq_line(handle, (const uint8_t *)"monitor placed Position(self|up)", 32);
    case 3: return flecsq_line(handle, (const uint8_t *)"on add had (*,*)", 16);
    case 4: return flecsq_new(handle, &made[0]);
    case 5: return flecsq_new(handle, &made[1]);
    case 6: return flecsq_set(handle, made[0], position, values, 2);
    case 7: return flecsq_add(handle, made[1], flecsq_pair(child_of, made[0]));
    case 8: return flecsq_add(handle, made[1], planet);
    case 9: return flecsq_set(handle, made[1], position, values, 2);
    case 10: return flecsq_query(handle, (const uint8_t *)"Position", 8, &made[2]);
    case 11: return set_columns(handle, made[2]);
    case 12: return matches(handle, made[2], made[1]);
    case 13: return flecsq_query(handle, (const uint8_t *)"(ChildOf,$p), Position($p)", 26, &made[3]);
    case 14: return matches(handle, made[3], made[1]);
    case 15: return flecsq_drop(handle, made[2]);
    case 16: return flecsq_query(handle, (const uint8_t *)"Planet || Position(up)", 22, &made[4]);
    case 17: return flecsq_entity_named(handle, (const uint8_t *)"Moon", 4, &made[5]);
    case 18: return flecsq_add(handle, made[5], planet);
    case 19: return flecsq_remove(handle, made[1], position);
    default: return flecsq_delete(handle, made[0]);
    }
}

static char of_commands[2048];
static size_t command_ends[COMMANDS + 1];

/* Carries out all, and answers whether all is right: how many were stands in `run`. One that was refused memory is tried again: it is carried out then, or
 * nothing is any more. */
static int by_commands(int *run) {
    flecsq handle = FLECSQ_NONE;
    flecsq_span out;
    uint64_t made[6] = {0};
    int bad = 0;
    *run = 0;
    if (flecsq_open(1, 2, &handle) == FLECSQ_OK) {
        for (; *run < COMMANDS; ++*run) {
            int32_t status = command(&handle, *run, made);
            if (status != FLECSQ_OK) {
                bad |= status != FLECSQ_MEMORY && wrong("another status than MEMORY of a command");
                if (command(&handle, *run, made) != FLECSQ_OK) {
                    bad |= flecsq_delete(&handle, 1) != FLECSQ_MEMORY && wrong("a command is carried out after MEMORY");
                    break;
                }
            }
        }
        bad |= flecsq_output(&handle, &out) != FLECSQ_OK && wrong("no output of commands");
        bad |= (out.len != command_ends[*run] || memcmp(out.at, of_commands, out.len)) && wrong("the output is not that of the commands");
    }
    flecsq_close(&handle);
    return bad;
}

/* Runs them as a script. */
static int as_script(int *is_whole) {
    static uint8_t to[sizeof output];
    flecsq_ran ran;
    int32_t status = flecsq_run(1, 2, (const uint8_t *)script, script_len, to, sizeof to, &ran);
    *is_whole = status == FLECSQ_OK;
    if (status != FLECSQ_OK && status != FLECSQ_MEMORY) {
        return wrong("another status than MEMORY");
    }
    if (ran.written > output_len || (*is_whole && ran.written != output_len) || memcmp(to, output, ran.written)) {
        return wrong("a script's output is no prefix");
    }
    return 0;
}

int main(void) {
    flecsq handle = FLECSQ_NONE;
    int bad = 0, run = 0, is_whole = 0;
    long by_lines_calls, by_commands_calls, as_script_calls;
    uint64_t made[6];

    // (what is right: no call is refused)
    flecsq_open(1, 2, &handle);
    for (int n = 0; n < COUNT; n++) {
        script_len += (size_t)snprintf(script + script_len, sizeof script - script_len, "%s\n", LINES[n]);
        flecsq_line(&handle, (const uint8_t *)LINES[n], strlen(LINES[n]));
        ends[n + 1] = output_len = flecsq_copy(&handle, (uint8_t *)output, sizeof output);
    }
    flecsq_open(1, 2, &handle);
    for (int n = 0; n < COMMANDS; n++) {
        bad |= command(&handle, n, made) != FLECSQ_OK && wrong("a command is refused");
        command_ends[n + 1] = flecsq_copy(&handle, (uint8_t *)of_commands, sizeof of_commands);
    }
    flecsq_close(&handle);
    bad |= (blocks != 0 || command_ends[COMMANDS] < 60 || output_len < 300) && wrong("blocks are left, or little is printed");

    for (refused_call = 1, run = 0; run < COUNT || calls >= refused_call; refused_call++) {
        calls = 0;
        bad |= by_lines(&run);
        bad |= blocks != 0 && wrong("blocks are left");
        blocks = 0;
    }
    by_lines_calls = refused_call - 2;
    for (refused_call = 1, run = 0; run < COMMANDS || calls >= refused_call; refused_call++) {
        calls = 0;
        bad |= by_commands(&run);
        bad |= blocks != 0 && wrong("blocks are left after commands");
        blocks = 0;
    }
    by_commands_calls = refused_call - 2;
    for (refused_call = 1, is_whole = 0; !is_whole || calls >= refused_call; refused_call++) {
        calls = 0;
        bad |= as_script(&is_whole);
        bad |= blocks != 0 && wrong("blocks are left after a script");
        blocks = 0;
    }
    as_script_calls = refused_call - 2;
    printf("each of %ld calls was refused by lines, of %ld by commands, and of %ld as a script\n", by_lines_calls, by_commands_calls, as_script_calls);
    return bad || by_lines_calls < 100 || by_commands_calls < 50 || as_script_calls < 100;
}
