/* What each call answers, as the header says. Prints what is otherwise. */
#include "flecsq.h"

#include <stdio.h>
#include <string.h>

static int wrong;

#define IS(what) \
    if (!(what)) { \
        printf("line %d: not %s\n", __LINE__, #what); \
        wrong = 1; \
    }

static int32_t line(flecsq *handle, const char *text) { return flecsq_line(handle, (const uint8_t *)text, strlen(text)); }

static int says(flecsq_span span, const char *text) { return span.len == strlen(text) && !memcmp(span.at, text, span.len); }

/* Whether the output is this. */
static int printed(flecsq *handle, const char *text) {
    flecsq_span out;
    return flecsq_output(handle, &out) == FLECSQ_OK && says(out, text);
}

static int32_t find(flecsq *handle, const char *name, uint64_t *entity) {
    return flecsq_find(handle, (const uint8_t *)name, strlen(name), entity);
}

static int32_t named(flecsq *handle, const char *name, uint64_t *entity) {
    return flecsq_entity_named(handle, (const uint8_t *)name, strlen(name), entity);
}

static int32_t query(flecsq *handle, const char *text, uint64_t *number) {
    return flecsq_query(handle, (const uint8_t *)text, strlen(text), number);
}

static void a_handle_without_an_engine(void) {
    flecsq handle = FLECSQ_NONE;
    flecsq_span out = {(const uint8_t *)"as it was", 9};
    flecsq_table table = {NULL, 7, 1, 0, 0};
    flecsq_values values = {NULL, 7, 7};
    uint8_t to[4] = "abc";
    const int64_t one = 1;
    uint64_t number = 7;
    size_t count = 7;
    bool is = true;
    IS(line(&handle, "new") == FLECSQ_CLOSED);
    IS(flecsq_output(&handle, &out) == FLECSQ_CLOSED && says(out, "as it was"));
    IS(flecsq_copy(&handle, to, sizeof to) == 0 && !strcmp((const char *)to, "abc"));
    IS(flecsq_forget(&handle) == FLECSQ_CLOSED);
    IS(find(&handle, "Sun", &number) == FLECSQ_CLOSED && flecsq_new(&handle, &number) == FLECSQ_CLOSED && named(&handle, "Sun", &number) == FLECSQ_CLOSED);
    IS(flecsq_add(&handle, 64, 65) == FLECSQ_CLOSED && flecsq_set(&handle, 64, 65, &one, 1) == FLECSQ_CLOSED);
    IS(flecsq_remove(&handle, 64, 65) == FLECSQ_CLOSED && flecsq_delete(&handle, 64) == FLECSQ_CLOSED);
    IS(query(&handle, "Sun", &number) == FLECSQ_CLOSED && number == 7 && flecsq_drop(&handle, 1) == FLECSQ_CLOSED);
    IS(flecsq_tables(&handle, 1, &table, 1, &count) == FLECSQ_CLOSED && table.count == 7 && count == 7);
    IS(flecsq_column(&handle, &table, 64, &values) == FLECSQ_CLOSED && values.len == 7);
    IS(flecsq_set_column(&handle, &table, 64, to, 1) == FLECSQ_CLOSED && flecsq_matches(&handle, 1, 64, &is) == FLECSQ_CLOSED && is);
    flecsq_close(&handle);
    IS(!handle.is_open);
}

static void lines_and_their_output(void) {
    flecsq handle = FLECSQ_NONE;
    uint8_t to[8] = "xxxxxxx";
    static char long_line[4098];
    IS(flecsq_open(3, 4, &handle) == FLECSQ_OK && handle.is_open);
    IS(printed(&handle, ""));
    IS(line(&handle, "entity Sun") == FLECSQ_OK && printed(&handle, ""));
    IS(line(&handle, "") == FLECSQ_OK && flecsq_line(&handle, NULL, 0) == FLECSQ_OK);
    IS(line(&handle, "show Sun") == FLECSQ_OK && printed(&handle, "show Sun\n"));
    // what was printed stays until it is forgotten
    IS(line(&handle, "fly") == FLECSQ_REFUSED && printed(&handle, "show Sun\nerror 5 BadLine\n"));
    IS(flecsq_copy(&handle, to, 4) == 4 && !memcmp(to, "showxxx", 7));
    IS(flecsq_copy(&handle, NULL, 0) == 0);
    IS(line(&handle, "show Sun\nfly") == FLECSQ_LINE_FEED && line(&handle, "\n") == FLECSQ_LINE_FEED);
    IS(printed(&handle, "show Sun\nerror 5 BadLine\n"));
    IS(flecsq_forget(&handle) == FLECSQ_OK && printed(&handle, "") && flecsq_forget(&handle) == FLECSQ_OK);
    IS(line(&handle, "add Sun Sum") == FLECSQ_REFUSED && printed(&handle, "error 6 UnknownName\n"));
    flecsq_forget(&handle);
    memset(long_line, ' ', sizeof long_line - 1);
    IS(line(&handle, long_line) == FLECSQ_REFUSED && printed(&handle, "error 7 LineTooLong\n"));
    IS(flecsq_line(&handle, (const uint8_t *)"entity \0", 8) == FLECSQ_REFUSED);
    flecsq_close(&handle);
    IS(!handle.is_open && line(&handle, "new") == FLECSQ_CLOSED);
    flecsq_close(&handle);
}

/* A handle that is opened again has a new engine, and the old one is closed. (A leak is found by valgrind.) */
static void one_engine_after_the_other(void) {
    flecsq handle = FLECSQ_NONE, other = FLECSQ_NONE;
    IS(flecsq_open(3, 4, &handle) == FLECSQ_OK && flecsq_open(5, 6, &other) == FLECSQ_OK);
    IS(line(&handle, "entity Sun") == FLECSQ_OK && line(&other, "show Sun") == FLECSQ_REFUSED);
    IS(flecsq_open(7, 8, &handle) == FLECSQ_OK && printed(&handle, ""));
    IS(line(&handle, "show Sun") == FLECSQ_REFUSED && printed(&handle, "error 1 UnknownName\n"));
    flecsq_close(&handle);
    IS(printed(&other, "error 1 UnknownName\n"));
    flecsq_close(&other);
}

/* A handle may lie elsewhere later, if the old place is not used. */
static void a_handle_that_is_moved(void) {
    flecsq first = FLECSQ_NONE, second;
    IS(flecsq_open(3, 4, &first) == FLECSQ_OK && line(&first, "new") == FLECSQ_OK);
    second = first;
    IS(line(&second, "new") == FLECSQ_OK && printed(&second, "#64.0\n#65.0\n"));
    flecsq_close(&second);
}

static void commands(void) {
    flecsq handle = FLECSQ_NONE;
    uint64_t entity = 7, position = 7, holds = 7, sun = 7;
    const int64_t values[9] = {10, -3}, far[2] = {INT64_MAX, 0};
    IS(find(&handle, "Sun", &sun) == FLECSQ_CLOSED && flecsq_new(&handle, &entity) == FLECSQ_CLOSED && sun == 7 && entity == 7);
    IS(flecsq_add(&handle, 64, 65) == FLECSQ_CLOSED && flecsq_set(&handle, 64, 65, values, 2) == FLECSQ_CLOSED);
    IS(flecsq_remove(&handle, 64, 65) == FLECSQ_CLOSED && flecsq_delete(&handle, 64) == FLECSQ_CLOSED);

    IS(flecsq_open(3, 4, &handle) == FLECSQ_OK);
    line(&handle, "component Position x:i32 y:i32");
    line(&handle, "entity Holds");
    line(&handle, "entity Sun");
    IS(find(&handle, "Position", &position) == FLECSQ_OK && position == 64 && flecsq_id(position) == 64);
    IS(find(&handle, "Holds", &holds) == FLECSQ_OK && find(&handle, "Sun", &sun) == FLECSQ_OK && sun == 66);
    entity = 7;
    IS(find(&handle, "Moon", &entity) == FLECSQ_UNKNOWN && find(&handle, "", &entity) == FLECSQ_UNKNOWN && entity == 7);
    IS(flecsq_find(&handle, (const uint8_t *)"\xff", 1, &entity) == FLECSQ_UNKNOWN && flecsq_find(&handle, NULL, 0, &entity) == FLECSQ_UNKNOWN);

    // events come after the output, as by a line
    line(&handle, "on set moved Position");
    line(&handle, "monitor placed Position");
    IS(flecsq_set(&handle, sun, flecsq_id(position), values, 2) == FLECSQ_OK);
    IS(printed(&handle, "enter placed Sun\nset moved Sun Position=10,-3\n") || printed(&handle, "set moved Sun Position=10,-3\nenter placed Sun\n"));
    flecsq_forget(&handle);
    IS(flecsq_set(&handle, sun, flecsq_id(position), values, 9) == FLECSQ_NUMBER && flecsq_set(&handle, sun, flecsq_id(position), values, 8) == FLECSQ_REFUSED);
    IS(flecsq_set(&handle, sun, flecsq_id(position), far, 2) == FLECSQ_REFUSED && flecsq_set(&handle, sun, flecsq_id(holds), NULL, 0) == FLECSQ_REFUSED);
    IS(printed(&handle, ""));

    // a pair
    IS(flecsq_new(&handle, &entity) == FLECSQ_OK && entity == 67);
    IS(flecsq_set(&handle, entity, flecsq_pair(holds, position), values, 2) == FLECSQ_OK && flecsq_add(&handle, entity, flecsq_pair(holds, sun)) == FLECSQ_OK);
    IS(line(&handle, "show #67.0") == FLECSQ_OK && printed(&handle, "show #67.0 [(Holds,Position)=10,-3] [(Holds,Sun)]\n"));
    flecsq_forget(&handle);
    IS(flecsq_remove(&handle, entity, flecsq_pair(holds, sun)) == FLECSQ_OK && flecsq_remove(&handle, entity, flecsq_pair(holds, sun)) == FLECSQ_OK);

    // a dead entity, and the one that comes after it
    IS(flecsq_delete(&handle, entity) == FLECSQ_OK && flecsq_delete(&handle, entity) == FLECSQ_REFUSED && flecsq_add(&handle, entity, 65) == FLECSQ_REFUSED);
    IS(flecsq_new(&handle, &entity) == FLECSQ_OK && entity == (67 | (uint64_t)1 << 32));
    IS(flecsq_add(&handle, (uint64_t)1 << 48, 65) == FLECSQ_UNKNOWN && flecsq_add(&handle, entity, 0) == FLECSQ_UNKNOWN);
    IS(flecsq_add(&handle, entity, (uint64_t)1 << 24) == FLECSQ_UNKNOWN && flecsq_add(&handle, entity, flecsq_pair(holds, 0)) == FLECSQ_UNKNOWN);
    IS(flecsq_remove(&handle, UINT64_MAX, 65) == FLECSQ_UNKNOWN && flecsq_delete(&handle, UINT64_MAX) == FLECSQ_UNKNOWN);
    IS(flecsq_add(&handle, 0, 65) == FLECSQ_REFUSED && flecsq_delete(&handle, 0) == FLECSQ_REFUSED && flecsq_delete(&handle, 1) == FLECSQ_REFUSED);

    // commands count as no lines
    IS(printed(&handle, "") && line(&handle, "fly") == FLECSQ_REFUSED && printed(&handle, "error 7 BadLine\n"));
    flecsq_close(&handle);
}

/* Entities with names, by calls. */
static void names(void) {
    flecsq handle = FLECSQ_NONE;
    uint64_t entity = 7, found = 0;
    IS(flecsq_open(3, 4, &handle) == FLECSQ_OK);
    IS(named(&handle, "Sun", &entity) == FLECSQ_OK && entity == 64 && find(&handle, "Sun", &found) == FLECSQ_OK && found == 64);
    IS(named(&handle, "Sun", &entity) == FLECSQ_REFUSED && named(&handle, "a b", &entity) == FLECSQ_REFUSED && named(&handle, "", &entity) == FLECSQ_REFUSED);
    IS(named(&handle, "\xff", &entity) == FLECSQ_UNKNOWN && entity == 64 && printed(&handle, ""));
    flecsq_close(&handle);
}

/* The row of an entity in a table, or as many as there are. */
static size_t row_of(flecsq_table table, uint64_t entity) {
    size_t row = 0;
    while (row < table.count && flecsq_number(table.entities[row]) != entity) {
        row++;
    }
    return row;
}

/* Position is 64, Planet 65, Mass 66, which brings Planet; Sun has a Position, Earth and Mars are planets with one, Rock has a mass. */
static void make_planets(flecsq *handle, uint64_t made[4]) {
    const int64_t at[3][2] = {{10, -3}, {7, 300}, {-1, 1}}, mass = 5;
    const char *const lines[] = {"component Position x:i32 y:i16", "entity Planet", "component Mass tons:u8", "add Mass (With,Planet)"};
    const char *const name[] = {"Sun", "Earth", "Mars", "Rock"};
    for (size_t n = 0; n < sizeof lines / sizeof *lines; n++) {
        IS(line(handle, lines[n]) == FLECSQ_OK);
    }
    for (size_t n = 0; n < 4; n++) {
        IS(named(handle, name[n], &made[n]) == FLECSQ_OK && made[n] == 67 + n);
        IS(n == 3 || flecsq_set(handle, made[n], 64, at[n], 2) == FLECSQ_OK);
        IS(n == 0 || n == 3 || flecsq_add(handle, made[n], 65) == FLECSQ_OK);
    }
    IS(flecsq_set(handle, made[3], 66, &mass, 1) == FLECSQ_OK && printed(handle, ""));
}

static void queries(void) {
    flecsq handle = FLECSQ_NONE;
    uint64_t made[4], placed = 0, planets = 0, number = 9;
    flecsq_table tables[4];
    flecsq_values values = {NULL, 7, 7};
    size_t count = 9;
    IS(flecsq_open(3, 4, &handle) == FLECSQ_OK);
    make_planets(&handle, made);

    // texts
    IS(query(&handle, "Position,", &number) == FLECSQ_REFUSED && query(&handle, "Position, Plannet", &number) == FLECSQ_REFUSED);
    IS(query(&handle, "\xff", &number) == FLECSQ_REFUSED && flecsq_query(&handle, NULL, 0, &number) == FLECSQ_REFUSED);
    IS(query(&handle, "Planet(Earth)", &number) == FLECSQ_NO_THIS && number == 9 && printed(&handle, ""));
    IS(query(&handle, "Position", &placed) == FLECSQ_OK && placed == 1 && query(&handle, "Position, Planet", &planets) == FLECSQ_OK && planets == 2);

    // tables
    IS(flecsq_tables(&handle, 3, tables, 4, &count) == FLECSQ_UNKNOWN && flecsq_tables(&handle, UINT64_MAX, tables, 4, &count) == FLECSQ_UNKNOWN && count == 9);
    IS(flecsq_tables(&handle, placed, NULL, 0, &count) == FLECSQ_ROOM && count == 2);
    tables[1].count = 99;
    IS(flecsq_tables(&handle, placed, tables, 1, &count) == FLECSQ_ROOM && count == 2 && tables[0].count > 0 && tables[1].count == 99);
    IS(flecsq_tables(&handle, placed, tables, 4, &count) == FLECSQ_OK && count == 2 && tables[0].count + tables[1].count == 3);
    IS(flecsq_tables(&handle, planets, tables, 4, &count) == FLECSQ_OK && count == 1 && tables[0].count == 2);
    IS(row_of(tables[0], made[1]) < 2 && row_of(tables[0], made[2]) < 2 && row_of(tables[0], made[0]) == 2);

    // values
    IS(flecsq_column(&handle, tables, 64, &values) == FLECSQ_OK && values.len == 12 && values.size == 6);
    IS(values.len == 12 && !memcmp(values.at + 6 * row_of(tables[0], made[1]), "\7\0\0\0\54\1", 6));
    IS(values.len == 12 && !memcmp(values.at + 6 * row_of(tables[0], made[2]), "\377\377\377\377\1\0", 6));
    values.len = 7;
    IS(flecsq_column(&handle, tables, 65, &values) == FLECSQ_NOT_HELD && flecsq_column(&handle, tables, 66, &values) == FLECSQ_NOT_HELD);
    IS(flecsq_column(&handle, tables, 0, &values) == FLECSQ_UNKNOWN && flecsq_column(&handle, tables, (uint64_t)1 << 24, &values) == FLECSQ_UNKNOWN);
    tables[0].serial_low += 1000;
    IS(flecsq_column(&handle, tables, 64, &values) == FLECSQ_GONE && flecsq_set_column(&handle, tables, 64, (const uint8_t *)"", 0) == FLECSQ_GONE);
    IS(values.len == 7 && printed(&handle, ""));
    flecsq_close(&handle);
}

static void columns_that_are_set(void) {
    static const uint8_t bytes[] = "\1\0\0\0\2\0\3\0\0\0\4";
    flecsq handle = FLECSQ_NONE;
    uint64_t made[4], planets = 0, rocks = 0;
    flecsq_table table, rock;
    flecsq_values values;
    size_t count;
    IS(flecsq_open(3, 4, &handle) == FLECSQ_OK);
    make_planets(&handle, made);
    IS(query(&handle, "Position, Planet", &planets) == FLECSQ_OK && query(&handle, "Mass", &rocks) == FLECSQ_OK);
    IS(flecsq_tables(&handle, planets, &table, 1, &count) == FLECSQ_OK && flecsq_tables(&handle, rocks, &rock, 1, &count) == FLECSQ_OK);
    line(&handle, "monitor placed Position");

    IS(flecsq_set_column(&handle, &table, 0, bytes, 12) == FLECSQ_UNKNOWN && flecsq_set_column(&handle, &table, 66, bytes, 12) == FLECSQ_NOT_HELD);
    IS(flecsq_set_column(&handle, &table, 65, bytes, 12) == FLECSQ_NO_DATA && flecsq_set_column(&handle, &rock, 66, bytes, 1) == FLECSQ_BRINGS);
    IS(flecsq_set_column(&handle, &table, 64, bytes, 11) == FLECSQ_SIZE && flecsq_set_column(&handle, &table, 64, NULL, 0) == FLECSQ_SIZE);
    line(&handle, "on set moved Position");
    IS(flecsq_set_column(&handle, &table, 64, bytes, 12) == FLECSQ_WATCHED);
    line(&handle, "drop moved");
    IS(printed(&handle, "") && flecsq_set_column(&handle, &table, 64, bytes, 12) == FLECSQ_OK && printed(&handle, ""));
    IS(flecsq_column(&handle, &table, 64, &values) == FLECSQ_OK && values.len == 12 && !memcmp(values.at, bytes, 12));
    IS(flecsq_tables(&handle, planets, &table, 1, &count) == FLECSQ_OK);
    IS(line(&handle, row_of(table, made[1]) ? "show Mars" : "show Earth") == FLECSQ_OK);
    IS(printed(&handle, "show Mars [Position=1,2] [Planet]\n") || printed(&handle, "show Earth [Position=1,2] [Planet]\n"));
    flecsq_close(&handle);
}

static void entities_that_match(void) {
    flecsq handle = FLECSQ_NONE;
    uint64_t made[4], planets = 0, below = 0;
    flecsq_table table;
    size_t count = 9;
    bool is = false;
    IS(flecsq_open(3, 4, &handle) == FLECSQ_OK);
    make_planets(&handle, made);
    IS(query(&handle, "Position, Planet", &planets) == FLECSQ_OK && query(&handle, "(ChildOf,$p), Position($p)", &below) == FLECSQ_OK);

    IS(flecsq_matches(&handle, planets, made[1], &is) == FLECSQ_OK && is && flecsq_matches(&handle, planets, made[0], &is) == FLECSQ_OK && !is);
    IS(flecsq_matches(&handle, below, made[1], &is) == FLECSQ_OK && !is && flecsq_tables(&handle, below, &table, 1, &count) == FLECSQ_NOT_TABLED && count == 9);
    IS(flecsq_add(&handle, made[1], flecsq_pair(1, made[0])) == FLECSQ_OK && flecsq_matches(&handle, below, made[1], &is) == FLECSQ_OK && is);
    IS(flecsq_matches(&handle, 3, made[1], &is) == FLECSQ_UNKNOWN && flecsq_matches(&handle, planets, UINT64_MAX, &is) == FLECSQ_UNKNOWN && is);
    IS(flecsq_delete(&handle, made[2]) == FLECSQ_OK && flecsq_matches(&handle, planets, made[2], &is) == FLECSQ_DEAD && is);
    IS(flecsq_matches(&handle, planets, 0, &is) == FLECSQ_DEAD);

    // what a query names is deleted, and the table with it
    IS(flecsq_tables(&handle, planets, &table, 1, &count) == FLECSQ_OK && count == 1 && flecsq_delete(&handle, 65) == FLECSQ_OK);
    IS(flecsq_tables(&handle, planets, &table, 1, &count) == FLECSQ_STALE && flecsq_matches(&handle, planets, made[1], &is) == FLECSQ_STALE && is);
    IS(flecsq_set_column(&handle, &table, 64, (const uint8_t *)"abcdef", 6) == FLECSQ_GONE);

    // a number is never that of another query
    IS(flecsq_drop(&handle, planets) == FLECSQ_OK && flecsq_drop(&handle, planets) == FLECSQ_UNKNOWN && flecsq_drop(&handle, 0) == FLECSQ_UNKNOWN);
    IS(flecsq_matches(&handle, planets, made[1], &is) == FLECSQ_UNKNOWN && flecsq_tables(&handle, planets, &table, 1, &count) == FLECSQ_UNKNOWN);
    IS(query(&handle, "Position", &planets) == FLECSQ_OK && planets == 3 && flecsq_drop(&handle, below) == FLECSQ_OK && printed(&handle, ""));
    flecsq_close(&handle);
}

/* More tables than one, in each a row: all are given once. */
static void many_tables(void) {
    enum { TABLES = 100 };
    static flecsq_table tables[TABLES];
    static bool is_seen[TABLES];
    flecsq handle = FLECSQ_NONE;
    uint64_t number = 0, kind, made;
    size_t count;
    IS(flecsq_open(3, 4, &handle) == FLECSQ_OK && line(&handle, "component Weight grams:u64") == FLECSQ_OK);
    for (int64_t n = 0; n < TABLES; n++) {
        IS(flecsq_new(&handle, &kind) == FLECSQ_OK && flecsq_new(&handle, &made) == FLECSQ_OK);
        IS(flecsq_add(&handle, made, flecsq_id(kind)) == FLECSQ_OK && flecsq_set(&handle, made, 64, &n, 1) == FLECSQ_OK);
    }
    IS(query(&handle, "Weight", &number) == FLECSQ_OK && flecsq_tables(&handle, number, tables, TABLES, &count) == FLECSQ_OK && count == TABLES);
    for (size_t n = 0; n < TABLES; n++) {
        flecsq_values values;
        uint64_t grams = TABLES;
        IS(tables[n].count == 1 && flecsq_column(&handle, &tables[n], 64, &values) == FLECSQ_OK && values.len == 8);
        memcpy(&grams, values.at, 8);
        IS(grams < TABLES && !is_seen[grams] && flecsq_number(tables[n].entities[0]) == 66 + 2 * grams);
        is_seen[grams % TABLES] = true;
    }
    flecsq_close(&handle);
}

static void whole_scripts(void) {
    const char *script = "entity Sun\nshow Sun\nfly\nshow Sun";
    const char *output = "show Sun\nerror 3 BadLine\nshow Sun\n";
    uint8_t to[64];
    flecsq_ran ran = {7, 7, 7};
    const size_t all = strlen(output);
    IS(flecsq_run(1, 2, (const uint8_t *)script, strlen(script), to, sizeof to, &ran) == FLECSQ_OK);
    IS(ran.written == all && ran.lines == 4 && ran.refused == 1 && !memcmp(to, output, all));
    IS(flecsq_run(1, 2, (const uint8_t *)script, strlen(script), to, all, &ran) == FLECSQ_OK && ran.written == all);
    for (size_t room = 0; room < all; room++) {
        memset(to, '.', sizeof to);
        IS(flecsq_run(1, 2, (const uint8_t *)script, strlen(script), to, room, &ran) == FLECSQ_ROOM);
        IS(ran.written <= room && ran.lines == 0 && ran.refused == 0 && !memcmp(to, output, ran.written) && to[room] == '.');
    }
    IS(flecsq_run(1, 2, NULL, 0, NULL, 0, &ran) == FLECSQ_OK && ran.written == 0 && ran.lines == 0 && ran.refused == 0);
}

static void texts(void) {
    flecsq_span version, one, other;
    flecsq_version(&version);
    IS(version.len > 8 && version.len < 64 && version.at[version.len - 1] == ')');
    for (int32_t status = -1; status <= FLECSQ_FULL + 1; status++) {
        flecsq_explain(status, &one);
        flecsq_explain(status + 1, &other);
        IS(one.len > 1 && one.len < 80 && (status > FLECSQ_FULL || one.len != other.len || memcmp(one.at, other.at, one.len)));
    }
}

int main(void) {
    a_handle_without_an_engine();
    lines_and_their_output();
    one_engine_after_the_other();
    a_handle_that_is_moved();
    commands();
    names();
    queries();
    columns_that_are_set();
    entities_that_match();
    many_tables();
    whole_scripts();
    texts();
    return wrong;
}
