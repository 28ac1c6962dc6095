/* A regatta: boats sail by gusts of wind until one is at the buoy. What all boats do goes by tables and columns; a monitor tells who capsizes.
 *
 *     make library && cc -Ic c/examples/regatta.c out/libflecsq.a -o out/regatta && out/regatta
 */
#include "flecsq.h"

#include <stdio.h>
#include <stdlib.h>
#include <string.h>

enum { BOATS = 60, CLASSES = 3, BUOY = 300, TOO_FAST = 22 };

static const char *const WORLD[] = {
    "component Place metres:i32",
    "component Speed knots:i16",
    "entity Capsized",
    "monitor sailing Place, !Capsized",
};

static const char *const CLASS[CLASSES] = {"Dinghy", "Yawl", "Sloop"};

static uint64_t place, speed, capsized;

/* A call that isn't carried out ends the game. */
static void must(int32_t status) {
    if (status != FLECSQ_OK) {
        flecsq_span why;
        flecsq_explain(status, &why);
        fprintf(stderr, "%.*s\n", (int)why.len, (const char *)why.at);
        exit(1);
    }
}

static uint64_t id_of(flecsq *world, const char *name) {
    uint64_t entity;
    must(flecsq_find(world, (const uint8_t *)name, strlen(name), &entity));
    return flecsq_id(entity);
}

static uint64_t query_of(flecsq *world, const char *text) {
    uint64_t query;
    must(flecsq_query(world, (const uint8_t *)text, strlen(text), &query));
    return query;
}

/* Boats of three classes: those of each stand in a table of their own. Gives the first. */
static uint64_t launch(flecsq *world) {
    const int64_t still = 0;
    uint64_t classes[CLASSES], first = 0;
    for (size_t n = 0; n < sizeof WORLD / sizeof *WORLD; n++) {
        must(flecsq_line(world, (const uint8_t *)WORLD[n], strlen(WORLD[n])));
    }
    for (size_t n = 0; n < CLASSES; n++) {
        must(flecsq_entity_named(world, (const uint8_t *)CLASS[n], strlen(CLASS[n]), &classes[n]));
    }
    place = id_of(world, "Place"), speed = id_of(world, "Speed"), capsized = id_of(world, "Capsized");
    for (size_t n = 0; n < BOATS; n++) {
        uint64_t boat;
        must(flecsq_new(world, &boat));
        must(flecsq_add(world, boat, flecsq_id(classes[n % CLASSES])));
        must(flecsq_set(world, boat, place, &still, 1));
        must(flecsq_set(world, boat, speed, &still, 1));
        first = n ? first : boat;
    }
    // (the monitor told of each boat that it sails)
    must(flecsq_forget(world));
    return first;
}

/* How much faster or slower a gust makes a boat. */
static int gust(uint32_t boat, int turn) {
    uint32_t wind = boat * 2654435761u + (uint32_t)turn * 40503u;
    wind = (wind ^ wind >> 15) * 2246822519u;
    return (int)((wind >> 16) % 9) - 4;
}

/* All boats of a table, whose values are read as a column, and set as one. Gives how far the first of them is. */
static int sail_table(flecsq *world, const flecsq_table *boats, int turn) {
    static int32_t metres[BOATS];
    static int16_t knots[BOATS];
    flecsq_values places, speeds;
    int best = 0;
    must(flecsq_column(world, boats, place, &places));
    must(flecsq_column(world, boats, speed, &speeds));
    memcpy(metres, places.at, places.len);
    memcpy(knots, speeds.at, speeds.len);
    for (size_t row = 0; row < boats->count; row++) {
        int faster = knots[row] + gust(boats->entities[row].index, turn);
        knots[row] = (int16_t)(faster < 0 ? 0 : faster);
        metres[row] += knots[row];
        best = metres[row] > best ? metres[row] : best;
    }
    // Here ends what the table and the columns lent; the key of the table stays.
    must(flecsq_set_column(world, boats, place, (const uint8_t *)metres, boats->count * sizeof *metres));
    must(flecsq_set_column(world, boats, speed, (const uint8_t *)knots, boats->count * sizeof *knots));
    return best;
}

static int sail(flecsq *world, uint64_t sailing, int turn) {
    flecsq_table tables[CLASSES];
    size_t count;
    int best = 0;
    must(flecsq_tables(world, sailing, tables, CLASSES, &count));
    for (size_t n = 0; n < count; n++) {
        int far = sail_table(world, &tables[n], turn);
        best = far > best ? far : best;
    }
    return best;
}

/* Boats that are too fast capsize. A command ends what is lent, so they are listed first. */
static int capsize(flecsq *world, uint64_t sailing) {
    flecsq_table tables[CLASSES];
    uint64_t fast[BOATS];
    size_t count;
    int found = 0;
    must(flecsq_tables(world, sailing, tables, CLASSES, &count));
    for (size_t n = 0; n < count; n++) {
        flecsq_values speeds;
        must(flecsq_column(world, &tables[n], speed, &speeds));
        for (size_t row = 0; row < tables[n].count; row++) {
            int16_t knots;
            memcpy(&knots, speeds.at + row * speeds.size, sizeof knots);
            if (knots > TOO_FAST) {
                fast[found++] = flecsq_number(tables[n].entities[row]);
            }
        }
    }
    for (int n = 0; n < found; n++) {
        must(flecsq_add(world, fast[n], capsized));
    }
    return found;
}

int main(void) {
    flecsq world = FLECSQ_NONE;
    flecsq_span told;
    size_t events = 0;
    int turn = 0, best = 0, lost = 0;
    bool is_sailing;

    // (nobody else writes lines here, so the seed may be known)
    must(flecsq_open(1, 2, &world));
    uint64_t first = launch(&world), sailing = query_of(&world, "Place, Speed, !Capsized");
    while (best < BUOY && turn < 100) {
        best = sail(&world, sailing, ++turn);
        lost += capsize(&world, sailing);
        must(flecsq_output(&world, &told));
        if (told.len) {
            printf("turn %d, %d metres\n%.*s", turn, best, (int)told.len, (const char *)told.at);
        }
        for (size_t n = 0; n < told.len; n++) {
            events += told.at[n] == '\n';
        }
        must(flecsq_forget(&world));
    }
    must(flecsq_matches(&world, sailing, first, &is_sailing));
    printf("A boat is at the buoy after %d turns. %d of %d have capsized; the first %s.\n", turn, lost, BOATS, is_sailing ? "sails" : "has, too");
    flecsq_close(&world);
    return events == (size_t)lost && lost > 0 && lost < BOATS && best >= BUOY ? 0 : 1;
}
