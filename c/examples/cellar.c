/* A hero goes through a cellar until no room is left, and fights the rats there. A monitor tells whom they meet, by the rooms that all are in.
 *
 *     make library && cc -Ic c/examples/cellar.c out/libflecsq.a -o out/cellar && out/cellar
 */
#include "flecsq.h"

#include <stdarg.h>
#include <stdio.h>
#include <stdlib.h>
#include <string.h>

static const char *const WORLD[] = {
    "component Health points:i16",
    "entity Rat",
    "entity Seen",
    // One is in one room at a time: the next takes its place.
    "entity In",
    "add In Exclusive",
    // A door leads both ways.
    "entity Door",
    "add Door Symmetric",
    "entity Hall",
    "entity Kitchen",
    "entity Larder",
    "entity Vault",
    "add Hall (Door,Kitchen)",
    "add Kitchen (Door,Larder)",
    "add Kitchen (Door,Vault)",
    "entity Hero",
    "set Hero Health 20",
    "add Hero (In,Hall)",
    "add Hall Seen",
    // Who is a rat, in the room in which Hero is.
    "monitor met Rat, (In,$room), In(Hero,$room)",
};

static const struct {
    const char *name, *room;
    int health;
} RATS[] = {{"Nibbler", "Kitchen", 4}, {"Squeak", "Vault", 7}, {"Gnaw", "Vault", 3}};

/* Runs a line, and gives what it prints: until the next line. A line that is not carried out ends the game. */
static const char *tell(flecsq *world, const char *form, ...) {
    static char printed[4096];
    char line[256];
    va_list words;
    va_start(words, form);
    vsnprintf(line, sizeof line, form, words);
    va_end(words);

    int32_t status = flecsq_line(world, (const uint8_t *)line, strlen(line));
    printed[flecsq_copy(world, (uint8_t *)printed, sizeof printed - 1)] = 0;
    flecsq_forget(world);
    if (status != FLECSQ_OK) {
        flecsq_span why;
        flecsq_explain(status, &why);
        fprintf(stderr, "%s: %.*s %s\n", line, (int)why.len, (const char *)why.at, printed);
        exit(1);
    }
    return printed;
}

static int health_of(flecsq *world, const char *name) {
    const char *at = strstr(tell(world, "show %s", name), "[Health=");
    return at ? atoi(at + strlen("[Health=")) : 0;
}

static uint64_t entity_of(flecsq *world, const char *name) {
    uint64_t entity = 0;
    flecsq_find(world, (const uint8_t *)name, strlen(name), &entity);
    return entity;
}

/* Sets a health, without a text to be read. */
static void set_health(flecsq *world, uint64_t entity, int64_t points) {
    flecsq_set(world, entity, flecsq_id(entity_of(world, "Health")), &points, 1);
}

/* Blow for blow, until one falls. Gives how many the hero took. */
static int fight(flecsq *world, const char *rat) {
    int hero = health_of(world, "Hero"), other = health_of(world, rat), blows = 0;
    printf("  %s is there, with %d points", rat, other);
    while (hero > 0 && (other -= 3) > 0) {
        hero -= 2;
        blows++;
    }
    set_health(world, entity_of(world, "Hero"), hero);
    flecsq_delete(world, entity_of(world, rat));
    // (the monitor told that it left, which is no news here)
    flecsq_forget(world);
    printf(", and falls. Hero has %d.\n", hero);
    return blows;
}

/* Goes to the next room, and answers whether there was one: behind a door of a room that was seen. */
static int go_on(flecsq *world, char room[65]) {
    return sscanf(tell(world, "query Door($this,$from), Seen($from), !Seen"), "row $this=%64s", room) == 1;
}

int main(void) {
    flecsq world = FLECSQ_NONE;
    char room[65], met[8][65];
    int rooms = 0, fights = 0, blows = 0;

    // (nobody else writes lines here, so the seed may be known)
    if (flecsq_open(1, 2, &world) != FLECSQ_OK) {
        return 1;
    }
    for (size_t n = 0; n < sizeof WORLD / sizeof *WORLD; n++) {
        tell(&world, "%s", WORLD[n]);
    }
    for (size_t n = 0; n < sizeof RATS / sizeof *RATS; n++) {
        tell(&world, "entity %s", RATS[n].name);
        tell(&world, "set %s Health %d", RATS[n].name, RATS[n].health);
        tell(&world, "add %s Rat", RATS[n].name);
        tell(&world, "add %s (In,%s)", RATS[n].name, RATS[n].room);
    }

    while (go_on(&world, room)) {
        printf("Hero goes to the %s.\n", room);
        rooms++;
        tell(&world, "add %s Seen", room);
        // The events of a line stand after its output, and are lent until the next line: so the names are copied.
        const char *events = tell(&world, "add Hero (In,%s)", room);
        int count = 0;
        for (const char *at = events; count < 8 && (at = strstr(at, "enter met ")); at++) {
            sscanf(at, "enter met %64s", met[count++]);
        }
        for (int n = 0; n < count; n++) {
            blows += fight(&world, met[n]);
            fights++;
        }
    }

    int left = health_of(&world, "Hero"), is_clean = !strcmp(tell(&world, "query Rat"), "rows 0\n");
    printf("%d rooms, %d fights: Hero comes home with %d points.\n", rooms, fights, left);
    flecsq_close(&world);
    return rooms == 3 && fights == 3 && left == 20 - 2 * blows && is_clean ? 0 : 1;
}
