// Foxes go after hares on a field, until all are caught. What stands where is asked of the world each turn; a monitor tells who is caught.
//
//     make library && c++ -Ic c/examples/chase.cpp out/libflecsq.a -o out/chase && out/chase

#include "flecsq.h"

#include <cstdlib>
#include <cstring>
#include <initializer_list>
#include <iostream>
#include <stdexcept>
#include <string>
#include <vector>

static std::string text_of(flecsq_span span) { return std::string(reinterpret_cast<const char *>(span.at), span.len); }
static const uint8_t *bytes_of(const std::string &text) { return reinterpret_cast<const uint8_t *>(text.data()); }

// Throws where a call is not carried out.
static void must(int32_t status, const std::string &what = "") {
    if (status != FLECSQ_OK) {
        flecsq_span why;
        flecsq_explain(status, &why);
        throw std::runtime_error(what + text_of(why));
    }
}

// A row of a query.
struct Row {
    flecsq *handle;
    const flecsq_table *table;
    std::size_t number;

    uint64_t entity() const { return flecsq_number(table->entities[number]); }

    // The value of a component, as a struct that has its fields.
    template <typename Value> Value get(uint64_t component) const {
        flecsq_values values;
        Value value;
        must(flecsq_column(handle, table, component, &values));
        if (values.size != sizeof value) {
            throw std::logic_error("a value has another size");
        }
        std::memcpy(&value, values.at + number * values.size, sizeof value);
        return value;
    }
};

// The rows of a query, for a range-based `for`. They are there until the next line or command.
class Rows {
public:
    Rows(flecsq *handle, uint64_t query) : handle(handle) {
        std::size_t count = 0;
        int32_t status = flecsq_tables(handle, query, nullptr, 0, &count);
        tables.resize(count);
        must(status == FLECSQ_ROOM ? flecsq_tables(handle, query, tables.data(), count, &count) : status);
    }

    struct Iterator {
        flecsq *handle;
        const flecsq_table *table;
        std::size_t number;

        Row operator*() const { return {handle, table, number}; }
        bool operator!=(const Iterator &other) const { return table != other.table || number != other.number; }
        Iterator &operator++() {
            // (each of the tables has rows)
            if (++number == table->count) {
                table++, number = 0;
            }
            return *this;
        }
    };

    Iterator begin() const { return {handle, tables.data(), 0}; }
    Iterator end() const { return {handle, tables.data() + tables.size(), 0}; }

private:
    flecsq *handle;
    std::vector<flecsq_table> tables;
};

// An engine that is closed at the end of its scope. (It is never copied: the handle would be, too.)
class World {
public:
    // (nobody else writes lines here, so the seed may be known)
    World() { must(flecsq_open(1, 2, &handle)); }
    World(const World &) = delete;
    World &operator=(const World &) = delete;
    ~World() { flecsq_close(&handle); }

    // Runs a line, and gives what it prints.
    std::string tell(const std::string &line) {
        int32_t status = flecsq_line(&handle, bytes_of(line), line.size());
        std::string text = told();
        must(status, text + line + " is ");
        return text;
    }

    // What commands have told since this was asked last.
    std::string told() {
        flecsq_span printed;
        must(flecsq_output(&handle, &printed));
        std::string text = text_of(printed);
        must(flecsq_forget(&handle));
        return text;
    }

    uint64_t entity(const std::string &name) { return number_of(flecsq_entity_named, name); }
    uint64_t id(const std::string &name) { return flecsq_id(number_of(flecsq_find, name)); }
    uint64_t query(const std::string &text) { return number_of(flecsq_query, text); }
    Rows rows(uint64_t query) { return Rows(&handle, query); }

    void add(uint64_t entity, uint64_t id) { must(flecsq_add(&handle, entity, id)); }
    void set(uint64_t entity, uint64_t id, std::initializer_list<int64_t> values) { must(flecsq_set(&handle, entity, id, values.begin(), values.size())); }

private:
    uint64_t number_of(int32_t (*call)(flecsq *, const uint8_t *, size_t, uint64_t *), const std::string &text) {
        uint64_t number;
        must(call(&handle, bytes_of(text), text.size(), &number), text + ": ");
        return number;
    }

    flecsq handle = FLECSQ_NONE;
};

// As `component Position x:i32 y:i32` has its fields.
struct Position {
    int32_t x, y;
};

struct Animal {
    uint64_t entity;
    Position at;
};

class Field {
public:
    Field() {
        for (const char *line : {"component Position x:i32 y:i32", "entity Fox", "entity Hare", "entity Caught", "monitor free Hare, !Caught"}) {
            world.tell(line);
        }
        position = world.id("Position"), caught = world.id("Caught");
        foxes = world.query("Fox, Position"), hares = world.query("Hare, !Caught, Position");
    }

    void put(const char *kind, const char *name, int x, int y) {
        uint64_t animal = world.entity(name);
        world.add(animal, world.id(kind));
        world.set(animal, position, {x, y});
    }

    // Whom a query has. (Commands end its rows, so they are kept.)
    std::vector<Animal> animals(uint64_t query) {
        std::vector<Animal> found;
        for (Row row : world.rows(query)) {
            found.push_back({row.entity(), row.get<Position>(position)});
        }
        return found;
    }

    void draw(int turn) {
        std::vector<std::string> lines(5, std::string(16, '.'));
        for (Row hare : world.rows(hares)) {
            Position at = hare.get<Position>(position);
            lines[at.y][at.x] = 'h';
        }
        for (Row fox : world.rows(foxes)) {
            Position at = fox.get<Position>(position);
            lines[at.y][at.x] = 'F';
        }
        std::cout << "turn " << turn << '\n';
        for (const std::string &line : lines) {
            std::cout << "  " << line << '\n';
        }
    }

    // Each fox goes a step in both directions to the hare that is nearest, and catches it where it stands. Hares don't see them.
    std::string move() {
        for (const Animal &fox : animals(foxes)) {
            const Animal *aim = nullptr;
            std::vector<Animal> free = animals(hares);
            for (const Animal &hare : free) {
                if (!aim || distance(fox.at, hare.at) < distance(fox.at, aim->at)) {
                    aim = &hare;
                }
            }
            if (aim) {
                Position to = {towards(fox.at.x, aim->at.x), towards(fox.at.y, aim->at.y)};
                world.set(fox.entity, position, {to.x, to.y});
                if (to.x == aim->at.x && to.y == aim->at.y) {
                    world.add(aim->entity, caught);
                }
            }
        }
        return world.told();
    }

    bool is_empty() { return animals(hares).empty(); }

    World world;

private:
    static int towards(int from, int to) { return from + (to > from) - (to < from); }
    static int distance(Position one, Position other) { return std::abs(one.x - other.x) + std::abs(one.y - other.y); }

    uint64_t position, caught, foxes, hares;
};

int main() {
    Field field;
    field.put("Fox", "Rust", 0, 0);
    field.put("Fox", "Ember", 15, 4);
    field.put("Hare", "Flop", 4, 3);
    field.put("Hare", "Nip", 12, 1);
    field.put("Hare", "Dash", 8, 4);
    // (that they are free)
    field.world.told();

    int turn = 0;
    std::string caught;
    for (; !field.is_empty(); turn++) {
        field.draw(turn);
        std::string told = field.move();
        std::cout << told;
        caught += told;
    }
    std::cout << "All are caught after " << turn << " turns.\n";

    // A line that is refused changes nothing.
    bool is_refused = false;
    try {
        field.world.tell("add Flop Wings");
    } catch (const std::runtime_error &refusal) {
        std::cout << refusal.what() << '\n';
        is_refused = true;
    }
    return is_refused && caught == "leave free Nip\nleave free Flop\nleave free Dash\n" && field.world.tell("query Caught") != "rows 0\n" ? 0 : 1;
}
