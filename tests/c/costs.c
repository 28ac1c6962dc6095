/* What is counted by callgrind: 2,000 lines that set a held component, one at a time; as many calls that do; one that sets all of a table, and one that
 * gives them; as many that ask whether an entity is in a query; a script without these lines and one with them; and where the output is, asked 2,000 times.
 * Each is one function. */
#include "flecsq.h"

#include <stdio.h>
#include <string.h>

enum { COUNT = 2000 };

#define COUNTED __attribute__((noinline)) void

static flecsq handle = FLECSQ_NONE;
static char script[COUNT * 120];
static size_t ends[3 * COUNT + 2], lines;
static uint8_t output[64];

static void add_line(const char *form, int n) {
    ends[lines + 1] = ends[lines] + (size_t)sprintf(script + ends[lines], form, n, n, n);
    lines++;
}

static int run_line(size_t n) { return flecsq_line(&handle, (uint8_t *)script + ends[n], ends[n + 1] - ends[n] - 1); }

static int run_script(size_t len) {
    flecsq_ran ran;
    return flecsq_run(1, 2, (uint8_t *)script, len, output, sizeof output, &ran) || ran.refused;
}

static int wrong;

COUNTED by_lines(void) {
    for (size_t n = lines - COUNT; n < lines; n++) {
        wrong |= run_line(n);
    }
}

COUNTED by_numbers(void) {
    for (uint64_t n = 0; n < COUNT; n++) {
        const int64_t values[2] = {(int64_t)n, 7};
        wrong |= flecsq_set(&handle, 65 + n, 64, values, 2);
    }
}

static flecsq_table table;
static uint64_t placed;
static uint8_t values_of_all[COUNT * 8];

COUNTED of_column(void) {
    flecsq_values values;
    size_t count;
    wrong |= flecsq_tables(&handle, placed, &table, 1, &count) || count != 1 || table.count != COUNT;
    wrong |= flecsq_column(&handle, &table, 64, &values) || values.len != sizeof values_of_all;
}

COUNTED by_column(void) { wrong |= flecsq_set_column(&handle, &table, 64, values_of_all, sizeof values_of_all); }

COUNTED by_matches(void) {
    bool is = false;
    for (uint64_t n = 0; n < COUNT; n++) {
        wrong |= flecsq_matches(&handle, placed, 65 + n, &is) || !is;
    }
}

COUNTED without_them(void) { wrong |= run_script(ends[lines - COUNT]); }

COUNTED with_them(void) { wrong |= run_script(ends[lines]); }

COUNTED of_output(void) {
    flecsq_span out;
    for (int n = 0; n < COUNT; n++) {
        wrong |= flecsq_output(&handle, &out);
    }
}

int main(void) {
    add_line("component Position x:i32 y:i32\n", 0);
    for (int n = 0; n < COUNT; n++) {
        add_line("entity e%d\n", n);
        add_line("set e%d Position %d -%d\n", n);
    }
    for (int n = 0; n < COUNT; n++) {
        add_line("set e%d Position %d %d\n", n);
    }
    wrong |= flecsq_open(1, 2, &handle);
    for (size_t n = 0; n < lines - COUNT; n++) {
        wrong |= run_line(n);
    }
    by_lines();
    by_numbers();
    wrong |= flecsq_query(&handle, (const uint8_t *)"Position", 8, &placed);
    of_column();
    by_column();
    by_matches();
    without_them();
    with_them();
    of_output();
    flecsq_close(&handle);
    return wrong;
}
