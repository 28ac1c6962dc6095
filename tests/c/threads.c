/* Four threads with an engine each, with different seeds and small stacks: they print the same. */
#include "flecsq.h"

#include <pthread.h>
#include <stdio.h>
#include <string.h>

enum { THREADS = 4, ENTITIES = 20000, STACK = 128 * 1024 };

static size_t sums[THREADS];

static void tell(flecsq *handle, const char *line) { flecsq_line(handle, (const uint8_t *)line, strlen(line)); }

static void *play(void *number) {
    flecsq handle = FLECSQ_NONE;
    flecsq_span out;
    char line[64];
    size_t sum = 0;
    if (flecsq_open((uint64_t)(size_t)number, 7, &handle) != FLECSQ_OK) {
        return NULL;
    }
    tell(&handle, "component Position x:i32");
    tell(&handle, "monitor placed Position");
    for (int n = 0; n < ENTITIES; n++) {
        snprintf(line, sizeof line, "entity E%d", n);
        tell(&handle, line);
        snprintf(line, sizeof line, "set E%d Position %d", n, n);
        tell(&handle, line);
    }
    tell(&handle, "query Position, !{ !Position, Position || !{ Position } }, ?Position(up)");
    flecsq_output(&handle, &out);
    for (size_t at = 0; at < out.len; at++) {
        sum = sum * 31 + out.at[at];
    }
    flecsq_close(&handle);
    sums[(size_t)number] = sum;
    return NULL;
}

int main(void) {
    pthread_t threads[THREADS];
    pthread_attr_t small;
    pthread_attr_init(&small);
    pthread_attr_setstacksize(&small, STACK);
    for (size_t n = 0; n < THREADS; n++) {
        pthread_create(&threads[n], &small, play, (void *)n);
    }
    for (size_t n = 0; n < THREADS; n++) {
        pthread_join(threads[n], NULL);
    }
    for (size_t n = 1; n < THREADS; n++) {
        if (!sums[n] || sums[n] != sums[0]) {
            printf("thread %zu printed something else than the first\n", n);
            return 1;
        }
    }
    return 0;
}
