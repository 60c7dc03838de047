/* The library's largest use of the stack over some logs: every question is asked in a thread whose stack was painted beforehand, and what
 * lost its paint is counted. The thread's own start costs some hundred bytes of that.
 *
 *     stack LOG..
 */
#include <pthread.h>
#include <stdio.h>
#include <stdlib.h>
#include <string.h>
#include <sys/mman.h>
#include "tegmeadow.h"

enum { SIZE = 1 << 20, PAINT = 0xa5 };

struct job {
    const uint8_t *log;
    size_t size;
};

static uint32_t listing[5 * 65536];
static uint64_t cells[8 * 4096];

static void *ask(void *lent) {
    struct job *j = lent;
    size_t place, length, events, changes, columns;
    uint64_t table, cell[8];
    uint32_t entry[5];
    tegmeadow_check(j->log, j->size, &place, &events, &changes);
    if (tegmeadow_list(j->log, j->size, listing, sizeof listing / 4, &place, &events, &changes) == 0)
        tegmeadow_values(j->log, j->size, listing, 5 * changes, cells, sizeof cells / 8);
    tegmeadow_change(j->log, j->size, 0, &place, entry, &table, &columns);
    tegmeadow_database_name(j->log, j->size, 0, &place, &length);
    tegmeadow_table_name(j->log, j->size, 0, &place, &length);
    for (size_t side = 0; side < 2; side++) {
        tegmeadow_value(j->log, j->size, 0, side, 0, &place, cell);
        tegmeadow_text(j->log, j->size, 0, side, 0, &place, &length);
        tegmeadow_value_at(j->log, j->size, listing, side, 0, cell);
        tegmeadow_text_at(j->log, j->size, listing, side, 0, &place, &length);
    }
    tegmeadow_change_at(j->log, j->size, listing, &table, &columns);
    tegmeadow_database_name_at(j->log, j->size, listing, &place, &length);
    tegmeadow_table_name_at(j->log, j->size, listing, &place, &length);
    return NULL;
}

/* How many bytes of a painted stack a job uses; 0 where there is no thread. */
static size_t used(uint8_t *stack, void *(*run)(void *), struct job *j) {
    pthread_attr_t attributes;
    pthread_t thread;
    size_t i = 0;
    memset(stack, PAINT, SIZE);
    pthread_attr_init(&attributes);
    if (pthread_attr_setstack(&attributes, stack, SIZE) != 0 || pthread_create(&thread, &attributes, run, j) != 0)
        return 0;
    pthread_join(thread, NULL);
    while (i < SIZE && stack[i] == PAINT)
        i++;
    return SIZE - i;
}

static void *nothing(void *lent) { return lent; }

int main(int count, char **names) {
    uint8_t *stack = mmap(NULL, SIZE, PROT_READ | PROT_WRITE, MAP_PRIVATE | MAP_ANONYMOUS, -1, 0);
    size_t most = 0, empty;
    if (stack == MAP_FAILED)
        return 2;
    empty = used(stack, nothing, NULL);
    for (int i = 1; i < count; i++) {
        FILE *f = fopen(names[i], "rb");
        struct job j;
        uint8_t *log;
        if (f == NULL || fseek(f, 0, SEEK_END) != 0)
            return 2;
        j.size = (size_t)ftell(f);
        rewind(f);
        log = malloc(j.size + 1);
        if (log == NULL || fread(log, 1, j.size, f) != j.size)
            return 2;
        fclose(f);
        j.log = log;
        size_t bytes = used(stack, ask, &j);
        if (bytes > most)
            most = bytes;
        free(log);
    }
    printf("largest use of the stack: %zu bytes (of which a thread that does nothing: %zu)\n", most, empty);
    return 0;
}
