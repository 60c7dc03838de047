/* Lists a log: a line for each row change with its kind, its table and its
 * places.  cc list.c -I include -L crates/tegmeadow/out -ltegmeadow -o list */
#include "tegmeadow.h"

#include <stdio.h>
#include <stdlib.h>

/* The whole file in memory of its own; null where it can't be read. */
static uint8_t *read_file(const char *path, size_t *length)
{
    FILE *file = fopen(path, "rb");
    uint8_t *bytes = NULL;
    long size = -1;

    if (file == NULL)
        return NULL;
    if (fseek(file, 0, SEEK_END) == 0)
        size = ftell(file);
    /* one more byte, since no pointer may be null */
    if (size >= 0)
        bytes = (uint8_t *)malloc((size_t)size + 1);
    if (bytes != NULL) {
        rewind(file);
        *length = fread(bytes, 1, (size_t)size, file);
    }
    fclose(file);
    return bytes;
}

static void print_change(const uint8_t *log, size_t length, const uint32_t entry[5])
{
    static const char *const kinds[] = {"write", "update", "delete"};
    size_t database, database_size, table, table_size;

    tegmeadow_database_name_at(log, length, entry, &database, &database_size);
    tegmeadow_table_name_at(log, length, entry, &table, &table_size);
    printf("%s %.*s.%.*s %u %u %u %u\n", kinds[(entry[0] - 30) % 3],
           (int)database_size, (const char *)log + database,
           (int)table_size, (const char *)log + table,
           (unsigned)entry[1], (unsigned)entry[2], (unsigned)entry[3], (unsigned)entry[4]);
}

int main(int argc, char **argv)
{
    size_t length = 0, place, events, changes, k;
    uint8_t *log = argc == 2 ? read_file(argv[1], &length) : NULL;
    uint32_t *listing;
    uint32_t refused;

    if (log == NULL) {
        fprintf(stderr, "usage: list FILE\n");
        return 2;
    }
    refused = tegmeadow_check(log, length, &place, &events, &changes);
    if (refused) {
        printf("refused %u at %lu\n", (unsigned)refused, (unsigned long)place);
        free(log);
        return 1;
    }
    listing = (uint32_t *)malloc((changes + 1) * 5 * sizeof *listing);
    if (listing == NULL) {
        free(log);
        return 2;
    }
    tegmeadow_list(log, length, listing, changes * 5, &place, &events, &changes);
    for (k = 0; k < changes; k++)
        print_change(log, length, listing + 5 * k);
    free(listing);
    free(log);
    return 0;
}
