/* Prints what each log named by a line of standard input is answered, through
 * the header, in the form of crates/evidence/stdout. */
#include "tegmeadow.h"

#include <stdio.h>
#include <stdlib.h>
#include <string.h>

#define LONGEST 65536
#define FEW 32768
#define MARK 0xa5a5a5a5u
#define ROOM 4096
#define CELLS 8192

static uint8_t log_bytes[LONGEST + 1];
static size_t log_len;

static void print_number(uint64_t n)
{
    char digits[24];
    size_t at = sizeof digits;

    do
        digits[--at] = (char)('0' + n % 10);
    while (n /= 10);
    fwrite(digits + at, 1, sizeof digits - at, stdout);
}

static void print_numbers(const uint64_t *numbers, size_t count)
{
    size_t i;

    for (i = 0; i < count; i++) {
        if (i)
            putchar(' ');
        print_number(numbers[i]);
    }
}

static void print_part(size_t place, size_t length)
{
    size_t i;

    printf(" x");
    for (i = 0; i < length; i++)
        printf("%02x", log_bytes[place + i]);
}

static void print_refused(uint32_t number, size_t place)
{
    printf("refused %u at %lu\n", (unsigned)number, (unsigned long)place);
}

static void print_checked(uint32_t number, size_t place, size_t events, size_t changes)
{
    if (number == 0)
        printf("accepted %lu %lu\n", (unsigned long)events, (unsigned long)changes);
    else if (events || changes)
        printf("counts of a refused log\n");
    else
        print_refused(number, place);
}

/* A listing into the first numbers of a buffer that holds marks. */
static void ask_list(size_t room)
{
    uint32_t out[ROOM];
    size_t place, events, changes, i;
    uint32_t number;
    int kept = 1;

    for (i = 0; i < ROOM; i++)
        out[i] = MARK;
    number = tegmeadow_list(log_bytes, log_len, out, room, &place, &events, &changes);
    printf("list %lu ", (unsigned long)room);
    print_checked(number, place, events, changes);
    for (i = 5 * changes; i < ROOM; i++)
        kept = kept && out[i] == MARK;
    printf(kept ? "kept\n" : "changed\n");
}

/* The stored value of a cell. */
static void print_cell(size_t k, size_t side, size_t column, const uint64_t cell[8])
{
    static const struct { unsigned kind; size_t numbers; } sizes[] = {
        {1, 1}, {2, 1}, {3, 1}, {8, 1}, {9, 1}, {4, 1}, {5, 1}, {10, 3}, {13, 1},
        {17, 2}, {18, 7}, {19, 5}, {15, 2}, {252, 2},
    };
    size_t i, place, length;

    print_number(cell[0]);
    putchar(' ');
    if (cell[0] == 19) {
        printf("%c ", cell[1] ? '-' : '+');
        print_numbers(cell + 2, 4);
    } else if (cell[0] < 10 && cell[0] != 4 && cell[0] != 5 && (int64_t)cell[1] < 0) {
        putchar('-');
        print_number(0 - cell[1]);
    } else {
        for (i = 0; i < sizeof sizes / sizeof *sizes; i++)
            if (sizes[i].kind == cell[0])
                print_numbers(cell + 1, sizes[i].numbers);
    }
    tegmeadow_text(log_bytes, log_len, k, side, column, &place, &length);
    if (cell[0] == 15 || cell[0] == 252)
        print_part(cell[1], cell[2]);
    if ((cell[0] == 15 || cell[0] == 252) ? place != cell[1] || length != cell[2]
                                         : place || length)
        printf(" another part");
    putchar('\n');
}

/* What is asked at the entry must be what is asked of change k. */
static void same_at(const uint32_t *entry, size_t side, size_t column, uint32_t number,
                    const uint64_t cell[8])
{
    uint64_t again[8];
    uint32_t answer;

    memset(again, 0x5a, sizeof again);
    answer = tegmeadow_value_at(log_bytes, log_len, entry, side, column, again);
    if (number ? answer != 19 || again[0] != 0x5a5a5a5a5a5a5a5au
               : answer != 0 || memcmp(cell, again, sizeof again) != 0)
        printf("another value at the entry\n");
}

/* Whether the value was answered. */
static int ask_value(size_t k, const uint32_t *entry, size_t side, size_t column)
{
    size_t place;
    uint64_t cell[8];
    uint32_t number = tegmeadow_value(log_bytes, log_len, k, side, column, &place, cell);

    if (entry)
        same_at(entry, side, column, number, cell);
    printf("value %lu %lu %lu ", (unsigned long)k, (unsigned long)side, (unsigned long)column);
    if (number)
        print_refused(number, place);
    else if (cell[0] == TEGMEADOW_ABSENT)
        printf("absent\n");
    else if (cell[0] == TEGMEADOW_NULL)
        printf("null\n");
    else
        print_cell(k, side, column, cell);
    return number == 0;
}

/* The names by change and by entry. */
static void print_names(size_t k, const uint32_t entry[5])
{
    size_t a, a_size, b, b_size;

    tegmeadow_database_name(log_bytes, log_len, k, &a, &a_size);
    tegmeadow_database_name_at(log_bytes, log_len, entry, &b, &b_size);
    print_part(a, a_size);
    if (a != b || a_size != b_size)
        printf(" another database");
    tegmeadow_table_name(log_bytes, log_len, k, &a, &a_size);
    tegmeadow_table_name_at(log_bytes, log_len, entry, &b, &b_size);
    print_part(a, a_size);
    if (a != b || a_size != b_size)
        printf(" another table");
    putchar('\n');
}

/* Whether the change was answered. */
static int ask_change(size_t k)
{
    uint32_t entry[5];
    uint64_t numbers[7];
    uint64_t table, table_again;
    size_t place, columns, columns_again, side, column, i;
    uint32_t number =
        tegmeadow_change(log_bytes, log_len, k, &place, entry, &table, &columns);

    printf("change %lu ", (unsigned long)k);
    if (number) {
        print_refused(number, place);
    } else {
        for (i = 0; i < 5; i++)
            numbers[i] = entry[i];
        numbers[5] = table;
        numbers[6] = columns;
        print_numbers(numbers, 7);
        print_names(k, entry);
        if (tegmeadow_change_at(log_bytes, log_len, entry, &table_again, &columns_again) != 0
            || table_again != table || columns_again != columns)
            printf("another change at the entry\n");
    }
    for (side = 0; side < 3; side++)
        for (column = 0; column < 513; column++)
            if (!ask_value(k, number ? NULL : entry, side, column))
                break;
    return number == 0;
}

/* The cells of a listing into room for so many: those asked for one by one,
 * and what follows them as it was. */
static int same_cells(const uint32_t *listing, size_t changes, size_t room)
{
    static uint64_t cells[8 * CELLS];
    size_t written, at = 0, k, side, column;
    uint64_t cell[8];

    memset(cells, 0x5a, sizeof cells);
    written = tegmeadow_values(log_bytes, log_len, listing, 5 * changes, cells, 8 * room + 7);
    for (k = 0; k < changes; k++)
        for (side = 0; side < 2; side++)
            for (column = 0; listing[5 * k + 3 + side] && at < room; column++) {
                if (tegmeadow_value_at(log_bytes, log_len, listing + 5 * k, side, column, cell))
                    break;
                if (memcmp(cell, cells + 8 * at, sizeof cell) != 0)
                    return 0;
                at++;
            }
    for (k = 8 * at; k < 8 * CELLS; k++)
        if (cells[k] != 0x5a5a5a5a5a5a5a5au)
            return 0;
    return written == at;
}

static void ask_values(size_t changes)
{
    static uint32_t listing[5 * LONGEST];
    static const size_t rooms[] = {0, 1, 7, 512, CELLS - 1};
    size_t place, events, i;

    tegmeadow_list(log_bytes, log_len, listing, 5 * LONGEST, &place, &events, &changes);
    for (i = 0; i < sizeof rooms / sizeof *rooms; i++)
        if (!same_cells(listing, changes, rooms[i]))
            printf("other cells in room for %lu\n", (unsigned long)rooms[i]);
}

static void ask_all(size_t changes)
{
    size_t k;

    ask_values(changes);

    if (0 < changes)
        ask_list(5 * changes - 1);
    ask_list(5 * changes);
    ask_list(5 * changes + 3);
    for (k = 0; k <= changes; k++)
        if (!ask_change(k))
            return;
}

/* The answer of check and the listing. */
static size_t print_input(void)
{
    static uint32_t out[5 * LONGEST];
    size_t place, events, changes, i;
    uint32_t number = tegmeadow_check(log_bytes, log_len, &place, &events, &changes);

    print_checked(number, place, events, changes);
    tegmeadow_list(log_bytes, log_len, out, 5 * LONGEST, &place, &events, &changes);
    for (i = 0; i < 5 * changes; i++) {
        print_number(out[i]);
        putchar(i % 5 == 4 ? '\n' : ' ');
    }
    return changes;
}

int main(void)
{
    char path[1024];

    while (fgets(path, sizeof path, stdin)) {
        FILE *file;
        size_t changes;

        path[strcspn(path, "\n")] = 0;
        printf("== %s\n", path);
        file = fopen(path, "rb");
        if (file == NULL)
            return 2;
        log_len = fread(log_bytes, 1, sizeof log_bytes, file);
        fclose(file);
        if (log_len > LONGEST) {
            printf("too long\n");
            continue;
        }
        changes = print_input();
        if (log_len <= FEW)
            ask_all(changes);
    }
    return 0;
}
