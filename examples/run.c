/* Prints a design's arbiter list, as the list program does, and runs its circuit under that list: run FILE.table [ARGUMENTS..]
   Or prints its arbiter sheet, as the sheet program does: run --sheet FILE.table
   Exit status 0; 1 where something is refused; 2 where the call is wrong or the file can't be read, with one line on standard error. */
#include <stdbool.h>
#include <stdint.h>
#include <stdio.h>
#include <string.h>

#include "safl.h"

/* Steps after which the run is given up. */
#define BUDGET 1000000u

/* Main has eight arguments at most; one more says that there are too many. */
#define MOST_ARGUMENTS 9

static int complain(const char *line) {
    fprintf(stderr, "%s\n", line);
    return 2;
}

static int refused(uint32_t refusal) {
    printf("refused %u %u\n", safl_number(refusal), safl_place(refusal));
    return 1;
}

/* A decimal number of 32 bits. */
static bool parse(const char *word, uint32_t *number) {
    uint64_t sum = 0;
    if (*word == '\0') {
        return false;
    }
    for (; *word != '\0'; word++) {
        if (*word < '0' || *word > '9') {
            return false;
        }
        sum = 10 * sum + (uint64_t)(*word - '0');
        if (sum > UINT32_MAX) {
            return false;
        }
    }
    *number = (uint32_t)sum;
    return true;
}

/* The file's bytes, up to this many. */
static bool read_file(const char *name, uint8_t *bytes, size_t most, size_t *len) {
    FILE *file = fopen(name, "rb");
    if (file == NULL) {
        return false;
    }
    *len = fread(bytes, 1, most, file);
    bool whole = !ferror(file);
    fclose(file);
    return whole;
}

/* The list of an accepted table; its tags are left in the lent bytes. */
static uint32_t print_list(const uint8_t *table, size_t len, uint8_t *tags, size_t tags_len) {
    struct safl_record records[SAFL_NODES] = {{0, 0, 0}};
    uint32_t refusal = list_fill_tags(table, len, tags, tags_len);
    if (refusal == 0) {
        refusal = list_fill_records(table, len, records, SAFL_NODES);
    }
    if (refusal != 0) {
        return refusal;
    }
    uint64_t total = list_total(tags, tags_len);
    printf("design %d %d\n", table[0] + 256 * table[1], table[2] + 256 * table[3]);
    for (uint64_t i = 0; i < total; i++) {
        printf("arbiter %u %u %u\n", (unsigned)records[i].callee, (unsigned)records[i].caller, (unsigned)records[i].node);
    }
    printf("total %u\n", (unsigned)total);
    return 0;
}

/* The arbiter sheet of a table; a zero byte is not put after it. */
static int print_sheet(const uint8_t *table, size_t len) {
    static uint8_t text[SAFL_SHEET_BYTES];
    uint64_t answer = sheet_fill(table, len, text);
    if (safl_kind(answer) == SAFL_REFUSED) {
        return refused(safl_lower(answer));
    }
    fwrite(text, 1, safl_lower(answer), stdout);
    return 0;
}

/* Main's run from its start to its answer, to a rest or to the end of the budget. */
static int run(const uint8_t *table, size_t len, const uint8_t *tags, size_t tags_len, const uint32_t *args, size_t count) {
    struct safl_state state = {0};
    uint32_t steps = 0;
    uint64_t answer = circuit_start(table, len, tags, tags_len, SAFL_LENT(&state), args, count);
    if (safl_kind(answer) == SAFL_PLAIN) {
        answer = circuit_drive(table, len, tags, tags_len, SAFL_LENT(&state), BUDGET, &steps);
    }
    switch (safl_kind(answer)) {
    case SAFL_REFUSED:
        return refused(safl_lower(answer));
    case SAFL_VALUE:
        printf("answered %lu\n", (unsigned long)safl_lower(answer));
        break;
    case SAFL_SPENT:
        printf("spent\n");
        break;
    default:
        printf("at rest\n");
    }
    printf("steps %lu\n", (unsigned long)steps);
    return 0;
}

int main(int argc, char **argv) {
    /* one byte more than the longest table has: what is longer is refused too */
    static uint8_t table[SAFL_TABLE_BYTES + 1];
    uint8_t tags[SAFL_TAG_BYTES] = {0};
    uint32_t args[MOST_ARGUMENTS] = {0};
    size_t len, count = 0;

    if (argc < 2) {
        return complain("usage: run FILE.table [ARGUMENTS..], or run --sheet FILE.table");
    }
    bool sheet = argc == 3 && strcmp(argv[1], "--sheet") == 0;
    for (int i = 2; i < argc && !sheet; i++) {
        uint32_t number;
        if (!parse(argv[i], &number)) {
            return complain("run: an argument is no number from 0 to 4294967295");
        }
        if (count < MOST_ARGUMENTS) {
            args[count++] = number;
        }
    }
    if (!read_file(argv[sheet ? 2 : 1], table, sizeof table, &len)) {
        return complain("run: the table file can't be read");
    }
    if (sheet) {
        return print_sheet(table, len);
    }

    uint32_t refusal = table_check(table, len);
    size_t tags_len = 0;
    if (refusal == 0) {
        tags_len = ((size_t)table[2] + 256 * (size_t)table[3] + 7) / 8;
        refusal = print_list(table, len, tags, tags_len);
    }
    if (refusal != 0) {
        return refused(refusal);
    }
    return run(table, len, tags, tags_len, args, count);
}
