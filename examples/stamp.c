/* stamp SHEET SUPERTYPE NAME..: the number of a set of names, and the names of that number.
   A name is written SCHEMA.ENTITY, as in `stamp examples/cam.sheet cam.frame cam.exposed`. */
#include <stdio.h>
#include <stdlib.h>
#include <string.h>

#include "dinkolafe.h"

#define ENTITY 0x60
#define SCHEMA 0x67
#define MOST_BYTES 65535
#define MOST_NAMES 64

static uint8_t sheet[MOST_BYTES + 1];
static size_t sheet_len;
static uint16_t workspace[DINKOLAFE_WORKSPACE];

static void stop(const char *why) {
    fprintf(stderr, "stamp: %s\n", why);
    exit(2);
}

/* Ends the program where a question was refused. */
static void check(uint8_t number, const uint64_t *place) {
    if (number == 0) return;
    printf("refused %u %llu\n", number, (unsigned long long)*place);
    exit(1);
}

/* One field of a query: a tag, two bytes of length, the name. */
static size_t put(uint8_t *query, uint8_t tag, const char *name, size_t len) {
    query[0] = tag;
    query[1] = (uint8_t)(len >> 8);
    query[2] = (uint8_t)len;
    memcpy(query + 3, name, len);
    return 3 + len;
}

/* The query of an entity's path. */
static size_t path(uint8_t *query, size_t room, const char *name) {
    const char *dot = strchr(name, '.');
    if (dot == NULL || room < strlen(name) + 6) stop("a name is SCHEMA.ENTITY, and not that long");
    size_t at = put(query, SCHEMA, name, (size_t)(dot - name));
    return at + put(query + at, ENTITY, dot + 1, strlen(dot + 1));
}

static uint16_t index_of(const char *name) {
    uint8_t query[200];
    uint64_t value;
    size_t len = path(query, sizeof query, name);
    check(dinkolafe_get(sheet, sheet_len, query, len, &value), &value);
    return (uint16_t)value;
}

static int rising(const void *left, const void *right) {
    return (int)*(const uint16_t *)left - (int)*(const uint16_t *)right;
}

/* The row that has the names. */
static void row_of(char **names, size_t count, uint16_t *row) {
    uint16_t indices[MOST_NAMES];
    uint64_t value;
    if (count > MOST_NAMES) stop("too many names");
    for (size_t i = 0; i < count; i++) indices[i] = index_of(names[i]);
    qsort(indices, count, sizeof indices[0], rising);
    check(dinkolafe_new(indices, count, row, DINKOLAFE_ROW, &value), &value);
}

static void print_name(uint16_t index) {
    uint64_t start, end;
    check(dinkolafe_schema_name(sheet, sheet_len, index, &start, &end), &start);
    printf(" %.*s.", (int)(end - start), (const char *)sheet + start);
    check(dinkolafe_item_name(sheet, sheet_len, index, &start, &end), &start);
    printf("%.*s", (int)(end - start), (const char *)sheet + start);
}

static void read_sheet(const char *name) {
    FILE *file = fopen(name, "rb");
    if (file == NULL) stop("the sheet can't be read");
    sheet_len = fread(sheet, 1, sizeof sheet, file); /* one byte too many is refused with 1 */
    fclose(file);
}

int main(int count, char **words) {
    uint16_t row[DINKOLAFE_ROW], back[DINKOLAFE_ROW];
    uint8_t query[200];
    uint64_t number, value;
    if (count < 3) stop("usage: stamp SHEET SUPERTYPE NAME..");
    read_sheet(words[1]);
    size_t len = path(query, sizeof query, words[2]);
    row_of(words + 3, (size_t)count - 3, row);
    check(dinkolafe_number_of(sheet, sheet_len, query, len, row, DINKOLAFE_ROW, workspace, DINKOLAFE_WORKSPACE, &number), &number);
    printf("number %llu\n", (unsigned long long)number);
    check(dinkolafe_row_at(sheet, sheet_len, query, len, (size_t)number, workspace, DINKOLAFE_WORKSPACE, back, DINKOLAFE_ROW, &value), &value);
    printf("names");
    for (size_t i = 1; i <= back[0]; i++) print_name(back[i]);
    printf("\n");
    return 0;
}
