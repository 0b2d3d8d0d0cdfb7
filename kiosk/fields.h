/* Lines of fields that are parted by commas, as sheets and texts have them. */
#ifndef FIELDS_H
#define FIELDS_H

#include <stddef.h>
#include <stdint.h>
#include <string.h>

enum { FIELDS = 10 };

struct Field {
    const uint8_t *at;
    size_t length;
};

/* The fields of the first line; 0 where it has no end or too many of them. */
static inline size_t split(const uint8_t *line, size_t length, struct Field fields[FIELDS]) {
    size_t count = 0, from = 0;
    memset(fields, 0, FIELDS * sizeof *fields);
    for (size_t i = 0; i < length; i++) {
        if (line[i] != ',' && line[i] != '\n') continue;
        if (count == FIELDS) return 0;
        fields[count++] = (struct Field){line + from, i - from};
        from = i + 1;
        if (line[i] == '\n') return count;
    }
    return 0;
}

/* To the line after the first; 0 where that has no end. */
static inline int next_line(const uint8_t **at, size_t *length) {
    const uint8_t *end = memchr(*at, '\n', *length);
    if (!end) return 0;
    *length -= (size_t)(end + 1 - *at);
    *at = end + 1;
    return 1;
}

static inline int is(struct Field field, const char *word) {
    return field.length == strlen(word) && memcmp(field.at, word, field.length) == 0;
}

/* A decimal number up to `most`, without leading zeros. */
static inline int number(struct Field field, uint32_t most, uint32_t *value) {
    uint64_t sum = 0;
    if (field.length == 0 || (field.length > 1 && field.at[0] == '0')) return 0;
    for (size_t i = 0; i < field.length; i++) {
        if (field.at[i] < '0' || field.at[i] > '9') return 0;
        sum = sum * 10 + (uint64_t)(field.at[i] - '0');
        if (sum > most) return 0;
    }
    *value = (uint32_t)sum;
    return 1;
}

#endif
