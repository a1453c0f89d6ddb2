/* Notices of string fields, for the examples. */
#include "virentolex.h"

#include <stdio.h>
#include <string.h>

struct notice {
    uint8_t bytes[VIRENTOLEX_NOTICE_MAX];
    size_t length;
};

static void begin(struct notice *n)
{
    static const uint8_t empty[] = {4, 0, 0, 0, 1, 0, 0, 0};
    memcpy(n->bytes, empty, sizeof empty);
    n->length = sizeof empty;
}

/* Adds a string field; 0, or the refusal's number. */
static uint8_t add(struct notice *n, const char *name, const char *value)
{
    size_t place;
    return virentolex_write(n->bytes, sizeof n->bytes, n->length,
                            (const uint8_t *)name, strlen(name), VIRENTOLEX_STRING,
                            (const uint8_t *)value, strlen(value), &place, &n->length);
}

/* The fields of a notice, in its order, which is that of their names. */
static void show(const struct notice *n)
{
    size_t k = 0, place, name, value, end;
    uint16_t kind;
    while (virentolex_read(n->bytes, n->length, k, &place, &kind, &name, &value, &end) == 0) {
        printf("%s%.*s=%.*s", k == 0 ? "" : " ",
               (int)(value - name), (const char *)n->bytes + name,
               (int)(end - value), (const char *)n->bytes + value);
        k++;
    }
}

/* Translates a subscription by the first edition, since none of the examples that use this shifts, and says
 * how long its table is; 0, or the refusal's number. */
static uint8_t translate(const char *text, uint8_t *table, size_t room, size_t *length)
{
    size_t place;
    uint8_t number = virentolex_translate(VIRENTOLEX_FIRST_EDITION,
                                          (const uint8_t *)text, strlen(text),
                                          table, room, &place, length);
    if (number != 0)
        printf("%s: refused %d at %zu\n", text, number, place);
    else
        printf("%s: a table of %zu bytes\n", text, *length);
    return number;
}
