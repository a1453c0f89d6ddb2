/*
 * The editions of a table: a subscription that shifts by the number of a door, run by each edition on
 * notices, which are UBF(A) texts. By the first a number outside the width of 32 bits is bottom; by the
 * second it is taken by its remainder. There is no third.
 */
#include "virentolex.h"

#include <stdio.h>
#include <string.h>

static const char text[] = "1 << Door & Open != 0";
static const char *const notices[] = {
    "{\"Door\"1\"Open\"2}$", "{\"Door\"33\"Open\"2}$", "{\"Door\"-1\"Open\"2}$"};

static void run(const uint8_t *table, size_t table_len, const char *ubf)
{
    static const char *const names[] = {"false", "true", "bottom"};
    uint8_t notice[VIRENTOLEX_NOTICE_MAX], verdict;
    size_t place, notice_len, steps;
    uint16_t undecided;
    virentolex_ubf_read((const uint8_t *)ubf, strlen(ubf), notice, sizeof notice, &place, &notice_len);
    virentolex_run(table, table_len, notice, notice_len, &place, &verdict, &steps, &undecided);
    printf("  %s: %s\n", ubf, names[verdict]);
}

int main(void)
{
    static const size_t editions[] = {VIRENTOLEX_FIRST_EDITION, VIRENTOLEX_SECOND_EDITION, 3};
    for (size_t i = 0; i < 3; i++) {
        uint8_t table[VIRENTOLEX_TABLE_MAX];
        size_t place, length;
        uint8_t number = virentolex_translate(editions[i], (const uint8_t *)text, strlen(text),
                                              table, sizeof table, &place, &length);
        if (number != 0) {
            printf("%s, edition %zu: refused %d\n", text, editions[i], number);
            continue;
        }
        printf("%s, edition %zu: a table of kind %d, %zu bytes\n", text, editions[i], table[4], length);
        for (size_t k = 0; k < 3; k++)
            run(table, length, notices[k]);
    }
    return 0;
}
