/*
 * Translates a subscription and matches notices: those of two staff numbers, and one of a console
 * that sends no Staff field. A missing name is bottom, not unequal, so that notice is not delivered.
 * Which field Staff is, if any, is asked beside it.
 */
#include "notice.h"

/* Says which field has the name, and how many names were looked at to tell. */
static void find(const struct notice *n, const char *name)
{
    size_t place, index, looked;
    virentolex_find(n->bytes, n->length, (const uint8_t *)name, strlen(name),
                    &place, &index, &looked);
    if (index == VIRENTOLEX_NO_FIELD)
        printf("; no field %s, %zu looked at\n", name, looked);
    else
        printf("; %s is field %zu, %zu looked at\n", name, index, looked);
}

static void match(const uint8_t *table, size_t table_len, const struct notice *n)
{
    static const char *const names[] = {"false", "true", "bottom"};
    size_t place, steps;
    uint8_t verdict;
    uint16_t undecided;
    uint8_t number = virentolex_run(table, table_len, n->bytes, n->length,
                                    &place, &verdict, &steps, &undecided);
    show(n);
    if (number != 0)
        printf(": refused %d at %zu", number, place);
    else
        printf(": %s, %s", names[verdict],
               verdict == VIRENTOLEX_TRUE ? "delivered" : "not delivered");
    find(n, "Staff");
}

int main(void)
{
    static uint8_t table[VIRENTOLEX_TABLE_MAX];
    static struct notice notices[3];
    size_t length;
    if (translate("Staff != \"417\"", table, sizeof table, &length))
        return 1;
    for (int i = 0; i < 3; i++)
        begin(&notices[i]);
    if (add(&notices[0], "Staff", "417") || add(&notices[0], "Console", "counting room") ||
        add(&notices[1], "Staff", "502") || add(&notices[1], "Console", "counting room") ||
        add(&notices[2], "Console", "yard"))
        return 1;
    for (int i = 0; i < 3; i++)
        match(table, length, &notices[i]);
    return 0;
}
