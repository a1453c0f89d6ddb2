/*
 * A router with three subscriptions: their tables lie end to end, and one call gives each one's verdict
 * on a notice. A table that is spoiled is refused alone; the others are answered as before.
 */
#include "notice.h"

static const char *const texts[] = {
    "Console == \"counting room\"", "wildcard (Cab, \"T-4?\", \"V*\")", "Staff != \"417\""};

static void deliver(const uint8_t *tables, size_t tables_len, const struct notice *n)
{
    static const char *const names[] = {"false", "true", "bottom", "table refused"};
    uint8_t verdicts[VIRENTOLEX_TABLES_MAX];
    size_t place, count;
    uint8_t number = virentolex_run_many(tables, tables_len, n->bytes, n->length,
                                         verdicts, sizeof verdicts, &place, &count);
    show(n);
    if (number != 0)
        printf(": refused %d at %zu\n", number, place);
    else
        printf(": %zu verdicts\n", count);
    for (size_t i = 0; i < count; i++)
        printf("  %s: %s, %s\n", texts[i], names[verdicts[i]],
               verdicts[i] == VIRENTOLEX_TRUE ? "delivered" : "not delivered");
}

int main(void)
{
    static uint8_t tables[3 * VIRENTOLEX_TABLE_MAX];
    static struct notice n;
    size_t starts[3], end = 0, length;
    for (int i = 0; i < 3; i++) {
        starts[i] = end;
        if (translate(texts[i], tables + end, sizeof tables - end, &length))
            return 1;
        end += length;
    }
    begin(&n);
    if (add(&n, "Cab", "T-41") || add(&n, "Console", "yard"))
        return 1;
    deliver(tables, end, &n);
    tables[starts[1] + 4] = 7; /* the second table's kind, which is 2 */
    deliver(tables, end, &n);
    return 0;
}
