/*
 * Subscriptions come and go while notices are matched. The store has 160 bytes: two of three subscriptions fit. One of
 * them is removed, and the third takes its number and its room.
 */
#include "notice.h"

static const char *const texts[] = {
    "Console == \"counting room\"", "wildcard (Cab, \"T-4?\", \"V*\")", "Staff != \"417\""};

static uint8_t store[160];

static void add_table(const char *text, const uint8_t *table, size_t length)
{
    size_t id;
    uint8_t number = virentolex_store_add(store, sizeof store, table, length, &id);
    if (number != 0)
        printf("added %s: refused %d\n", text, number);
    else
        printf("added %s: number %zu\n", text, id);
}

static void remove_table(size_t id)
{
    uint8_t number = virentolex_store_remove(store, sizeof store, id);
    if (number != 0)
        printf("removed number %zu: refused %d\n", id, number);
    else
        printf("removed number %zu\n", id);
}

static void deliver(const struct notice *n)
{
    static const char *const names[] = {"false", "true", "bottom", "refused"};
    uint8_t verdicts[VIRENTOLEX_STORE_PLACES];
    size_t place, start, end, held = 0;
    uint8_t number = virentolex_store_match(store, sizeof store, n->bytes, n->length,
                                            verdicts, sizeof verdicts, &place);
    show(n);
    if (number != 0) {
        printf(": refused %d at %zu\n", number, place);
        return;
    }
    for (size_t id = 0; id < sizeof verdicts; id++)
        held += verdicts[id] != VIRENTOLEX_FREE;
    printf(": %zu held\n", held);
    for (size_t id = 0; id < sizeof verdicts; id++)
        if (virentolex_store_fetch(store, sizeof store, id, &start, &end) == 0)
            printf("  %zu, a table of %zu bytes: %s, %s\n", id, end - start, names[verdicts[id]],
                   verdicts[id] == VIRENTOLEX_TRUE ? "delivered" : "not delivered");
}

int main(void)
{
    static uint8_t tables[3][VIRENTOLEX_TABLE_MAX];
    static struct notice at_counter, in_yard;
    size_t lengths[3];
    for (int i = 0; i < 3; i++)
        if (translate(texts[i], tables[i], sizeof tables[i], &lengths[i]))
            return 1;
    printf("a store of %zu bytes: number %d\n", sizeof store,
           virentolex_store_make(store, sizeof store));
    begin(&at_counter);
    begin(&in_yard);
    if (add(&at_counter, "Cab", "T-41") || add(&at_counter, "Console", "counting room") ||
        add(&in_yard, "Cab", "T-41") || add(&in_yard, "Console", "yard") ||
        add(&in_yard, "Staff", "502"))
        return 1;
    deliver(&at_counter);
    for (int i = 0; i < 3; i++)
        add_table(texts[i], tables[i], lengths[i]);
    deliver(&at_counter);
    deliver(&in_yard);
    remove_table(0);
    remove_table(0);
    deliver(&in_yard);
    add_table(texts[2], tables[2], lengths[2]);
    deliver(&in_yard);
    return 0;
}
