/*
 * The letter's case. One supervisor, 417, approves a payout at the counting room, again at the yard
 * console, which sends no Staff field, and again there with it; then a second person does. Two decisions
 * are shown the four notices. The first waits for one person who is not 417, by the letter's own
 * Staff != "417": without a Staff field that is undecided, so nobody is counted. The second waits for two
 * people by a text that is true of all four: without a Staff field the notice is refused.
 */
#include "notice.h"

/* Says which entry of the table was undecided, and of a name that no field has it. */
static void explain(const uint8_t *table, size_t table_len, uint16_t k)
{
    uint16_t op, a;
    uint64_t b;
    size_t start, end;
    virentolex_entry(table, table_len, k, &op, &a, &b, &start, &end);
    printf("; entry %d undecided", k);
    if (op == 5)
        printf(": no field %.*s", (int)(end - start), (const char *)table + start);
}

/* Opens a decision and shows it the notices; 0, or 1 if the text or the opening is refused. */
static int decide(const char *text, size_t needed, const struct notice *notices, int count)
{
    static uint8_t table[VIRENTOLEX_TABLE_MAX], decision[VIRENTOLEX_DECISION_MAX];
    size_t length, place;
    uint8_t people, reached;
    uint16_t undecided;
    if (translate(text, table, sizeof table, &length))
        return 1;
    uint8_t number = virentolex_quorum_open(decision, sizeof decision, table, length, needed,
                                            &place, &people, &reached, &undecided);
    printf("a decision of %zu bytes, %zu needed: number %d\n",
           VIRENTOLEX_DECISION_HEAD + length, needed, number);
    /* a decision that stood in the buffer would still stand there, and count what is shown */
    if (number != 0)
        return 1;
    for (int i = 0; i < count; i++) {
        number = virentolex_quorum_show(decision, sizeof decision, notices[i].bytes, notices[i].length,
                                        &place, &people, &reached, &undecided);
        show(&notices[i]);
        printf(": number %d, count %d, %s", number, people, reached ? "reached" : "not reached");
        if (undecided != VIRENTOLEX_NO_ENTRY)
            explain(table, length, undecided);
        printf("\n");
    }
    return 0;
}

int main(void)
{
    static struct notice notices[4];
    static const char *const consoles[] = {"counting room", "yard", "yard", "yard"};
    static const char *const staff[] = {"417", NULL, "417", "502"};
    for (int i = 0; i < 4; i++) {
        begin(&notices[i]);
        if (add(&notices[i], "Approve", "payout") || add(&notices[i], "Console", consoles[i]) ||
            (staff[i] && add(&notices[i], "Staff", staff[i])))
            return 1;
    }
    return decide("Staff != \"417\"", 1, notices, 4) || decide("Approve == \"payout\"", 2, notices, 4);
}
