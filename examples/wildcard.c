/*
 * Dispatch's subscription: cabs whose whole number fits one of two patterns. A notice without a Cab
 * field is bottom and is not delivered; a pattern whose set is not closed is refused.
 */
#include "notice.h"

int main(void)
{
    static const char *const fields[][2] = {
        {"Cab", "T-41"}, {"Cab", "T-412"}, {"Cab", "V-7"}, {"Driver", "417"}};
    static uint8_t table[VIRENTOLEX_TABLE_MAX];
    static struct notice n;
    size_t length, place, steps;
    uint8_t verdict;
    uint16_t undecided;
    if (translate("wildcard (Cab, \"T-4?\", \"V*\")", table, sizeof table, &length))
        return 1;
    for (int i = 0; i < 4; i++) {
        begin(&n);
        if (add(&n, fields[i][0], fields[i][1]) ||
            virentolex_run(table, length, n.bytes, n.length, &place, &verdict, &steps, &undecided))
            return 1;
        show(&n);
        printf(": %s\n", verdict == VIRENTOLEX_TRUE ? "delivered" : "not delivered");
    }
    translate("wildcard (Cab, \"T-[4\")", table, sizeof table, &length);
    return 0;
}
