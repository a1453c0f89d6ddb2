/*
 * Head office's subscription: users of whose name some stretch fits a regular expression. A notice without a
 * User field is bottom and is not delivered. The second subscription takes the whole name in any case, by its
 * anchors and `fold-case`; the third has a group that is not closed and is refused.
 */
#include "notice.h"

int main(void)
{
    static const char *const fields[][2] = {
        {"User", "Segall"}, {"User", "Bill segal"}, {"User", "SEGAL"}, {"User", "Sega"}, {"Driver", "417"}};
    static const char *const texts[] = {"regex (User, \"[Ss]egall?\")",
                                        "regex (fold-case (User), \"^segall?$\")",
                                        "regex (User, \"[Ss]egal(l\")"};
    static uint8_t table[VIRENTOLEX_TABLE_MAX];
    static struct notice n;
    size_t length, place, steps;
    uint8_t verdict;
    uint16_t undecided;
    for (int t = 0; t < 3; t++) {
        if (translate(texts[t], table, sizeof table, &length))
            continue;
        for (int i = 0; i < 5; i++) {
            begin(&n);
            if (add(&n, fields[i][0], fields[i][1]) ||
                virentolex_run(table, length, n.bytes, n.length, &place, &verdict, &steps, &undecided))
                return 1;
            printf("  ");
            show(&n);
            printf(": %s\n", verdict == VIRENTOLEX_TRUE ? "delivered" : "not delivered");
        }
    }
    return 0;
}
