/*
 * A notice from one of the first consoles: its fields are out of order, one is there twice, one is too short for its
 * kind, and the last is cut off. It is refused as it came, mended, and matched. A well-formed notice comes out the same.
 */
#include "notice.h"

static const uint8_t came[] = {
    0xff, 0, 0, 0, 1, 0, 9, 0, /* a header, which is not believed */
    11, 0, 4, 0, 5, 'S', 't', 'a', 'f', 'f', '5', '0', '2',
    14, 0, 4, 0, 7, 'C', 'o', 'n', 's', 'o', 'l', 'e', 'y', 'a', 'r', 'd',
    11, 0, 4, 0, 5, 'S', 't', 'a', 'f', 'f', '4', '1', '7',
    8, 0, 1, 0, 4, 'D', 'o', 'o', 'r', 2,
    10, 0, 4, 0, 3, 'C', 'a', 'b', 'T', '-'};

/* Runs the table on bytes that may be no notice. */
static void match(const uint8_t *table, size_t table_len, const uint8_t *bytes, size_t bytes_len)
{
    size_t place, steps;
    uint8_t verdict;
    uint16_t undecided;
    uint8_t number = virentolex_run(table, table_len, bytes, bytes_len,
                                    &place, &verdict, &steps, &undecided);
    if (number != 0)
        printf("refused %d at %zu\n", number, place);
    else
        printf("%s\n", verdict == VIRENTOLEX_TRUE ? "delivered" : "not delivered");
}

/* Mends bytes into a notice, and shows the list; 0, or the refusal's number. */
static uint8_t mend(const uint8_t *bytes, size_t bytes_len, struct notice *n)
{
    static const char *const fates[] = {"kept", "moved", "repeated", "bad", "cut"};
    static uint8_t list[VIRENTOLEX_LIST_MAX];
    size_t place, fields;
    uint8_t number = virentolex_mend(bytes, bytes_len, list, sizeof list,
                                     n->bytes, sizeof n->bytes, &place, &n->length, &fields);
    printf("%zu bytes mended: ", bytes_len);
    if (number != 0) {
        printf("refused %d\n", number);
        return number;
    }
    printf("a notice of %zu bytes, %zu fields listed\n", n->length, fields);
    for (const uint8_t *at = list; at < list + VIRENTOLEX_LISTED * fields; at += VIRENTOLEX_LISTED)
        printf("  at %d: %s\n", at[0] + 256 * at[1], fates[at[2]]);
    return 0;
}

int main(void)
{
    static uint8_t table[VIRENTOLEX_TABLE_MAX];
    static struct notice mended, right;
    size_t length;
    if (translate("Console == \"yard\" && Staff != \"417\"", table, sizeof table, &length))
        return 1;
    printf("as it came: ");
    match(table, length, came, sizeof came);
    if (mend(came, sizeof came, &mended))
        return 1;
    show(&mended);
    printf(": ");
    match(table, length, mended.bytes, mended.length);
    begin(&right);
    if (add(&right, "Console", "yard") || add(&right, "Staff", "502"))
        return 1;
    if (mend(right.bytes, right.length, &mended))
        return 1;
    show(&mended);
    printf(": %s\n", mended.length == right.length &&
           memcmp(mended.bytes, right.bytes, right.length) == 0 ? "the same bytes" : "other bytes");
    mend(came, 7, &mended);
    return 0;
}
