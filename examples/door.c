/*
 * A yard door speaks UBF(A). Its texts are read into notices and matched; each notice is written back,
 * in the one fixed form; and so is a notice for the door.
 */
#include "notice.h"

/* The notice as a UBF(A) text. */
static void write_back(const struct notice *n)
{
    static uint8_t text[VIRENTOLEX_UBF_TEXT_MAX];
    size_t place, length;
    uint8_t number = virentolex_ubf_write(n->bytes, n->length, text, sizeof text, &place, &length);
    printf("  number %d: %.*s\n", number, (int)length, (const char *)text);
}

/* Reads a door's text and, if it is a notice, matches it and writes it back. */
static void receive(const char *text, const uint8_t *table, size_t table_len)
{
    static struct notice n;
    size_t place, steps;
    uint8_t verdict;
    uint16_t undecided;
    uint8_t number = virentolex_ubf_read((const uint8_t *)text, strlen(text),
                                         n.bytes, sizeof n.bytes, &place, &n.length);
    printf("%s: number %d", text, number);
    if (number != 0) {
        printf("\n");
        return;
    }
    virentolex_run(table, table_len, n.bytes, n.length, &place, &verdict, &steps, &undecided);
    printf(", a notice of %zu bytes, %s\n", n.length,
           verdict == VIRENTOLEX_TRUE ? "delivered" : "not delivered");
    write_back(&n);
}

int main(void)
{
    static uint8_t table[VIRENTOLEX_TABLE_MAX];
    static struct notice reply;
    size_t length;
    if (translate("Cab == \"T-41\" && Open == 1", table, sizeof table, &length))
        return 1;
    receive("{ \"Open\" 1 %door 2% \"Cab\" \"T-41\" \"Since\" 1760000000000`int64` }$", table, length);
    receive("{\"Cab\"\"T-41\"\"Open\"00\"Seal\"4~a~$}~}$", table, length);
    receive("{\"Cab\"\"T-41\"\"Open\"'yes'}$", table, length);
    receive("{\"Cab\"\"T-41\"", table, length);
    begin(&reply);
    if (add(&reply, "Say", "wait for \"T-42\"") || add(&reply, "Door", "2"))
        return 1;
    show(&reply);
    printf("\n");
    write_back(&reply);
    return 0;
}
