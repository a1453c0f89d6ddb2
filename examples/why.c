/*
 * Why was it undecided? For a subscription and notices, each a UBF(A) text, prints the verdict and, if it
 * is bottom, the first entry of the table that was undecided: a field that the notice has not, or an
 * operator that does not take what it got, with the fields that it got it from and their kinds.
 *
 *     target/why 'Staff != "417"' '{"Console""yard"}$' ..
 *
 * Without words it tells the cases below. It tells the first cause, and not what else may be lacking; of
 * an operator it does not tell whether a kind is wrong or a value, as a zero divisor is, or a shift count
 * outside the width.
 */
#include "virentolex.h"

#include <stdio.h>
#include <string.h>

/* The operators that can be undecided though all their operands are there. */
static const char *const spelled[] = {
    [6] = "fold-case", "size", "~",
    [16] = "<<", ">>", ">>>", "&", "^", "|", "*", "/", "%", "+", "-",
    [32] = "==", "!=", "<", "<=", ">", ">=",
    [56] = "begins-with", "contains", "ends-with", "equals", "wildcard", "regex"};

static const char *const kinds[] = {"", "int32", "int64", "real64", "string", "opaque"};
static const char *const verdicts[] = {"false", "true", "bottom"};

/* A subscription's table and a notice. */
static uint8_t table[VIRENTOLEX_TABLE_MAX], notice[VIRENTOLEX_NOTICE_MAX];
static size_t table_len, notice_len;

struct entry {
    uint16_t op, a;
    uint64_t b;
    size_t start, end;
};

static struct entry entry(size_t k)
{
    struct entry e;
    virentolex_entry(table, table_len, k, &e.op, &e.a, &e.b, &e.start, &e.end);
    return e;
}

/* How many operands an entry takes that gives a value, or that is an operator on values. */
static size_t operands(struct entry e)
{
    return e.op <= 5 ? 0 : e.op <= 8 ? 1 : e.op <= 37 ? 2 : (size_t)e.a + 1;
}

/* The first of the entries, directly before entry k, that give its operands. */
static size_t first_of(size_t k)
{
    size_t wanted = operands(entry(k));
    while (wanted > 0)
        wanted += operands(entry(--k)) - 1;
    return k;
}

/* The kind of the field that has the entry's name, which is in the notice. */
static const char *kind_of(struct entry e)
{
    size_t place, index, looked, name, value, end;
    uint16_t kind;
    virentolex_find(notice, notice_len, table + e.start, e.end - e.start, &place, &index, &looked);
    virentolex_read(notice, notice_len, index, &place, &kind, &name, &value, &end);
    return kinds[kind];
}

static void print_name(struct entry e)
{
    printf(" %.*s", (int)(e.end - e.start), (const char *)table + e.start);
}

/* What was lacking at entry k, the first undecided one. */
static void explain(size_t k)
{
    struct entry e = entry(k);
    int fields = 0;
    printf(", entry %zu: ", k);
    if (e.op == 5) {
        printf("no field");
        print_name(e);
        return;
    }
    printf("%s does not take", spelled[e.op]);
    for (size_t i = first_of(k); i < k; i++) {
        e = entry(i);
        if (e.op != 5)
            continue;
        printf("%s", fields++ ? "," : " what it got from");
        print_name(e);
        printf(" (%s)", kind_of(e));
    }
    printf("%s", fields ? "" : " its literals");
}

/* Tells of one notice. */
static void tell(const char *text)
{
    size_t place, steps;
    uint8_t verdict;
    uint16_t undecided;
    uint8_t number = virentolex_ubf_read((const uint8_t *)text, strlen(text),
                                         notice, sizeof notice, &place, &notice_len);
    if (number != 0) {
        printf("  %s: no notice, number %d\n", text, number);
        return;
    }
    virentolex_run(table, table_len, notice, notice_len, &place, &verdict, &steps, &undecided);
    printf("  %s: %s", text, verdicts[verdict]);
    if (verdict == VIRENTOLEX_BOTTOM)
        explain(undecided);
    printf("\n");
}

/* Tells of a subscription on notices, up to a NULL; 0, or the refusal's number. */
static int why(const char *text, const char *const *notices)
{
    size_t place;
    uint8_t number = virentolex_translate(VIRENTOLEX_FIRST_EDITION,
                                          (const uint8_t *)text, strlen(text),
                                          table, sizeof table, &place, &table_len);
    if (number != 0) {
        printf("%s: refused %d at %zu\n", text, number, place);
        return number;
    }
    printf("%s\n", text);
    while (*notices)
        tell(*notices++);
    return 0;
}

int main(int argc, char **argv)
{
    if (argc > 1)
        return why(argv[1], (const char *const *)argv + 2);
    static const char *const staff[] = {
        "{\"Console\"\"yard\"}$", "{\"Staff\"417}$", "{\"Staff\"\"502\"}$", NULL};
    static const char *const load[] = {
        "{\"Load\"\"full\"}$", "{\"Fare\"900\"Load\"4\"Trips\"0}$",
        "{\"Fare\"900\"Load\"4}$", "{\"Load\"2}$", NULL};
    static const char *const note[] = {
        "{\"Load\"\"full\"\"Note\"\"late\"}$", "{\"Limit\"\"9\"\"Note\"\"too long\"}$", NULL};
    return why("Staff != \"417\"", staff) || why("Load > 3 && Fare / Trips < 100", load) ||
           why("size (Note) > Limit || Note == \"late\"", note);
}
