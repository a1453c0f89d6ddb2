/*
 * Calls every function of include/virentolex.h on a stack of 64 KiB between two guard pages, on the inputs
 * that take most stack, and prints one line for each: the bytes that the deepest call wrote to, with those of
 * the C function that makes the call, and its input. `--inputs` prints every input. A call that takes more
 * meets a guard page.
 */
#define _GNU_SOURCE
#include <signal.h>
#include <stdio.h>
#include <stdlib.h>
#include <string.h>
#include <sys/mman.h>
#include <ucontext.h>
#include <unistd.h>
#include "virentolex.h"

#define STACK 65536
#define PAGE 4096
#define UNUSED 0xa5

/* ---- the stack */

/* What is told where a guard page is met: which function, and its input. */
static char told[200];

static void over(int signal)
{
    (void)signal;
    _exit(write(STDERR_FILENO, told, strlen(told)) < 0 ? 2 : 1);
}

static void watch_guard_pages(void)
{
    static uint8_t own[4 * PAGE];
    stack_t aside = {.ss_sp = own, .ss_size = sizeof own};
    struct sigaction action = {.sa_handler = over, .sa_flags = SA_ONSTACK};

    if (sigaltstack(&aside, NULL) != 0 || sigaction(SIGSEGV, &action, NULL) != 0)
        exit(2);
}

/* Calls f on the small stack and says how many of its bytes it used. */
static size_t on_small_stack(void (*f)(void))
{
    static ucontext_t here, there;
    static uint8_t *pages;
    uint8_t *stack;
    size_t unused = 0;

    if (!pages) {
        pages = mmap(NULL, STACK + 2 * PAGE, PROT_NONE, MAP_PRIVATE | MAP_ANONYMOUS, -1, 0);
        if (pages == MAP_FAILED || mprotect(pages + PAGE, STACK, PROT_READ | PROT_WRITE) != 0)
            exit(2);
    }
    stack = pages + PAGE;
    memset(stack, UNUSED, STACK);
    getcontext(&there);
    there.uc_stack.ss_sp = stack;
    there.uc_stack.ss_size = STACK;
    there.uc_link = &here;
    makecontext(&there, f, 0);
    swapcontext(&here, &there);
    while (unused < STACK && stack[unused] == UNUSED)
        unused++;
    return STACK - unused;
}

/* ---- the functions, each on what stands in the buffers below */

static char text[VIRENTOLEX_TEXT_MAX + 1];
static uint8_t table[VIRENTOLEX_TABLE_MAX], notice[VIRENTOLEX_NOTICE_MAX], other[VIRENTOLEX_NOTICE_MAX];
static uint8_t decision[VIRENTOLEX_DECISION_MAX], store[VIRENTOLEX_STORE_MAX];
static uint8_t tables[VIRENTOLEX_STORE_MAX], door[VIRENTOLEX_UBF_TEXT_MAX], list[VIRENTOLEX_LIST_MAX];
static size_t text_len, table_len, notice_len, tables_len, door_len;
static uint8_t name[64], value[1024], verdicts[VIRENTOLEX_TABLES_MAX];
static size_t place, length, steps, count, start, middle, end, k;
static uint64_t b;
static uint16_t undecided, op, a, kind;
static uint8_t number, verdict, people, reached;

static void call_translate(void)
{
    number = virentolex_translate(VIRENTOLEX_FIRST_EDITION, (const uint8_t *)text, text_len, table, sizeof table, &place, &table_len);
}

static void call_check(void)
{
    number = virentolex_check(table, table_len);
}

static void call_check_notice(void)
{
    number = virentolex_check_notice(notice, notice_len, &place);
}

static void call_run(void)
{
    number = virentolex_run(table, table_len, notice, notice_len, &place, &verdict, &steps, &undecided);
}

static void call_entry(void)
{
    number = virentolex_entry(table, table_len, k, &op, &a, &b, &start, &end);
}

static void call_read(void)
{
    number = virentolex_read(notice, notice_len, k, &place, &kind, &start, &middle, &end);
}

static void call_find(void)
{
    number = virentolex_find(notice, notice_len, name, sizeof name, &place, &length, &count);
}

static void call_write(void)
{
    number = virentolex_write(notice, sizeof notice, notice_len, name, sizeof name, VIRENTOLEX_STRING, value, sizeof value, &place, &length);
}

static void call_quorum_open(void)
{
    number = virentolex_quorum_open(decision, sizeof decision, table, table_len, 8, &place, &people, &reached, &undecided);
}

static void call_quorum_show(void)
{
    number = virentolex_quorum_show(decision, sizeof decision, notice, notice_len, &place, &people, &reached, &undecided);
}

static void call_ubf_read(void)
{
    number = virentolex_ubf_read(door, door_len, other, sizeof other, &place, &length);
}

static void call_ubf_write(void)
{
    number = virentolex_ubf_write(notice, notice_len, door, sizeof door, &place, &door_len);
}

static void call_run_many(void)
{
    number = virentolex_run_many(tables, tables_len, notice, notice_len, verdicts, sizeof verdicts, &place, &count);
}

static void call_store_make(void)
{
    number = virentolex_store_make(store, sizeof store);
}

static void call_store_add(void)
{
    number = virentolex_store_add(store, sizeof store, table, table_len, &k);
}

static void call_store_remove(void)
{
    number = virentolex_store_remove(store, sizeof store, k);
}

static void call_store_fetch(void)
{
    number = virentolex_store_fetch(store, sizeof store, k, &start, &end);
}

static void call_store_match(void)
{
    number = virentolex_store_match(store, sizeof store, notice, notice_len, verdicts, sizeof verdicts, &place);
}

static void call_mend(void)
{
    number = virentolex_mend(notice, notice_len, list, sizeof list, other, sizeof other, &place, &length, &count);
}

/* A function, and the call of it that took most stack. */
static struct entry {
    const char *name;
    void (*call)(void);
    size_t most;
    const char *input;
} entries[] = {
#define ENTRY(name) {"virentolex_" #name, call_##name, 0, NULL}
    ENTRY(translate), ENTRY(check), ENTRY(check_notice), ENTRY(run), ENTRY(entry),
    ENTRY(read), ENTRY(find), ENTRY(write), ENTRY(quorum_open), ENTRY(quorum_show),
    ENTRY(ubf_read), ENTRY(ubf_write), ENTRY(run_many), ENTRY(store_make), ENTRY(store_add),
    ENTRY(store_remove), ENTRY(store_fetch), ENTRY(store_match), ENTRY(mend),
};
#define ENTRIES (sizeof entries / sizeof *entries)

static int every_input;

static void fail(const char *input, const char *why)
{
    fprintf(stderr, "stack: %s: %s\n", input, why);
    exit(1);
}

/* Measures the function of that call, whose answer is known. */
static void expect(void (*call)(void), int wanted, const char *input)
{
    struct entry *e = entries;
    size_t used;

    while (e->call != call)
        if (++e == entries + ENTRIES)
            fail(input, "a function that is not listed");
    snprintf(told, sizeof told, "stack: %s: more than 65,536 bytes: %s\n", e->name, input);
    used = on_small_stack(call);
    if (number != wanted) {
        fprintf(stderr, "stack: %s: %s: %d instead of %d\n", e->name, input, number, wanted);
        exit(1);
    }
    if (every_input)
        printf("%6zu bytes: %s: %s\n", used, e->name, input);
    if (e->most < used) {
        e->most = used;
        e->input = input;
    }
}

/* ---- texts */

static void add(const char *s)
{
    memcpy(text + text_len, s, strlen(s));
    text_len += strlen(s);
}

static void repeat(int times, const char *s)
{
    while (times-- > 0)
        add(s);
}

/* So many times: operators, so many prefixes, and what opens; then operators and prefixes once more, `1`, and what closes. */
static void nested(int times, const char *operators, int prefixes, const char *prefix, const char *opens)
{
    text_len = 0;
    for (int i = 0; i < times; i++) {
        add(operators);
        repeat(prefixes, prefix);
        add(opens);
    }
    add(operators);
    repeat(prefixes, prefix);
    add("1");
    repeat(times, ")");
}

/* What opens, the unit as often as it fits into 4,096 bytes, and what closes. */
static void flat(const char *opens, const char *unit, const char *closes)
{
    text_len = 0;
    add(opens);
    repeat((VIRENTOLEX_TEXT_MAX - strlen(opens) - strlen(closes)) / strlen(unit), unit);
    add(closes);
}

static void translations(void)
{
    static const char levels[] = "1 || 1 ^^ 1 && 1 == 1 < 1 + 1 * 1 | 1 ^ 1 & 1 << ";

    nested(24, levels, 24, "~", "(");
    expect(call_translate, 5, "24 parentheses, every level, 24 prefixes");
    add(")");
    expect(call_translate, 2, "the same, and one `)` more");
    if (place != text_len - 1)
        fail("the same, and one `)` more", "another place");
    nested(24, levels, 24, "!", "f(");
    expect(call_translate, 4, "24 calls of an unknown function, every level, 24 prefixes");
    nested(24, levels, 24, "~", "equals(a, ");
    expect(call_translate, 5, "24 calls of a known function, every level, 24 prefixes");
    nested(25, levels, 24, "~", "(");
    expect(call_translate, 6, "25 parentheses");
    flat("1 == 1", " ^^ 1 == 1", "");
    expect(call_translate, 7, "a flat text of 4,096 bytes, refused by 7");
    flat("1", " + 1", " +");
    expect(call_translate, 2, "a flat text of 4,096 bytes, refused by 2");
    flat("a == \"", "\\a", "\"");
    expect(call_translate, 0, "a string of 4,000 bytes with escapes");
    flat("wildcard(a, \"", "a", "\")");
    expect(call_translate, 0, "a wildcard pattern of 4,000 bytes");
    flat("regex(a, \"", "a", "\")");
    expect(call_translate, 0, "a regular expression of 4,000 bytes");
    nested(24, "1 + ", 17, "~", "(");
    add(" == 1");
    expect(call_translate, 0, "an accepted text with 24 parentheses");
}

/* ---- notices */

static void put16(uint8_t *at, size_t n)
{
    at[0] = n & 255;
    at[1] = n >> 8;
}

/* Begins the notice without fields. */
static void no_fields(void)
{
    static const uint8_t empty[] = {4, 0, 0, 0, 1, 0, 0, 0};
    memcpy(notice, empty, notice_len = sizeof empty);
}

/* Adds a string field of a value of so many bytes behind the others. */
static void field(const char *named, size_t size)
{
    uint8_t *at = notice + notice_len;
    size_t n = strlen(named);

    put16(at, 3 + n + size);
    put16(at + 2, VIRENTOLEX_STRING);
    at[4] = n;
    memcpy(at + 5, named, n);
    memset(at + 5 + n, 'a', size);
    notice_len += 5 + n + size;
    put16(notice, notice_len - 4);
    put16(notice + 6, notice[6] + 1);
}

/* The name of 64 bytes that is number i of up to 100, which share 62. */
static const char *alike(int i)
{
    static char made[65];
    memset(made, 'n', 64);
    made[62] = '0' + i / 10;
    made[63] = '0' + i % 10;
    return made;
}

/* So many fields whose names of 64 bytes rise, or fall, with values of so many bytes. */
static void fields(int times, size_t size, int falling)
{
    no_fields();
    for (int i = 0; i < times; i++)
        field(alike(falling ? times - 1 - i : i), size);
}

static void notices(void)
{
    fields(64, 186, 0);
    expect(call_check_notice, 0, "64 fields, names of 64 bytes, 16,328 bytes");
    k = 63;
    expect(call_read, 0, "the last of 64 fields");
    memcpy(name, alike(64), 64);
    expect(call_find, 0, "a name behind 64");
    memcpy(name, alike(63), 64);
    expect(call_find, 0, "the last of 64 names");
    expect(call_write, 14, "a name that is there, of 64");
    expect(call_ubf_write, 0, "64 strings, names of 64 bytes");
    expect(call_ubf_read, 0, "64 strings, names of 64 bytes");
    notice[notice_len - 1]++;
    put16(notice, notice_len - 5);
    expect(call_check_notice, 11, "64 fields, the last too long");
    fields(60, 180, 0);
    memset(name, '!', sizeof name);
    expect(call_write, 0, "a field of 1,024 bytes before 60");
    fields(60, 180, 0);
    memset(name, 'z', sizeof name);
    expect(call_write, 0, "a field of 1,024 bytes behind 60");
}

/* What opens, the unit so many times with a number of four digits in place of each `#`, falling, and what closes. */
static void ubf_text(const char *opens, int times, const char *unit, const char *closes)
{
    door_len = sprintf((char *)door, "%s", opens);
    for (int i = times - 1; i >= 0; i--)
        for (const char *c = unit; *c; c++)
            door_len += sprintf((char *)door + door_len, *c == '#' ? "%04d" : "%c", *c == '#' ? i : *c);
    door_len += sprintf((char *)door + door_len, "%s", closes);
}

static void doors(void)
{
    ubf_text("{", 64, "\"name\\\"#\" -2147483648 ", "}$");
    expect(call_ubf_read, 0, "64 falling names with escapes, integers");
    ubf_text("{", 64, "\"#\" % a comment % 8~12345678~ ", "}$");
    expect(call_ubf_read, 0, "64 falling names, binaries, comments");
    ubf_text("{", 64, "\"#\" 9223372036854775807`int64` ", "}$");
    expect(call_ubf_read, 0, "64 falling names, int64");
    ubf_text("{\"0000\" \"\\\"\\\\\"", 1000, "\"#\" \"\\\"\\\\\" ", "}$");
    expect(call_ubf_read, 14, "1,001 names, the first twice");
    ubf_text("{", 1000, "\"#\" \"\\\"\\\\\" ", "}$");
    expect(call_ubf_read, 15, "1,000 falling names");
    ubf_text("{", 64, "\"#\" {'a' {2 \"\\\"\"}} ", "}$");
    expect(call_ubf_read, 23, "tuples inside");
    ubf_text("{\"a\" \"", 1000, "\\\"#", "\"}$");
    expect(call_ubf_read, 16, "a string of 5,000 bytes with escapes");
}

/* Bytes to mend: so many fields without values, of 64 names by turns. */
static void broken(int times, int falling)
{
    no_fields();
    for (int i = 0; i < times; i++)
        field(alike(falling ? 63 - i % 64 : i % 64), 0);
}

static void mends(void)
{
    broken(236, 0);
    expect(call_mend, 0, "236 fields, 64 names of 64 bytes");
    broken(236, 1);
    expect(call_mend, 0, "236 fields, 64 falling names of 64 bytes");
    fields(64, 186, 1);
    expect(call_mend, 0, "64 falling fields, 16,328 bytes");
    fields(65, 180, 1);
    expect(call_mend, 15, "65 falling fields");
    memset(notice, 0, notice_len = sizeof notice);
    expect(call_mend, 0, "8,188 fields of length 0");
}

/* ---- tables */

static void begin_table(void)
{
    memset(table, 0, sizeof table);
    table[4] = 2;
    table_len = 10;
}

static void put_entry(uint16_t op, uint16_t a, size_t b)
{
    put16(table + table_len, op);
    put16(table + table_len + 2, a);
    put16(table + table_len + 4, b);
    table_len += 12;
    put16(table + 6, table[6] + 256 * table[7] + 1);
}

/* The pool, and so the table: the unit so many times, then the last. */
static void end_table(int times, const char *unit, const char *last)
{
    size_t pool = table_len;

    while (times-- > 0) {
        memcpy(table + table_len, unit, strlen(unit));
        table_len += strlen(unit);
    }
    memcpy(table + table_len, last, strlen(last));
    table_len += strlen(last);
    put16(table + 8, table_len - pool);
    put16(table, table_len - 4);
}

/* One operator over a string of the first n bytes of the pool and a literal of the m from `from` on, each folded where it is marked. */
static void one_operator(uint16_t op, size_t n, int fold, size_t from, size_t m, int fold_literal)
{
    begin_table();
    put_entry(4, n, 0);
    if (fold)
        put_entry(6, 0, 0);
    put_entry(4, m, from);
    if (fold_literal)
        put_entry(6, 0, 0);
    put_entry(op, op < 56 ? 0 : 1, 0);
}

/* 46 times an operator with eight patterns of 4,000 bytes, joined by `^^`: 505 entries. */
static void all_patterns(uint16_t op, const char *unit)
{
    begin_table();
    for (int i = 0; i < 46; i++) {
        put_entry(4, 0, 0);
        for (int j = 0; j < 8; j++)
            put_entry(4, 4000, 0);
        put_entry(op, 8, 0);
        if (i > 0)
            put_entry(42, 0, 0);
    }
    end_table(4000 / strlen(unit), unit, "");
}

/* The table as each function takes it that checks one; its run is not asked for. */
static void checked(const char *input)
{
    expect(call_check, 0, input);
    k = table[6] + 256 * table[7] - 1;
    expect(call_entry, 0, input);
    k++;
    expect(call_entry, 17, input);
    expect(call_quorum_open, 0, input);
    call_store_make();
    expect(call_store_add, 0, input);
}

/* The table as each function takes it that runs one, many times where it takes many; the notice stands. */
static void ran(const char *input)
{
    expect(call_run, 0, input);
    call_quorum_open();
    expect(call_quorum_show, verdict == VIRENTOLEX_TRUE ? 19 : 0, input);
    call_store_make();
    for (tables_len = 0, number = 0; tables_len < 64 * table_len && tables_len + table_len <= sizeof tables; tables_len += table_len)
        memcpy(tables + tables_len, table, table_len);
    expect(call_run_many, 0, input);
    call_store_make();
    while (number == 0)
        call_store_add();
    expect(call_store_match, 0, input);
    checked(input);
}

/* The first table is the one that the last translation left. */
static void runs(void)
{
    no_fields();
    ran("the table of the accepted text with 24 parentheses");
    one_operator(61, 100, 0, 0, 4095, 0);
    end_table(2047, ".?", "b");
    ran("`regex` of 4,095 bytes");
    one_operator(61, 100, 0, 0, 4095, 0);
    end_table(1023, "a\\b|", "a\\b");
    ran("`regex` of 1,024 branches");
    one_operator(60, 100, 0, 0, 4095, 0);
    end_table(2047, "*a", "b");
    ran("`wildcard` of 4,095 bytes");
    for (int i = 0; i < 4; i++) {
        one_operator(57, 4095, i & 1, 2048, 2048, i / 2);
        end_table(4095, "a", "b");
        ran(i == 0 ? "`contains` that goes on by borders" : "`contains` that goes on by borders, folded");
    }
    one_operator(32, 4095, 1, 0, 4095, 1);
    end_table(4095, "A", "");
    ran("`==` of 4,095 bytes, folded");
}

/* 512 entries: 32 names, which are added up, and `!` to the end. */
static void full_stack(void)
{
    begin_table();
    for (int i = 0; i < 32; i++)
        put_entry(5, 64, i);
    for (int i = 0; i < 31; i++)
        put_entry(25, 0, 0);
    put_entry(54, 0, 0);
    for (int i = 0; i < 448; i++)
        put_entry(40, 0, 0);
    end_table(4096, "n", "");
}

static void checks(void)
{
    fields(64, 186, 0);
    full_stack();
    ran("512 entries, 32 slots, 64 fields");
    all_patterns(60, "[!a-z]\\*?x");
    checked("505 entries, 368 `wildcard` patterns of 4,000 bytes");
    all_patterns(61, "(a|[bcd])*");
    checked("505 entries, 368 `regex` patterns of 4,000 bytes");
}

/* ---- decisions and stores */

static void quorums(void)
{
    text_len = 0;
    add("1 == 1");
    call_translate();
    call_quorum_open();
    for (int i = 0; i < 9; i++) {
        no_fields();
        field("Staff", 64);
        notice[notice_len - 1] = '0' + i;
        expect(call_quorum_show, i < 8 ? 0 : 20, "nine people of 64 bytes");
    }
    no_fields();
    expect(call_quorum_show, 19, "nobody");
}

/* 64 tables of `1 == 1`. */
static void stores(void)
{
    expect(call_store_make, 0, "65,536 bytes");
    for (int i = 0; i < 64; i++)
        expect(call_store_add, 0, "64 tables, one by one");
    expect(call_store_add, 27, "a 65th table");
    k = 63;
    expect(call_store_fetch, 0, "the last of 64");
    k = 0;
    expect(call_store_fetch, 0, "the first of 64");
    expect(call_store_match, 0, "64 tables of 3 entries");
    expect(call_store_remove, 0, "the first of 64");
    k = 63;
    expect(call_store_remove, 0, "the last of 63");
}

int main(int words, char **word)
{
    size_t most = 0;

    every_input = words > 1 && strcmp(word[1], "--inputs") == 0;
    watch_guard_pages();
    translations();
    runs();
    checks();
    notices();
    doors();
    mends();
    quorums();
    stores();
    for (struct entry *e = entries; e < entries + ENTRIES; e++) {
        printf("%-26s %6zu bytes: %s\n", e->name, e->most, e->input);
        if (most < e->most)
            most = e->most;
    }
    printf("stack: ok, at most %zu bytes\n", most);
    return 0;
}
