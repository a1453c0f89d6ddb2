/*
 * Virentolex, a verified notification router core: the interface for C.
 * Link with librouter.a, which `tools/staticlib router` writes to target/staticlib/.
 *
 * "Document 01" and "document 02" are the customer's papers; docs/FORMATS.md has the layouts of what is
 * lent. Each function answers 0, or the number of a refusal: VIRENTOLEX_REFUSAL_TOKEN and so on, below. Each
 * is proved, for all bytes, to keep its promise in crates/router_c/src/lib.rt; what stands here is that promise
 * in plain words.
 *
 * What every caller must see to, since nothing checks a caller in C:
 *
 * - A pointer and the length after it are a slice: so many bytes that may be read and, if the
 *   pointer is not const, written. With length 0 the pointer may be any, NULL too: nothing is read
 *   or written through it.
 * - A pointer to a single result is not NULL and is aligned for its type. What it points to need not
 *   be set before; every call sets every result.
 * - What a call may write (a buffer, each result) overlaps nothing else that is passed to the call.
 *   Two slices that are only read may overlap.
 * - No other thread writes to what is lent, or reads what the call may write, before the call returns.
 *
 * The functions keep nothing between calls, so that threads may call them at the same time. They end,
 * use no heap and call nothing but memset. The time of `regex` is at most that of the pattern's bytes
 * times the value's; a pattern never makes it go back.
 *
 * Linking. The kit writes the archive for x86-64 alone, of level 2 (x86-64-v2, which has SSE4.2 and
 * popcnt); for another target, 32-bit or big-endian, the linker refuses it, and the program sends its
 * notices to one on x86-64. What is lent has the same bytes on every machine: all numbers in it are
 * little-endian, so a big-endian program writes them byte by byte, and none copies an int. Each function
 * is a section of its own: with -Wl,--gc-sections a program that writes, checks and finds fields has 5.4
 * KB in place of 81.8, one that runs tables 35.6 (gcc 12). The code is position-independent:
 *
 *    cc -shared -Wl,--whole-archive target/staticlib/librouter.a -Wl,--no-whole-archive -o libvirentolex.so
 *
 * makes a shared library of 97 KB, with these functions alone, for Python's ctypes (examples/match.py) and others.
 *
 * The stack is not part of the proofs. Measured, in bytes, on the inputs that take most, none over 64 KiB
 * (tests/stack prints the figures, with the frame of a C function that makes the call):
 *
 *    virentolex_translate      44,416   the deepest texts: 24 parentheses or calls, every operator level
 *                                       and 24 prefix operators between each two; a flat one 20,272
 *    virentolex_run            24,800   with `regex`; 13,896 if `contains` goes on by borders; else 5,616
 *    virentolex_run_many       24,832   likewise: 13,928; else 5,648
 *    virentolex_store_match    25,040   likewise: 14,136; else 5,856
 *    virentolex_quorum_show    24,896   likewise: 13,992; else 5,712
 *    virentolex_mend            8,633
 *    virentolex_store_add       4,760
 *    virentolex_quorum_open     4,504
 *    virentolex_entry           4,472
 *    virentolex_check           4,408
 *    virentolex_ubf_read        4,096
 *    virentolex_write             440
 *    virentolex_ubf_write         440
 *    virentolex_read              360
 *    virentolex_find              360
 *    virentolex_check_notice      296
 *    virentolex_store_fetch       336
 *    virentolex_store_remove      368
 *    virentolex_store_make         40
 */
#ifndef VIRENTOLEX_H
#define VIRENTOLEX_H

#include <stddef.h>
#include <stdint.h>

#ifdef __cplusplus
extern "C" {
#endif

/* The version of this header, also that of the wrapper in Rust and of the tool. */
#define VIRENTOLEX_VERSION "0.1.0"
#define VIRENTOLEX_VERSION_MAJOR 0
#define VIRENTOLEX_VERSION_MINOR 1
#define VIRENTOLEX_VERSION_PATCH 0

/* The refusals, by the numbers of documents 01 and 02. Each function says which it answers, the first that applies. */

/* of texts: virentolex_translate */
#define VIRENTOLEX_REFUSAL_TOKEN 1      /* a token has no legal form */
#define VIRENTOLEX_REFUSAL_GRAMMAR 2    /* the grammar is not kept */
#define VIRENTOLEX_REFUSAL_LIMIT 3      /* a number or a name is outside its limits */
#define VIRENTOLEX_REFUSAL_FUNCTION 4   /* a function is unknown, or its arguments are wrong */
#define VIRENTOLEX_REFUSAL_KIND 5       /* logic where a value is asked, or a value where logic is */
#define VIRENTOLEX_REFUSAL_DEPTH 6      /* nested too deep */
#define VIRENTOLEX_REFUSAL_ENTRIES 7    /* over 512 entries */
#define VIRENTOLEX_REFUSAL_STACK 8      /* a stack over 32 */
#define VIRENTOLEX_REFUSAL_LENGTH 10    /* a text over 4,096 bytes; of mending, over 16,384 */
#define VIRENTOLEX_REFUSAL_PATTERN 18   /* a pattern of `wildcard` or `regex` is ill-formed */
#define VIRENTOLEX_REFUSAL_EDITION 25   /* an edition other than 1 or 2 */

/* of all that write: a lent buffer is shorter than the table, the decision, the list, the mended notice or the
 * verdicts */
#define VIRENTOLEX_REFUSAL_BUFFER 9

/* of notices, tables and their parts */
#define VIRENTOLEX_REFUSAL_NOTICE 11    /* bytes that break the layout of a notice */
#define VIRENTOLEX_REFUSAL_TABLE 12     /* no table that passes the check, or no decision */
#define VIRENTOLEX_REFUSAL_NAME 13      /* a name that breaks the rules */
#define VIRENTOLEX_REFUSAL_PRESENT 14   /* a name that is already there */
#define VIRENTOLEX_REFUSAL_ROOM 15      /* a 65th field, a notice over 16,384 bytes, or no room for it */
#define VIRENTOLEX_REFUSAL_SIZE 16      /* an unknown kind, or a size that is wrong for it */
#define VIRENTOLEX_REFUSAL_INDEX 17     /* no field k, or no entry k */

/* of decisions */
#define VIRENTOLEX_REFUSAL_STAFF 19     /* a true notice without a right Staff field */
#define VIRENTOLEX_REFUSAL_NINTH 20     /* a ninth person */
#define VIRENTOLEX_REFUSAL_NEEDED 21    /* a needed number outside 1 to 8 */

/* of UBF(A) */
#define VIRENTOLEX_REFUSAL_UBF_SYNTAX 22 /* a text outside the syntax */
#define VIRENTOLEX_REFUSAL_UBF_FIELDS 23 /* not one tuple of fields; a real64 field */

/* of many tables, stores and mending */
#define VIRENTOLEX_REFUSAL_TABLES 24    /* over 64 tables */
#define VIRENTOLEX_REFUSAL_STORE 26     /* no store, or a buffer over 65,536 or under 8 bytes */
#define VIRENTOLEX_REFUSAL_HELD 27      /* 64 tables are held */
#define VIRENTOLEX_REFUSAL_STORE_ROOM 28 /* no room for the table */
#define VIRENTOLEX_REFUSAL_NOT_HELD 29  /* no table of the number */
#define VIRENTOLEX_REFUSAL_SHORT 30     /* under 8 bytes to mend */

/* Verdicts. Only a true one is delivered. */
#define VIRENTOLEX_FALSE 0
#define VIRENTOLEX_TRUE 1
#define VIRENTOLEX_BOTTOM 2

/* In place of a verdict, where a table of virentolex_run_many or of a store fails its check. */
#define VIRENTOLEX_REFUSED 3

/* In place of a verdict, where a store holds no table of the number. */
#define VIRENTOLEX_FREE 4

/*
 * The kinds of fields, with the size of their values. What the function `size` of a subscription counts
 * are a string's UTF-8 characters (bottom if it is ill-formed) and an opaque value's bytes.
 */
#define VIRENTOLEX_INT32 1  /* 4 bytes, little-endian, two's complement */
#define VIRENTOLEX_INT64 2  /* 8 bytes, little-endian, two's complement */
#define VIRENTOLEX_REAL64 3 /* 8 bytes, little-endian, the bits of an IEEE 754 double */
#define VIRENTOLEX_STRING 4 /* 0 to 1,024 bytes */
#define VIRENTOLEX_OPAQUE 5 /* 0 to 1,024 bytes */

/* The editions of a table, of which the first is of kind 2 and the second of kind 4: see
 * virentolex_translate. */
#define VIRENTOLEX_FIRST_EDITION 1
#define VIRENTOLEX_SECOND_EDITION 2

/* The most bytes of a text, of a table (10, 512 entries of 12, a pool of 4,096) and of a notice. */
#define VIRENTOLEX_TEXT_MAX 4096
#define VIRENTOLEX_TABLE_MAX 10250
#define VIRENTOLEX_NOTICE_MAX 16384

/* The most tables of one call of virentolex_run_many. */
#define VIRENTOLEX_TABLES_MAX 64

/* The index for a name that no field has. */
#define VIRENTOLEX_NO_FIELD 64

/* The entry's number where no visited entry left bottom on the stack, and where nothing was run. */
#define VIRENTOLEX_NO_ENTRY 65535

/* The bytes of a decision before its table, and the most bytes of a whole one. */
#define VIRENTOLEX_DECISION_HEAD 528
#define VIRENTOLEX_DECISION_MAX 10778

/*
 * The least and the most bytes of a store's buffer, the places of a store, and what a table takes in it
 * beside its own bytes.
 */
#define VIRENTOLEX_STORE_MIN 8
#define VIRENTOLEX_STORE_MAX 65536
#define VIRENTOLEX_STORE_PLACES 64
#define VIRENTOLEX_STORE_RECORD 4

/* The most bytes of a UBF(A) text that is written; one that is read may be longer. */
#define VIRENTOLEX_UBF_TEXT_MAX 32839

/* What became of a field, by the list of virentolex_mend. */
#define VIRENTOLEX_KEPT 0     /* it is in the notice, in its order */
#define VIRENTOLEX_MOVED 1    /* it is in the notice, but a greater name was kept before it */
#define VIRENTOLEX_REPEATED 2 /* its name was kept before */
#define VIRENTOLEX_BAD 3      /* it is not right by itself */
#define VIRENTOLEX_CUT 4      /* its length passes the end, or a single byte is left */

/* The bytes of the list for each field, and the most bytes of a list: 8,188 fields of length 0. */
#define VIRENTOLEX_LISTED 3
#define VIRENTOLEX_LIST_MAX 24564

/*
 * Translates a subscription text to a table of an edition.
 *
 * The editions differ in the shifts << >> >>> alone, where the count is not 0 to the width less 1 (32 or
 * 64 bits, the width of what is shifted):
 *
 *   VIRENTOLEX_FIRST_EDITION    the shift is bottom. The table is of kind 2, which every router takes.
 *   VIRENTOLEX_SECOND_EDITION   the shift is by the count's remainder by the width, 0 to the width less
 *                               1: -1 shifts an int32 by 31. The table is of kind 4, which routers not
 *                               yet renewed refuse with 12.
 *
 * How to choose: name the second edition if the subscription is about doors with the newer firmware,
 * which takes counts so, and if every router that is to run the table is renewed; else the first. A text
 * without a shift means the same in both: name the first. A table keeps its edition, so that tables of
 * both may be run, counted in decisions, held in stores and laid end to end side by side; an old one
 * need not be translated anew.
 *
 * Answers 0, or the first of 25, 10, 1 or 3, 6, 2, 4, 18, 5, 7, 8, 9 that applies.
 * *place   the place in the text that document 01 gives for 1, 2 and 3; else 0.
 * *length  the table's length, at most VIRENTOLEX_TABLE_MAX; 0 if refused.
 * buffer   after 0 its first *length bytes are the table that document 01 lays down for the text, of the
 *          edition's kind, and the bytes after it are as they were. After a refusal every byte is as it
 *          was.
 */
uint8_t virentolex_translate(size_t edition, const uint8_t *text, size_t text_len,
                             uint8_t *buffer, size_t buffer_len,
                             size_t *place, size_t *length);

/*
 * Checks a table, which is exactly the slice. Answers 0, or 12 if its layout or its check fails. Both
 * editions pass, here and wherever else a table is checked.
 * A table that virentolex_translate wrote passes.
 */
uint8_t virentolex_check(const uint8_t *table, size_t table_len);

/*
 * Checks a notice, which is exactly the slice. Answers 0, or 11 if its layout fails.
 * *place   after 11 the faulty field's start, the first spare byte, or 0 for the header; else 0.
 */
uint8_t virentolex_check_notice(const uint8_t *notice, size_t notice_len, size_t *place);

/*
 * Runs a table on a notice. Both are checked first, so any bytes may be passed.
 *
 * Answers 0, or 12 if the table fails its check, else 11 if the notice fails its layout.
 * *place      after 11 as virentolex_check_notice says; else 0.
 * *verdict    VIRENTOLEX_FALSE, VIRENTOLEX_TRUE or VIRENTOLEX_BOTTOM; bottom if refused.
 * *steps      the entries that the run visited; 0 if refused.
 * *undecided  the number of the first visited entry that left bottom on the stack, the first entry being
 *             0; VIRENTOLEX_NO_ENTRY if none did, and if refused. With verdict bottom there is one, with
 *             true and false there may be. virentolex_entry tells what the entry is.
 *
 * Numbers, by document 02's request 6: an integer and a real are compared by exact value. In arithmetic
 * with a real an integer is rounded to the nearest double, ties to even, and so is an integer result of
 * + - * / that int64 does not hold. A zero divisor gives bottom. Shifts are those of the table's edition.
 *
 * More fields never turn a verdict round (document 02, request 10): take a table that
 * virentolex_translate wrote, and two well-formed notices of which the second holds every field of the
 * first, with the same kind and bytes, and perhaps others. If the first gives true, so does the second;
 * if false, likewise. Only bottom may become another. Of other tables that pass the check this need not
 * hold.
 */
uint8_t virentolex_run(const uint8_t *table, size_t table_len,
                       const uint8_t *notice, size_t notice_len,
                       size_t *place, uint8_t *verdict, size_t *steps, uint16_t *undecided);

/*
 * Tells what entry k of a table is, the first being 0, so that the number which a run carries can be
 * named to those who ask why it was undecided. A name (op 5) leaves bottom exactly if the notice has no
 * such field. No operand of the first undecided entry is bottom; so if it is no name, it is an operator
 * that does not take the kind, or the value, of an operand.
 *
 * Answers 0, or 12 if the table fails its check, else 17 if it has no entry k.
 * *op, *a, *b    the entry's three numbers, which document 01 explains; 0 if refused.
 * *start, *end   of a string (op 4) and of a name (op 5) the offsets of its bytes in the table: those
 *                from *start up to *end, and *start <= *end <= table_len. Else both are 0.
 */
uint8_t virentolex_entry(const uint8_t *table, size_t table_len, size_t k,
                         uint16_t *op, uint16_t *a, uint64_t *b,
                         size_t *start, size_t *end);

/*
 * Reads field k of a notice, the first being 0.
 *
 * Answers 0, or 11 if the notice fails its layout, else 17 if it has no field k.
 * *place                after 11 as virentolex_check_notice says; else 0.
 * *kind                 the field's kind, 1 to 5; 0 if refused.
 * *name, *value, *end   offsets in the notice: the name is its bytes from *name up to *value, the
 *                       value those from *value up to *end, and *name < *value <= *end <= notice_len.
 *                       All three are 0 if refused, so that both parts are empty.
 */
uint8_t virentolex_read(const uint8_t *notice, size_t notice_len, size_t k,
                        size_t *place, uint16_t *kind,
                        size_t *name, size_t *value, size_t *end);

/*
 * Finds the field of a name in a notice. Names rise, so the search stops at the first name that is not
 * below the one sought, and finds what a walk over all fields finds. Any bytes may be sought, of any
 * length; a name that breaks the rules for names is one that no field has.
 *
 * Answers 0, found or not, or 11 if the notice fails its layout.
 * *place    after 11 as virentolex_check_notice says; else 0.
 * *index    the field's number, the first being 0, as virentolex_read takes it; VIRENTOLEX_NO_FIELD if
 *           no field has the name, and after 11.
 * *looked   the names looked at: those below the one sought, and one more if any is left; after 11, 0.
 */
uint8_t virentolex_find(const uint8_t *notice, size_t notice_len,
                        const uint8_t *name, size_t name_len,
                        size_t *place, size_t *index, size_t *looked);

/*
 * Adds a field to the notice in the first `length` bytes of the buffer, at its name's place.
 * A new notice is begun with the 8 bytes of the empty one, 04 00 00 00 01 00 00 00.
 *
 * Answers 0, or the first of 11, 13, 16, 14, 15 that applies; 11 also if length > buffer_len.
 * *place       after 11 as virentolex_check_notice says, 0 if length > buffer_len; else 0.
 * *new_length  the new notice's length, length + 5 + name_len + value_len; if refused, length.
 * buffer       after 0 its first *new_length bytes are the well-formed notice that has the old fields
 *              and the new one, and the bytes after it are as they were. After a refusal every byte
 *              is as it was.
 */
uint8_t virentolex_write(uint8_t *buffer, size_t buffer_len, size_t length,
                         const uint8_t *name, size_t name_len, uint16_t kind,
                         const uint8_t *value, size_t value_len,
                         size_t *place, size_t *new_length);

/*
 * Opens a decision of the quorum counter at the start of a lent buffer: it keeps the table and the
 * needed number of people, and nobody is counted yet. All that it is lies in these bytes, so that
 * they may be moved, copied and kept; a router may have as many decisions as it has buffers.
 *
 * The table must not lie in the decision's buffer, as that of a decision which stands there does: copy
 * it out first.
 *
 * Answers 0, or the first that applies of: 12 if the table fails its check; 21 if needed is not 1
 * to 8; 9 if decision_len < VIRENTOLEX_DECISION_HEAD + table_len.
 * *place, *count, *reached   0, refused or not.
 * *undecided                 VIRENTOLEX_NO_ENTRY, refused or not: nothing is run.
 * decision   after 0 its first VIRENTOLEX_DECISION_HEAD + table_len bytes are the decision, and the
 *            bytes after it are as they were. After a refusal every byte is as it was: a decision that
 *            stood there still stands, with its table, its needed number and the people counted. So show
 *            no notice after a refused opening: it would count toward the old decision.
 */
uint8_t virentolex_quorum_open(uint8_t *decision, size_t decision_len,
                               const uint8_t *table, size_t table_len, size_t needed,
                               size_t *place, uint8_t *count, uint8_t *reached,
                               uint16_t *undecided);

/*
 * Shows a notice to a decision: runs its table on the notice and, if the verdict is true, counts the
 * value of the string field Staff, unless the same bytes were counted before in this decision.
 * Everything is checked first, so any bytes may be passed as either.
 *
 * Answers 0, or the first that applies of: 12 unless the buffer begins with a decision whose table
 * passes its check, whose needed number is 1 to 8, and which has at most 8 values, all different, of
 * 1 to 64 bytes; 11 if the notice fails its layout; then, if the verdict is true, 19 if the field
 * Staff is absent, no string or not of 1 to 64 bytes, and 20 for a ninth person.
 * *place      after 11 as virentolex_check_notice says; else 0.
 * *count      the people counted in this decision, after this notice: 0 to 8. A refusal leaves it as it
 *             stood; after 12 it is 0.
 * *reached    1 if *count is at least the needed number; else 0. After 12 it is 0.
 * *undecided  as virentolex_run says of the decision's table and the notice, after 19 and 20 too; after
 *             12 and 11 VIRENTOLEX_NO_ENTRY.
 * decision    after a refusal every byte is as it was; else only bytes of its first
 *             VIRENTOLEX_DECISION_HEAD may have changed.
 *
 * As long as nobody else changes the decision, *count is the number of different Staff values among all
 * notices shown since the opening that were neither refused nor short of true. It may be copied, moved or
 * lent with more or less room between two calls, and an opening may be refused over it.
 *
 * Values are compared by their bytes: "417" and "417 " are two people. So let every console write a staff
 * number in one way, or let the decision's own subscription fix the form, as
 * Approve == "payout" && regex (Staff, "^[1-9][0-9]*$") does: it is true of decimal digits alone, the first
 * not 0, and so of one spelling of each number.
 */
uint8_t virentolex_quorum_show(uint8_t *decision, size_t decision_len,
                               const uint8_t *notice, size_t notice_len,
                               size_t *place, uint8_t *count, uint8_t *reached,
                               uint16_t *undecided);

/*
 * Reads a UBF(A) text, of any length, into a notice, whose fields stand in the order of their names.
 * The text is one tuple of names and values by turns, ended by `$`: `{"Op" 42}$`. A name is a string.
 * A value is an integer (int32; with the tag `int64` after it, int64), a string, or a binary with its
 * count before it (opaque). Whitespace and comments (`%..%`) may stand between them.
 *
 * Answers 0, or the first that applies of: 22 for a text outside the syntax; 23 for anything but one
 * tuple, a register, an atom, a list, another tag, a tuple inside, an integer that does not fit, a name
 * that is no string or has no value; then over all fields 13 for a name that breaks the rules, 16 for a
 * value over 1,024 bytes, 14 for a name that is there twice, 15 for over 64 fields, a notice over
 * VIRENTOLEX_NOTICE_MAX bytes, or one longer than notice_len.
 * *place   0.
 * *length  the notice's length; 0 if refused.
 * notice   after 0 its first *length bytes are the well-formed notice that has the text's fields, and
 *          the bytes after it are as they were. After a refusal every byte is as it was.
 *
 * Of a text with over 64 fields all names are compared in pairs before 15 is answered: a long text of
 * many short fields takes time with the square of its length.
 */
uint8_t virentolex_ubf_read(const uint8_t *text, size_t text_len,
                            uint8_t *notice, size_t notice_len,
                            size_t *place, size_t *length);

/*
 * Writes a notice as a UBF(A) text, in one fixed form: no whitespace, no comments, plain decimal,
 * escapes only where needed, names rising. Read again, it gives the same notice.
 *
 * Answers 0, or the first that applies of: 11 if the notice fails its layout; 23 for a real64 field;
 * 15 if the text is longer than text_len; VIRENTOLEX_UBF_TEXT_MAX bytes always suffice.
 * *place   after 11 as virentolex_check_notice says; else 0.
 * *length  the text's length; 0 if refused.
 * text     after 0 its first *length bytes are the text, and the bytes after it are as they were.
 *          After a refusal every byte is as it was.
 */
uint8_t virentolex_ubf_write(const uint8_t *notice, size_t notice_len,
                             uint8_t *text, size_t text_len,
                             size_t *place, size_t *length);

/*
 * Runs up to VIRENTOLEX_TABLES_MAX tables, laid end to end, on one notice, which is checked once. Each
 * table is checked before it is run, so any bytes may be passed.
 *
 * A table ends where its length word, the u32 in its first four bytes, says. If that passes the end of
 * the bytes, or if only 1 to 3 bytes are left, all that is left counts as one table, which is refused. A
 * refused table does not end the walk, whatever is wrong in it; a length word of 0 is a refused table of
 * four bytes. No bytes are no table.
 *
 * Answers 0, or the first that applies of: 11 if the notice fails its layout; 24 for over
 * VIRENTOLEX_TABLES_MAX tables; 9 if there are more than verdicts_len tables.
 * *place     after 11 as virentolex_check_notice says; else 0.
 * *count     how many tables there are, and verdict bytes; 0 if refused.
 * verdicts   after 0 its first *count bytes are, table by table, what virentolex_run answers for it as
 *            *verdict, or VIRENTOLEX_REFUSED where it answers 12; the bytes after them are as they were.
 *            After a refusal every byte is as it was.
 */
uint8_t virentolex_run_many(const uint8_t *tables, size_t tables_len,
                            const uint8_t *notice, size_t notice_len,
                            uint8_t *verdicts, size_t verdicts_len,
                            size_t *place, size_t *count);

/*
 * A store holds up to 64 tables in one lent buffer of VIRENTOLEX_STORE_MIN to VIRENTOLEX_STORE_MAX
 * bytes, each under a number 0 to 63, which it keeps until it is removed. All that the store is lies
 * at the buffer's start, as docs/FORMATS.md lays it out, so that it may be moved, copied and kept.
 * Everything is checked first, so any bytes may be passed as a store.
 *
 * Take any sequence of these calls from an empty store, each with the same store_len, while nobody else
 * changes these bytes. No call answers 26, and each answers as a plain list of 64 places would. With
 * another store_len a call may answer 26, or refuse an add for room at another sum.
 *
 * A call costs a walk over the records held, not over their bytes, but for the check of a table that is
 * added, and the move of those behind one removed.
 */

/*
 * Makes an empty store at the start of the buffer, whatever is in it.
 *
 * Answers 0, or 26 for a buffer over VIRENTOLEX_STORE_MAX or under VIRENTOLEX_STORE_MIN bytes.
 * store   after 0 its first 8 bytes are the empty store, and the bytes after it are as they were.
 *         After a refusal every byte is as it was.
 */
uint8_t virentolex_store_make(uint8_t *store, size_t store_len);

/*
 * Adds a table to a store, under the lowest free number.
 *
 * The table must not lie in the store's buffer, as a part that virentolex_store_fetch gave does: copy it
 * out first.
 *
 * Answers 0, or the first that applies of: 26 if the buffer begins with no store, or is over
 * VIRENTOLEX_STORE_MAX bytes; 12 if the table fails its check; 27 if 64 tables are held; 28 if the
 * tables held and the new one, VIRENTOLEX_STORE_RECORD bytes for each of these, and 8 for the store,
 * exceed store_len.
 * *number   the table's number, 0 to 63; VIRENTOLEX_STORE_PLACES if refused.
 * store     after 0 it begins with the store that holds the table too, and the bytes after that are
 *           as they were. After a refusal every byte is as it was.
 */
uint8_t virentolex_store_add(uint8_t *store, size_t store_len,
                             const uint8_t *table, size_t table_len,
                             size_t *number);

/*
 * Removes the table of a number from a store. The room is used again; the other tables keep their
 * numbers, but may lie elsewhere in the buffer.
 *
 * Answers 0, or the first that applies of: 26 as virentolex_store_add says; 29 if no table has the
 * number.
 * store   after 0 it begins with the store without the table, and the bytes after that are as they
 *         were. After a refusal every byte is as it was.
 */
uint8_t virentolex_store_remove(uint8_t *store, size_t store_len, size_t number);

/*
 * Fetches the table of a number from a store, as a part of the buffer.
 *
 * Answers 0, or the first that applies of: 26 as virentolex_store_add says; 29 if no table has the
 * number.
 * *start, *end   the table is the store's bytes from *start up to *end, and *start <= *end <= store_len.
 *                They keep these bytes until the next remove or make on that buffer: an add, a fetch and a
 *                match change none of them. Both are 0 if refused, so that the part is empty.
 */
uint8_t virentolex_store_fetch(const uint8_t *store, size_t store_len, size_t number,
                               size_t *start, size_t *end);

/*
 * Runs every table that a store holds on one notice, which is checked once. It equals fetching and
 * running them one by one.
 *
 * Answers 0, or the first that applies of: 26 as virentolex_store_add says; 11 if the notice fails
 * its layout; 9 if verdicts_len < VIRENTOLEX_STORE_PLACES.
 * *place     after 11 as virentolex_check_notice says; else 0.
 * verdicts   after 0 its first VIRENTOLEX_STORE_PLACES bytes are, number by number, what
 *            virentolex_run answers for the table of that number as *verdict, or VIRENTOLEX_REFUSED
 *            where it answers 12 (of bytes that others wrote: what was added passes), or
 *            VIRENTOLEX_FREE if no table has the number; the bytes after them are as they were. After
 *            a refusal every byte is as it was.
 */
uint8_t virentolex_store_match(const uint8_t *store, size_t store_len,
                               const uint8_t *notice, size_t notice_len,
                               uint8_t *verdicts, size_t verdicts_len,
                               size_t *place);

/*
 * Mends a notice from the first consoles, which write fields out of order, twice, or cut off at the end.
 * Any bytes may be passed.
 *
 * It goes field by field by the length words from offset 8; the words of the header are not believed. A
 * field is kept if it is right by itself (its kind, its name and the size of its value are those of a
 * field of a notice) and its name was not kept before. A field that is not right by itself is bad,
 * whatever its name, and the walk goes on behind it, also where its length is under 3. A field whose
 * length passes the end, or a single byte that is left, is cut and ends the walk.
 *
 * Answers 0, or the first that applies of: 30 if bytes_len < 8; 10 if bytes_len > VIRENTOLEX_NOTICE_MAX;
 * 15 if over 64 fields would be kept; 9 if the list or the notice is longer than its buffer. A notice
 * buffer of bytes_len bytes and a list buffer of VIRENTOLEX_LIST_MAX always suffice.
 * *place    0.
 * *length   the mended notice's length, at most bytes_len; 0 if refused.
 * *fields   the count of fields listed, the cut one too; 0 if refused.
 * list      after 0 its first VIRENTOLEX_LISTED * *fields bytes are the list, field by field: the offset
 *           of the field in bytes as a u16, little-endian, and what became of it, VIRENTOLEX_KEPT to
 *           VIRENTOLEX_CUT. The bytes after it are as they were. After a refusal every byte is as it was.
 * notice    after 0 its first *length bytes are a well-formed notice, whose fields are exactly those that
 *           the list calls kept or moved, bytes and all, in the order of their names. The bytes after it
 *           are as they were. After a refusal every byte is as it was.
 *
 * A well-formed notice comes out the same, with every field kept; so mending twice changes nothing more.
 * The notice is written to a buffer of its own: it cannot be mended in place. A name is sought by halving
 * among those kept, so that the time grows as the bytes do.
 */
uint8_t virentolex_mend(const uint8_t *bytes, size_t bytes_len,
                        uint8_t *list, size_t list_len,
                        uint8_t *notice, size_t notice_len,
                        size_t *place, size_t *length, size_t *fields);

#ifdef __cplusplus
}
#endif

#endif
