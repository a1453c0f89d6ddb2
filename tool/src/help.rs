//! The words of `--help`.

pub const MAIN: &str = "\
virentolex: subscriptions and notices of a verified notification router core

usage: virentolex COMMAND ..

  check TEXT                  whether a subscription is accepted
  lint TEXT                   what in it may not be meant
  table TEXT                  the entries of its table
  match TEXT NOTICE..         the verdict of each notice, and why it is bottom
  quorum NEEDED TEXT NOTICE.. how many people the notices count
  deliver FOLDER NOTICE..     who of a folder of subscriptions gets which notice
  store make FILE             an empty store of subscriptions, in a file
  store add FILE TEXT         adds a subscription
  store remove FILE NUMBER..  removes subscriptions
  store list FILE             the subscriptions that it holds
  store match FILE NOTICE..   which of them each notice is delivered to
  notice show NOTICE..        notices as text
  notice find NAME NOTICE..   the field of a name
  notice make NOTICE..        notices as bytes
  notice mend FILE            damaged notices made right
  notice from-ubf NOTICE..    UBF(A) texts as bytes
  notice to-ubf NOTICE..      notices as UBF(A) texts

virentolex COMMAND --help says more of each; docs/MANUAL.md has the language.
Exit status: 0 true or done, 1 false or bottom, 2 refused or wrong use.
";

pub const CHECK: &str = "\
usage: virentolex check [--edition 1|2] TEXT
       virentolex check [--edition 1|2] -f FILE
       virentolex check --table FILE

Says whether a subscription is accepted, and the entries, the stack and the bytes
of its table; or why it is refused, with the line and a caret under the place. Of an
accepted one it says what `lint` does.

  TEXT            the subscription, or `-` for standard input
  -f, --file FILE the subscription from a file, its text or its table; `-` is
                  standard input
  --table FILE    the same, of a table alone
  --edition 1|2   how shift counts outside the width are taken; 1 if not given; a
                  table has its own

Exit status: 0 accepted, 2 refused or wrong use.
";

pub const LINT: &str = "\
usage: virentolex lint [--edition 1|2] TEXT
       virentolex lint [--edition 1|2] -f FILE
       virentolex lint --table FILE

Says of an accepted subscription what may not be meant, with the line and a caret, and
nothing if there is nothing: what is bottom on every notice or true on none, through
all operators; a backslash that a string literal takes from a pattern; != on a field
that may be missing; an octal number; a name that is a literal elsewhere. Of a table,
which has no text, it says the first alone, by the numbers of entries.

  TEXT            the subscription, or `-` for standard input
  -f, --file FILE the subscription from a file, its text or its table; `-` is
                  standard input
  --table FILE    the same, of a table alone
  --edition 1|2   how shift counts outside the width are taken; 1 if not given; a
                  table has its own

Exit status: 0 accepted, whatever is said; 2 refused or wrong use.
";

pub const TABLE: &str = "\
usage: virentolex table [--edition 1|2] [--hex | -o OUTPUT] TEXT
       virentolex table [--edition 1|2] [--hex | -o OUTPUT] -f FILE
       virentolex table [--hex | -o OUTPUT] --table FILE

Shows the entries of a subscription's table by their numbers, with where skips land,
and the pool of its names and strings.

  TEXT              the subscription, or `-` for standard input
  -f, --file FILE   the subscription from a file, its text or its table; `-` is
                    standard input
  --table FILE      the same, of a table alone
  --hex             the bytes too, those of each entry before it
  -o, --output FILE writes the table itself; `-` is standard output
  --edition 1|2     how shift counts outside the width are taken; 1 if not given

Exit status: 0 done, 2 refused or wrong use.
";

pub const MATCH: &str = "\
usage: virentolex match [OPTIONS] TEXT NOTICE..
       virentolex match [OPTIONS] -f FILE NOTICE..
       virentolex match [OPTIONS] --table FILE NOTICE..

Says the verdict of each notice and the steps of its run; where it is bottom, the
entry, the field and what was lacking. Of several notices there is a summary on
standard error.

  TEXT            the subscription, or `-` for standard input
  -f, --file FILE the subscription from a file, its text or its table; `-` is
                  standard input
  --table FILE    the same, of a table alone
  NOTICE          a file of notices, or `-` for standard input
  -n, --notice N  a notice itself: 'Console: \"yard\"; Staff: \"417\"', or in UBF(A)
  --form FORM     binary, ubf or text; else the first bytes show it
  --only VERDICT  lines for true, false or bottom alone
  -q, --quiet     no lines and no summary, the exit status alone
  --edition 1|2   how shift counts outside the width are taken; 1 if not given

Exit status: 0 if every notice is true, 1 if one is false or bottom, 2 if one is
refused, or for wrong use.
";

pub const QUORUM: &str = "\
usage: virentolex quorum [OPTIONS] NEEDED TEXT NOTICE..
       virentolex quorum [OPTIONS] -f FILE NEEDED NOTICE..
       virentolex quorum [OPTIONS] --state FILE [NEEDED TEXT] NOTICE..
       virentolex quorum --state FILE

Shows the notices to one decision, which counts the different Staff values of those
whose verdict is true, and says whether they are as many as needed. With --state the
decision is kept between calls: the first one opens it by NEEDED and TEXT, which later
ones may leave out. A person is in the file before the line says so. Without notices it
says who was counted.

  NEEDED          how many people are needed, 1 to 8
  TEXT            the subscription, or `-` for standard input
  -f, --file FILE the subscription from a file, its text or its table; `-` is
                  standard input
  --table FILE    the same, of a table alone
  NOTICE          a file of notices, or `-` for standard input
  -n, --notice N  a notice itself: 'Console: \"yard\"; Staff: \"417\"', or in UBF(A)
  --form FORM     binary, ubf or text; else the first bytes show it
  --state FILE    where the decision is kept
  -q, --quiet     no lines, the exit status alone
  --edition 1|2   how shift counts outside the width are taken; 1 if not given

Exit status: 0 reached, 1 not reached, 2 if a notice is refused, or for wrong use.
";

pub const DELIVER: &str = "\
usage: virentolex deliver [OPTIONS] FOLDER NOTICE..

Says who gets each notice: those of a folder of subscriptions, a file for each, whose
verdict is true; and for whom it is bottom. They are matched as a store of up to 64.

  FOLDER          files of subscriptions, texts or tables, which are called by their
                  names; those that start with a point, and folders, are passed over
  NOTICE          a file of notices, or `-` for standard input
  -n, --notice N  a notice itself: 'Console: \"yard\"; Staff: \"417\"', or in UBF(A)
  --form FORM     binary, ubf or text; else the first bytes show it
  -q, --quiet     no lines and no summary, the exit status alone
  --edition 1|2   how shift counts outside the width are taken; 1 if not given

Exit status: 0 if every notice is delivered to somebody, 1 if one is not, 2 if a notice
or a subscription is refused, or for wrong use.
";

pub const STORE: &str = "\
usage: virentolex store make|add|remove|list|match FILE ..

  make FILE           an empty store
  add FILE TEXT       adds a subscription
  remove FILE NUMBER.. removes subscriptions
  list FILE           the subscriptions that it holds
  match FILE NOTICE.. which of them each notice is delivered to

virentolex store make --help and so on say more of each.
";

pub const STORE_MAKE: &str = "\
usage: virentolex store make [--size BYTES] FILE

Makes an empty store in a new file. It holds up to 64 subscriptions, each with a number
from 0 to 63, which it keeps until it is removed.

  --size BYTES    how long the file is and stays, 8 to 65536; 65536 if not given

Exit status: 0 done, 2 refused or wrong use.
";

pub const STORE_ADD: &str = "\
usage: virentolex store add [--edition 1|2] FILE TEXT
       virentolex store add [--edition 1|2] FILE -f SUBSCRIPTION
       virentolex store add FILE --table TABLE

Adds a subscription to the store, under the lowest free number. The file is replaced as a
whole: a call that is cut off, and one that is refused, leaves it as it was.

  TEXT            the subscription, or `-` for standard input
  -f, --file FILE the subscription from a file, its text or its table; `-` is
                  standard input
  --table FILE    the same, of a table alone
  --edition 1|2   how shift counts outside the width are taken; 1 if not given

Exit status: 0 done, 2 refused or wrong use.
";

pub const STORE_REMOVE: &str = "\
usage: virentolex store remove FILE NUMBER..

Removes the subscriptions of these numbers, or none of them if one is not held. The
others keep their numbers.

Exit status: 0 done, 2 refused or wrong use.
";

pub const STORE_LIST: &str = "\
usage: virentolex store list FILE

Lists the subscriptions that the store holds by their numbers: entries, stack and bytes
of each table, and the text that it stands for, or the fields that it names.

Exit status: 0 done, 2 refused or wrong use.
";

pub const STORE_MATCH: &str = "\
usage: virentolex store match [--form FORM] [-q] FILE NOTICE..

Says which subscriptions of the store, by their numbers, each notice is delivered to, and
for which it is bottom.

  NOTICE          a file of notices, or `-` for standard input
  -n, --notice N  a notice itself: 'Console: \"yard\"; Staff: \"417\"', or in UBF(A)
  --form FORM     binary, ubf or text; else the first bytes show it
  -q, --quiet     no lines and no summary, the exit status alone

Exit status: 0 if every notice is delivered to somebody, 1 if one is not, 2 if a notice
is refused, or for wrong use.
";

pub const NOTICE: &str = "\
usage: virentolex notice show|find|make|mend|from-ubf|to-ubf ..

  show NOTICE..     notices as text, a field on each line
  find NAME NOTICE.. the field of a name
  make NOTICE..     notices as bytes
  mend FILE         damaged notices made right
  from-ubf NOTICE.. UBF(A) texts as bytes
  to-ubf NOTICE..   notices as UBF(A) texts

virentolex notice show --help and so on say more of each.
";

pub const SHOW: &str = "\
usage: virentolex notice show [--form FORM] [--hex] NOTICE..

Shows notices as text, a field on each line, with a blank line between two notices.

  NOTICE          a file of notices, or `-` for standard input
  -n, --notice N  a notice itself: 'Console: \"yard\"; Staff: \"417\"', or in UBF(A)
  --form FORM     binary, ubf or text; else the first bytes show it
  --hex           the bytes in hex instead

Exit status: 0 done, 2 if a notice is refused, or for wrong use.
";

pub const FIND: &str = "\
usage: virentolex notice find [--form FORM] [-q] NAME NOTICE..

Shows the field of a name in each notice.

  NAME            the name as it is, without backslashes
  NOTICE          a file of notices, or `-` for standard input
  -n, --notice N  a notice itself: 'Console: \"yard\"; Staff: \"417\"', or in UBF(A)
  --form FORM     binary, ubf or text; else the first bytes show it
  -q, --quiet     no lines, the exit status alone

Exit status: 0 if every notice has it, 1 if one has not, 2 if a notice is refused, or for
wrong use.
";

pub const MAKE: &str = "\
usage: virentolex notice make [--form FORM] [-o FILE | --hex] NOTICE..

Writes notices as bytes, one after the other, to standard output or a file.

  NOTICE            a file of notices, or `-` for standard input
  -n, --notice N    a notice itself: 'Console: \"yard\"; Staff: \"417\"', or in UBF(A)
  --form FORM       binary, ubf or text; else the first bytes show it
  -o, --output FILE where to write; `-` is standard output
  --hex             the bytes in hex, a line for each notice

Exit status: 0 done, 2 if a notice is refused, or for wrong use.
";

pub const MEND: &str = "\
usage: virentolex notice mend [-o FILE | --hex] FILE

Makes a well-formed notice of the bytes of an old console, whose fields may be out of
order, twice or cut off. Lists each field with what became of it: kept, moved,
repeated, bad or cut. A file may hold several notices, each after the first with a
header of kind 1 and a length that a notice may have.

  FILE              the bytes, or `-` for standard input
  -o, --output FILE where to write the notice; `-` is standard output, and the list
                    goes to standard error
  --hex             the notice in hex behind the list

Exit status: 0 done, 2 refused or wrong use.
";

pub const FROM_UBF: &str = "\
usage: virentolex notice from-ubf [-o FILE | --hex] NOTICE..

Reads UBF(A) texts and writes notices as bytes, one after the other.

  NOTICE            a file of texts, each up to its `$`, or `-` for standard input
  -n, --notice N    a text itself: '{\"Staff\" \"417\"}$'
  -o, --output FILE where to write; `-` is standard output
  --hex             the bytes in hex, a line for each notice

Exit status: 0 done, 2 if a text is refused, or for wrong use.
";

pub const TO_UBF: &str = "\
usage: virentolex notice to-ubf [--form FORM] NOTICE..

Writes notices as UBF(A) texts in the one fixed form, a line for each.

  NOTICE          a file of notices, or `-` for standard input
  -n, --notice N  a notice itself: 'Console: \"yard\"; Staff: \"417\"', or in UBF(A)
  --form FORM     binary, ubf or text; else the first bytes show it

Exit status: 0 done, 2 if a notice is refused, or for wrong use.
";
