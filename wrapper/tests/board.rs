//! A board without an allocator: the borrowed forms ask for no memory. Each call is made here under an allocator that
//! counts what is asked of it.

use std::alloc::{GlobalAlloc, Layout, System};
use std::cell::Cell;
use virentolex::*;

struct Counting;

thread_local! {
    static ASKED: Cell<usize> = const { Cell::new(0) };
}

// SAFETY: all is passed on to the system's allocator.
unsafe impl GlobalAlloc for Counting {
    unsafe fn alloc(&self, layout: Layout) -> *mut u8 {
        ASKED.with(|asked| asked.set(asked.get() + 1));
        // SAFETY: as this function's own.
        unsafe { System.alloc(layout) }
    }

    unsafe fn dealloc(&self, at: *mut u8, layout: Layout) {
        // SAFETY: as this function's own.
        unsafe { System.dealloc(at, layout) }
    }
}

#[global_allocator]
static ALLOCATOR: Counting = Counting;

fn asked() -> usize {
    ASKED.with(Cell::get)
}

/// A writer of so many bytes, for what is told.
struct Line([u8; 400], usize);

impl std::fmt::Write for Line {
    fn write_str(&mut self, text: &str) -> std::fmt::Result {
        let end = self.1 + text.len();
        let place = self.0.get_mut(self.1..end).ok_or(std::fmt::Error)?;
        place.copy_from_slice(text.as_bytes());
        self.1 = end;
        Ok(())
    }
}

/// A day of the router: translate, build, match, count, store, mend, and tell what was refused.
fn day() -> Result<(u8, usize), Refusal> {
    let mut rooms = [[0; 500]; 4];
    let [first, second, notice, door] = &mut rooms;
    let payout = SubscriptionRef::translate_in("Approve == 'payout'", Edition::First, first)?;
    let yard = SubscriptionRef::translate_in("Console != 'yard'", Edition::Second, second)?;
    let notice = NoticeRef::builder_in(notice)
        .field("Staff", "417")
        .field("Approve", "payout")
        .field("Fare", Value::Int64(1250))
        .build()?;
    let outcome = yard.run(notice)?;
    let lacking = yard.entry(outcome.undecided.unwrap_or_default())?;
    assert_eq!(
        (outcome.verdict, lacking.operand()),
        (Verdict::Bottom, Operand::Name(b"Console"))
    );

    let mut buffer = [0; DECISION_MAX];
    let mut decision = Decision::open_in(&mut buffer[..], payout, 2)?;
    decision.show(notice)?;
    let door = NoticeRef::from_ubf_in("{\"Approve\"\"payout\"\"Staff\"\"502\"}$", door)?;
    let tally = decision.show(door)?;

    let mut buffer = [0; 1000];
    let mut store = Store::make(&mut buffer[..])?;
    store.add(payout)?;
    store.add(yard)?;
    assert!(store.run(notice)?.delivered().eq([0]));
    assert_eq!(
        store
            .iter()
            .map(|(_, held)| usize::from(held.stack()))
            .sum::<usize>(),
        4
    );

    let (mut list, mut mended, mut text) = ([0; 100], [0; 500], [0; 500]);
    let cut = &notice.as_bytes()[..notice.as_bytes().len() - 1];
    let mended = Mended::mend_in(cut, &mut list[..], &mut mended[..])?;
    assert_eq!(
        mended
            .fates()
            .filter(|listed| listed.fate == Fate::Cut)
            .count(),
        1
    );
    let length = mended.notice().to_ubf_in(&mut text)?.len();
    Ok((tally.count, length))
}

/// What is told of notices, entries and refusals.
fn told() -> Result<usize, std::fmt::Error> {
    use std::fmt::Write;
    let mut line = Line([0; 400], 0);
    let mut room = [0; 200];
    let refused = SubscriptionRef::translate_in("a -5", Edition::First, &mut room);
    write!(line, "{}", refused.unwrap_err())?;
    let notice = NoticeRef::builder_in(&mut room)
        .field("Fare", 1.5)
        .field("Staff", "417")
        .build();
    write!(line, "{}", notice.map_err(|_| std::fmt::Error)?)?;
    let entries = SubscriptionRef::translate_in("Op == 42", Edition::First, &mut room);
    for entry in entries.map_err(|_| std::fmt::Error)?.entries() {
        write!(line, "{entry}, ")?;
    }
    Ok(line.1)
}

/// What is told of a notice's text, and why a run is undecided.
fn explained() -> Result<usize, std::fmt::Error> {
    use std::fmt::Write;
    let mut line = Line([0; 400], 0);
    let mut rooms = [[0; 200]; 2];
    let [table, room] = &mut rooms;
    let fault = NoticeRef::from_text_in("Op 42", room);
    write!(line, "{}", fault.unwrap_err())?;
    let notice = NoticeRef::from_text_in("Op: 42L; Key: [00]", room);
    let notice = notice.map_err(|_| std::fmt::Error)?;
    write!(line, "{notice}")?;
    let subscription = SubscriptionRef::translate_in("Op + 1 > Key", Edition::First, table);
    let why = subscription.and_then(|subscription| subscription.why(notice, 4));
    write!(line, "{}", why.map_err(|_| std::fmt::Error)?)?;
    Ok(line.1)
}

#[test]
fn the_borrowed_forms_ask_for_no_memory() {
    let before = asked();
    let (day, told, explained) = (day(), told(), explained());
    let after = asked();
    assert_eq!(
        day,
        Ok((2, "{\"Approve\"\"payout\"\"Fare\"1250`int64`}$".len()))
    );
    let lines = "the grammar is not kept, at byte 2 (refusal 2)Fare: 1.5\nStaff: \"417\"\nname Op, int32 42, ==, ";
    assert_eq!(told, Ok(lines.len()));
    let fault = "a name ends in a colon; a blank in it takes a backslash, at byte 2";
    let why = "entry 4: (Op + 1) > Key: Key is opaque, > takes numbers";
    let lines = [fault, "Key: [00]\nOp: 42L\n", why].concat();
    assert_eq!(explained, Ok(lines.len()));
    assert_eq!(after - before, 0);
    // and what does ask is counted
    drop(std::hint::black_box(vec![0u8; 100]));
    assert!(asked() > after);
}
