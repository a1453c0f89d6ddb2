//! The kind of case `delivery`: texts subscribed in a store and removed again, notices matched, the tables held laid
//! end to end, fields added to a notice, and people counted for a decision. What the library answers is compared with
//! `subscriptions`, which has the meaning of the texts alone.

use crate::about::About;
use crate::cases::{same, Case, Hex, Outcome};
use crate::notices::{self, rendered, Field};
use crate::random::Random;
use crate::subscriptions::{Decision, Places, Subscription};
use crate::{decisions, delivery_edges, editions, find, more, stores, texts};
use reference::notice::check_notice;
use reference::store::{FREE, HEAD, MOST_STORE, PLACES};
use std::collections::BTreeSet;
use virentolex::raw;

/// Texts by which the editions differ.
const SHIFTED: [&str; 3] = ["1 << 33 == 2", "-1L >>> -1 != 1", "Op >> 33 == 21"];
/// A byte of a verdict buffer that nothing has written.
const UNTOUCHED: u8 = 9;

/// A store in a lent buffer, the texts subscribed there, and a notice that texts are about.
struct Router {
    store: Vec<u8>,
    places: Places,
    whole: Vec<u8>,
}

/// A short text that is accepted.
fn short(random: &mut Random) -> Vec<u8> {
    let of = random.pick(&[&SHIFTED[..], &decisions::TEXTS]);
    random.pick(of).into()
}

/// A text about the notice, a short one, one that is held, or one that may be refused.
fn text(random: &mut Random, router: &Router) -> Vec<u8> {
    let held: Vec<&Subscription> = router.places.held().collect();
    let about = About::of(&router.whole);
    match random.below(8) {
        0 => texts::text(random, &about),
        1 | 2 => short(random),
        3 if !held.is_empty() => random.pick(&held).text.clone(),
        _ => texts::valid(random, &about),
    }
}

/// A notice with some of the fields, and one with more of them.
fn growing(random: &mut Random, fields: &[Field]) -> [Vec<u8>; 2] {
    let seasons: Vec<usize> = fields.iter().map(|_| random.below(3)).collect();
    [0, 1].map(|season| {
        let there = fields.iter().zip(&seasons).filter(|(_, of)| **of <= season);
        rendered(&there.map(|(field, _)| field.clone()).collect::<Vec<_>>())
    })
}

/// The notice that texts are about, another or a damaged one.
fn notice(random: &mut Random, whole: &[u8]) -> Vec<u8> {
    let people = decisions::people(random);
    match random.below(6) {
        0 => find::broken(random, whole.to_vec()),
        1 | 2 => decisions::notice(random, &people),
        _ => whole.to_vec(),
    }
}

/// A well-formed notice that texts are about.
fn whole(random: &mut Random) -> Vec<u8> {
    let people = decisions::people(random);
    match random.below(2) {
        0 => decisions::sent(random, &people),
        _ => notices::well_formed(random),
    }
}

impl Case<'_> {
    /// Subscriptions in a store, at times 64 of them, or a decision about one text.
    pub fn delivery(&mut self) -> Outcome {
        let room = match self.random.below(24) {
            0..=5 => return self.decide(),
            6 => MOST_STORE,
            _ => self.random.pick(&[HEAD, 200, 800, 2000, 6000, 20_000]) + self.random.below(60),
        };
        let first = match room {
            MOST_STORE => PLACES + 4,
            _ => self.random.below(8),
        };
        let mut router = Router {
            store: vec![self.random.byte(); room],
            places: Places::empty(),
            whole: whole(&mut self.random),
        };
        self.make_empty(&mut router)?;
        for _ in 0..first {
            let text = short(&mut self.random);
            self.subscribe(&mut router, text)?;
        }
        for _ in 0..self.random.pick(&[4, 8, 16]) {
            self.subscription_call(&mut router)?;
        }
        self.notify(&router, &router.whole, PLACES).map(|_| ())
    }

    /// One call of any sort.
    fn subscription_call(&mut self, router: &mut Router) -> Outcome {
        let random = &mut self.random;
        match random.below(20) {
            0..=8 => {
                let text = text(random, router);
                self.subscribe(router, text)
            }
            9..=12 => {
                let number = stores::number(random, &router.store);
                self.unsubscribe(router, number)
            }
            13 if random.once_in(3) => self.make_empty(router),
            14 | 15 => self.notify_with_more(router),
            _ => {
                let notice = notice(random, &router.whole);
                let room = random.pick(&[PLACES, PLACES, PLACES + 5, PLACES - 1, 0]);
                self.notify(router, &notice, room).map(|_| ())
            }
        }
    }

    /// "make it empty"
    fn make_empty(&mut self, router: &mut Router) -> Outcome {
        router.places = Places::empty();
        same("store_make", &[], raw::store_make(&mut router.store), 0)
    }

    /// Translates by either edition, now and then with little room; none if the text is refused.
    fn subscription(&mut self, text: Vec<u8>) -> Result<Option<Subscription>, String> {
        let edition = editions::any(&mut self.random);
        let room = match self.random.below(8) {
            0 => self.random.below(200),
            _ => raw::TABLE_MAX,
        };
        let mut table = vec![0; room];
        let library = raw::translate_numbered(edition.number(), &text, &mut table);
        let reference = reference::translate(edition.number(), &text, &mut vec![0; room]);
        self.tally.count("delivery translate", reference.number);
        same(
            &format!("translate, {edition:?} edition, {room} bytes: number, place, length"),
            &[("text", &text)],
            (library.number, library.place, library.length),
            (reference.number, reference.place, reference.length),
        )?;
        table.truncate(library.length);
        let accepted = library.number == 0;
        Ok(accepted.then_some(Subscription {
            edition,
            text,
            table,
        }))
    }

    /// Adds the table of a text that is not refused.
    fn subscribe(&mut self, router: &mut Router, text: Vec<u8>) -> Outcome {
        let Some(new) = self.subscription(text)? else {
            return Ok(());
        };
        let (number, id) = router.places.added(&new, router.store.len());
        self.tally.count("delivery add", number);
        self.count("delivery", delivery_edges::of_add(&router.places, id));
        let before = router.store.clone();
        let library = raw::store_add(&mut router.store, &new.table);
        same(
            "store_add of a text's table: number, the place's number",
            &[("store", &before), ("text", &new.text)],
            (library.number, library.id),
            (number, id),
        )?;
        if let Some(place) = router.places.all.get_mut(id) {
            *place = Some(new);
        }
        Ok(())
    }

    /// "remove by number"
    fn unsubscribe(&mut self, router: &mut Router, number: usize) -> Outcome {
        let (call, before) = (format!("store_remove {number}"), router.store.clone());
        let library = raw::store_remove(&mut router.store, number);
        let meant = router.places.remove(number);
        self.tally.count("delivery remove", meant);
        same(&call, &[("store", &before)], library, meant)
    }

    /// Matches a notice and, if it is not refused, runs the tables held end to end; the verdict bytes.
    fn notify(&mut self, router: &Router, notice: &[u8], room: usize) -> Result<Vec<u8>, String> {
        let mut bytes = vec![UNTOUCHED; room];
        let mut meant = bytes.clone();
        let library = raw::store_match(&router.store, notice, &mut bytes);
        let refusal = match check_notice(notice) {
            (0, _) if room < PLACES => (9, 0),
            refusal => refusal,
        };
        self.tally.count("delivery match", refusal.0);
        if refusal.0 == 0 {
            meant[..PLACES].copy_from_slice(&router.places.bytes_on(notice));
            self.count("delivery", delivery_edges::of_match(&router.places, &meant));
        }
        let places = router.places.all.iter().zip(bytes.iter().zip(&meant));
        let unlike = places.filter(|(_, (byte, meant))| byte != meant);
        let texts = unlike.filter_map(|(place, _)| Some(("text", &place.as_ref()?.text[..])));
        let inputs = [("store", &router.store[..]), ("notice", notice)];
        same(
            "store_match: number, place, bytes after; the reference is the meaning of the texts",
            &inputs.into_iter().chain(texts).collect::<Vec<_>>(),
            ((library.number, library.place), Hex(bytes.clone())),
            (refusal, Hex(meant)),
        )?;
        match refusal.0 {
            0 => end_to_end(&router.places, notice, &bytes[..PLACES]).map(|()| bytes),
            _ => Ok(bytes),
        }
    }

    /// Request 10: where the byte was 0 or 1, it stays when fields are added.
    fn notify_with_more(&mut self, router: &Router) -> Outcome {
        let [smaller, larger] = growing(&mut self.random, &more::fields_of(&router.whole));
        let before = self.notify(router, &smaller, PLACES)?;
        let after = self.notify(router, &larger, PLACES)?;
        self.count("delivery", delivery_edges::of_growth(&before, &after));
        let stays = |(before, after): (&u8, &u8)| if *before == 2 { *after } else { *before };
        let meant = before.iter().zip(&after).map(stays).collect();
        same(
            "store_match with more fields; the reference is the library's own without them, bottom aside",
            &[("store", &router.store), ("smaller", &smaller), ("larger", &larger)],
            Hex(after.clone()),
            Hex(meant),
        )
    }

    /// Opens a decision about a text and shows notices to it.
    fn decide(&mut self) -> Outcome {
        let mut people = decisions::people(&mut self.random);
        people.truncate(self.random.pick(&[1, 3, 9, 16]));
        let sent = decisions::sent(&mut self.random, &people);
        let text = match self.random.below(4) {
            0 => texts::valid(&mut self.random, &About::of(&sent)),
            _ => short(&mut self.random),
        };
        let Some(about) = self.subscription(text)? else {
            return Ok(());
        };
        let mut decision = Decision {
            about,
            needed: self.random.between(1, 8),
            people: BTreeSet::new(),
        };
        let table = &decision.about.table;
        let mut lent = vec![0; raw::DECISION_HEAD + table.len()];
        let opened = raw::quorum_open(&mut lent, table, decision.needed).number;
        same(
            "quorum_open of a text's table",
            &[("table", table)],
            opened,
            0,
        )?;
        for _ in 0..self.random.pick(&[4, 12, 30]) {
            let notice = decisions::notice(&mut self.random, &people);
            self.decide_on(&mut lent, &mut decision, &notice)?;
        }
        Ok(())
    }

    /// Shows one notice.
    fn decide_on(&mut self, lent: &mut [u8], decision: &mut Decision, notice: &[u8]) -> Outcome {
        let before = (lent.to_vec(), decision.people.len());
        let library = raw::quorum_show(lent, notice);
        let meant = decision.show(notice);
        self.tally.count("delivery show", meant.0);
        let met = delivery_edges::of_shown(decision, before.1, notice, meant);
        self.count("delivery", met);
        let text = &decision.about.text;
        same(
            "quorum_show: number, place, count, reached; the reference counts by the meaning of the text",
            &[("decision", &before.0), ("text", text), ("notice", notice)],
            (library.number, library.place, library.count.into(), library.reached),
            meant,
        )
    }
}

/// Runs the tables held, end to end: byte i is that of text i.
fn end_to_end(places: &Places, notice: &[u8], bytes: &[u8]) -> Outcome {
    let tables: Vec<u8> = places.held().flat_map(|one| one.table.clone()).collect();
    let count = places.held().count();
    let mut meant = bytes.to_vec();
    meant.retain(|byte| *byte != FREE);
    meant.resize(PLACES, UNTOUCHED);
    let mut verdicts = vec![UNTOUCHED; PLACES];
    let library = raw::run_many(&tables, notice, &mut verdicts);
    same(
        "run_many of the tables held: number, count, bytes after; the reference is the meaning of the texts",
        &[("tables", &tables), ("notice", notice)],
        (library.number, library.count, Hex(verdicts)),
        (0, count, Hex(meant)),
    )
}
