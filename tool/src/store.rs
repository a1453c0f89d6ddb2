//! `store`: a store of subscriptions in a file, as a router keeps it in a buffer.
use crate::args::Args;
use crate::delivery;
use crate::keeping::Kept;
use crate::reading::{self, refused};
use crate::report::{line, Answer, Failure, Out, Status};
use crate::spell::{self, thousands};
use crate::subscription::Named;
use crate::table::measures;
use crate::wording;
use virentolex::{Refusal, Store, Subscription, STORE_MAX, STORE_PLACES};

/// `store make FILE`.
pub fn make(args: &mut Args, out: &mut Out) -> Answer {
    let kept = file(args)?;
    args.spent().map_err(Failure::Use)?;
    let size = args.size.unwrap_or(STORE_MAX);
    // a buffer that is too long is refused, however long it is
    let made = Store::make(vec![0; size.min(STORE_MAX + 1)]);
    let store = made.map_err(|refusal| told(&kept, &refused(refusal)))?;
    kept.change(|bytes| match bytes {
        None => Ok((store.as_bytes().to_vec(), ())),
        Some(_) => Err(told(
            &kept,
            "there is such a file; remove it, or name another",
        )),
    })?;
    out.line(format_args!("made: {}", room(&store)))?;
    Ok(Status::Yes)
}

/// `store add FILE TEXT`.
pub fn add(args: &mut Args, out: &mut Out) -> Answer {
    let kept = file(args)?;
    let subscription = Named::only(args)?.translate(args.edition)?;
    let said = kept.change(|bytes| {
        let mut store = held(&kept, bytes)?;
        let added = store.add(&subscription);
        let id = added.map_err(|refusal| told(&kept, &refused(refusal)))?;
        let said = format!("added {id}: {}; {}", measures(&subscription), room(&store));
        Ok((store.into_buffer(), said))
    })?;
    out.line(format_args!("{said}"))?;
    Ok(Status::Yes)
}

/// `store remove FILE NUMBER..`: all of them, or none if one is not held.
pub fn remove(args: &mut Args, out: &mut Out) -> Answer {
    let kept = file(args)?;
    let mut ids = Vec::new();
    while let Some(word) = args.word() {
        let id = word.to_str().and_then(|word| word.parse::<usize>().ok());
        ids.push(id.ok_or_else(|| {
            let word = line(&word.to_string_lossy());
            Failure::Use(format!("{word} is no number of a subscription, 0 to 63"))
        })?);
    }
    if ids.is_empty() {
        return Err(Failure::Use(
            "the number of a subscription is lacking".into(),
        ));
    }
    let said = kept.change(|bytes| {
        let mut store = held(&kept, bytes)?;
        for id in &ids {
            let removed = store.remove(*id);
            removed.map_err(|refusal| told(&kept, &format!("{id}: {}", refused(refusal))))?;
        }
        let said = room(&store);
        Ok((store.into_buffer(), said))
    })?;
    let ids: Vec<String> = ids.iter().map(usize::to_string).collect();
    out.line(format_args!("removed {}: {said}", ids.join(", ")))?;
    Ok(Status::Yes)
}

/// `store list FILE`: a line for each subscription, by its number.
pub fn list(args: &mut Args, out: &mut Out) -> Answer {
    let kept = file(args)?;
    args.spent().map_err(Failure::Use)?;
    let store = held(&kept, kept.read()?)?;
    let mut status = Status::Yes;
    for id in 0..STORE_PLACES {
        match store.fetch(id) {
            Ok(held) => {
                let subscription = Subscription::from(held);
                let text = wording::recognised(&subscription);
                out.line(format_args!("{id}: {}; {text}", measures(&subscription)))?;
            }
            Err(Refusal::NotHeld) => (),
            Err(refusal) => {
                status = Status::Refused;
                out.tell(&format!("{}: {id}: {}", kept.called(), refused(refusal)))?;
            }
        }
    }
    out.line(format_args!("{}", room(&store)))?;
    Ok(status)
}

/// `store match FILE NOTICE..`.
pub fn matching(args: &mut Args, out: &mut Out) -> Answer {
    let kept = file(args)?;
    reading::named(args, false)?;
    let store = held(&kept, kept.read()?)?;
    delivery::delivered(args, out, &store, |id| id.to_string())
}

/// The store's file, the first word.
fn file(args: &mut Args) -> Result<Kept, Failure> {
    let name = args.word();
    let name = name.ok_or_else(|| Failure::Use("the file of the store comes first".into()))?;
    Kept::new(name, STORE_MAX)
}

/// The store that the file's bytes are.
fn held(kept: &Kept, bytes: Option<Vec<u8>>) -> Result<Store<Vec<u8>>, Failure> {
    let Some(bytes) = bytes else {
        let why = "there is no such file; `virentolex store make` makes a store";
        return Err(told(kept, why));
    };
    Store::kept(bytes).map_err(|refusal| told(kept, &refused(refusal)))
}

fn told(kept: &Kept, why: &str) -> Failure {
    Failure::Told(format!("{}: {why}", kept.called()))
}

/// `2 held, 65,404 of 65,536 bytes free`.
fn room(store: &Store<Vec<u8>>) -> String {
    let bytes = store.as_bytes();
    let length = bytes.first_chunk().map_or(0, |w| u32::from_le_bytes(*w));
    let free = bytes.len().saturating_sub(length as usize + 4);
    let count = bytes.get(6).map_or(0, |n| u64::from(*n));
    let all = spell::count(bytes.len() as u64, "byte", "bytes");
    format!("{count} held, {} of {all} free", thousands(free as u64))
}
