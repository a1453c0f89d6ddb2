//! A store of subscriptions that come and go, in one buffer (document 02, request 12).

use crate::raw::{self, FREE, STORE_PLACES};
use crate::{Refusal, SubscriptionRef, Verdicts};
use core::fmt;

/// A store of up to 64 subscriptions, in a buffer of 8 to 65,536 bytes that it owns (`Vec<u8>`, `[u8; N]`) or borrows
/// (`&mut [u8]`; `&[u8]` for one that is only read). Each has a number, 0 to 63, which it keeps until it is removed.
///
/// From [`Store::make`] on, while nobody else changes the bytes, no call answers [`Refusal::Store`], and each answers as a
/// plain list of 64 places would.
///
/// ```
/// use virentolex::{Edition, NoticeRef, Refusal, Store, SubscriptionRef, Verdict};
///
/// let mut store = Store::make([0; 1000])?;
/// let mut room = [0; 100];
/// store.add(SubscriptionRef::translate_in("Op == 42", Edition::First, &mut room)?)?;
/// let second = store.add(SubscriptionRef::translate_in("Op == 41", Edition::First, &mut room)?)?;
/// let notice = NoticeRef::builder_in(&mut room).field("Op", 42).build()?;
/// assert!(store.run(notice)?.iter().eq([(0, Ok(Verdict::True)), (1, Ok(Verdict::False))]));
/// store.remove(second)?;
/// assert_eq!(store.fetch(second), Err(Refusal::NotHeld));
/// # Ok::<(), Refusal>(())
/// ```
#[derive(Clone, PartialEq, Eq, Hash)]
pub struct Store<B> {
    buffer: B,
}

impl<B: AsMut<[u8]>> Store<B> {
    /// Makes an empty store in a buffer, whatever is in it.
    ///
    /// # Errors
    ///
    /// [`Refusal::Store`] for a buffer over 65,536 or under 8 bytes.
    ///
    /// ```
    /// use virentolex::{Refusal, Store};
    ///
    /// assert!(Store::make([0; 8]).is_ok());
    /// assert_eq!(Store::make([0; 7]), Err(Refusal::Store));
    /// ```
    pub fn make(mut buffer: B) -> Result<Self, Refusal> {
        let number = raw::store_make(buffer.as_mut());
        Refusal::or(number, 0, Store { buffer })
    }

    /// Adds a table under the lowest free number, which it gives. One that was fetched from this store lies in the buffer
    /// that is written, so that it is copied out first (`Subscription::from`).
    ///
    /// # Errors
    ///
    /// [`Refusal::Table`] if it fails its check, as no subscription's does; then [`Refusal::Held`] for 64 held; then
    /// [`Refusal::StoreRoom`]. The store stays as it was.
    ///
    /// ```
    /// use virentolex::{Edition, Refusal, Store, SubscriptionRef};
    ///
    /// let mut room = [0; 48];
    /// let subscription = SubscriptionRef::translate_in("Op == 42", Edition::First, &mut room)?;
    /// // 8 bytes for the store, and 4 beside the table's 48
    /// let mut store = Store::make([0; 60])?;
    /// assert_eq!(store.add(subscription), Ok(0));
    /// assert_eq!(store.add(subscription), Err(Refusal::StoreRoom));
    /// # Ok::<(), Refusal>(())
    /// ```
    pub fn add(&mut self, table: impl AsRef<[u8]>) -> Result<usize, Refusal> {
        let added = raw::store_add(self.buffer.as_mut(), table.as_ref());
        Refusal::or(added.number, 0, added.id)
    }

    /// Removes the table of a number, whose room is used again.
    ///
    /// # Errors
    ///
    /// [`Refusal::NotHeld`] for a number not held.
    ///
    /// ```
    /// use virentolex::{Refusal, Store};
    ///
    /// assert_eq!(Store::make([0; 100])?.remove(0), Err(Refusal::NotHeld));
    /// # Ok::<(), Refusal>(())
    /// ```
    pub fn remove(&mut self, id: usize) -> Result<(), Refusal> {
        Refusal::or(raw::store_remove(self.buffer.as_mut(), id), 0, ())
    }
}

impl<B: AsRef<[u8]>> Store<B> {
    /// The store in a buffer in which one was kept. A buffer that is only read gives a store that is only read. The buffer
    /// has the length with which the store was made: a shorter one may hold no store, a longer one has other room.
    ///
    /// # Errors
    ///
    /// [`Refusal::Store`] if none is there.
    ///
    /// ```
    /// use virentolex::{Refusal, Store};
    ///
    /// let buffer = Store::make([0; 100])?.into_buffer();
    /// assert_eq!(Store::kept(&buffer[..])?.fetch(0), Err(Refusal::NotHeld));
    /// assert_eq!(Store::kept(&buffer[1..]), Err(Refusal::Store));
    /// # Ok::<(), Refusal>(())
    /// ```
    pub fn kept(buffer: B) -> Result<Self, Refusal> {
        // no table is held under the number of no place, so that 29 tells of a store
        let fetched = raw::store_fetch(buffer.as_ref(), STORE_PLACES);
        match Refusal::from_number(fetched.number, 0) {
            Some(Refusal::NotHeld) | None => Ok(Store { buffer }),
            Some(refusal) => Err(refusal),
        }
    }

    /// The subscription of a number, its table a part of the buffer.
    ///
    /// # Errors
    ///
    /// [`Refusal::NotHeld`] for a number not held; [`Refusal::Table`] for a table that fails its check, as none does
    /// that was added.
    ///
    /// ```
    /// use virentolex::{Edition, Store, SubscriptionRef};
    ///
    /// let mut room = [0; 48];
    /// let subscription = SubscriptionRef::translate_in("Op == 42", Edition::First, &mut room)?;
    /// let mut store = Store::make([0; 100])?;
    /// let id = store.add(subscription)?;
    /// assert_eq!(store.fetch(id), Ok(subscription));
    /// # Ok::<(), virentolex::Refusal>(())
    /// ```
    pub fn fetch(&self, id: usize) -> Result<SubscriptionRef<'_>, Refusal> {
        let fetched = raw::store_fetch(self.buffer.as_ref(), id);
        Refusal::or(fetched.number, 0, ())?;
        SubscriptionRef::from_table(fetched.table)
    }

    /// How many tables are held, 0 to 64.
    ///
    /// ```
    /// use virentolex::{Edition, Store, SubscriptionRef};
    ///
    /// let mut room = [0; 48];
    /// let subscription = SubscriptionRef::translate_in("Op == 42", Edition::First, &mut room)?;
    /// let mut store = Store::make([0; 200])?;
    /// store.add(subscription)?;
    /// store.add(subscription)?;
    /// store.remove(0)?;
    /// assert_eq!(store.len(), 1);
    /// # Ok::<(), virentolex::Refusal>(())
    /// ```
    pub fn len(&self) -> usize {
        self.held().count()
    }

    /// Whether no table is held.
    ///
    /// ```
    /// assert!(virentolex::Store::make([0; 8])?.is_empty());
    /// # Ok::<(), virentolex::Refusal>(())
    /// ```
    pub fn is_empty(&self) -> bool {
        self.held().next().is_none()
    }

    /// The numbers under which a table is held, rising.
    fn held(&self) -> impl Iterator<Item = usize> {
        (0..STORE_PLACES).filter(|id| raw::store_fetch(self.buffer.as_ref(), *id).number == 0)
    }

    /// The subscriptions held, by their numbers.
    ///
    /// ```
    /// use virentolex::{Edition, Store, SubscriptionRef};
    ///
    /// let mut store = Store::make([0; 200])?;
    /// let mut room = [0; 48];
    /// for text in ["Op == 41", "Op == 42", "Op == 43"] {
    ///     store.add(SubscriptionRef::translate_in(text, Edition::First, &mut room)?)?;
    /// }
    /// store.remove(1)?;
    /// assert!(store.iter().map(|(id, _)| id).eq([0, 2]));
    /// # Ok::<(), virentolex::Refusal>(())
    /// ```
    pub fn iter(&self) -> impl Iterator<Item = (usize, SubscriptionRef<'_>)> {
        (0..STORE_PLACES).filter_map(|id| Some((id, self.fetch(id).ok()?)))
    }

    /// Runs every held subscription on a notice, or on bytes that may be none. It equals fetching and running them one
    /// by one.
    ///
    /// # Errors
    ///
    /// [`Refusal::Notice`] for bytes that are none.
    ///
    /// ```
    /// use virentolex::{Edition, NoticeRef, Store, SubscriptionRef};
    ///
    /// let mut store = Store::make([0; 1000])?;
    /// let mut room = [0; 100];
    /// for text in ["Op == 41", "Op == 42", "Op != 41"] {
    ///     store.add(SubscriptionRef::translate_in(text, Edition::First, &mut room)?)?;
    /// }
    /// let notice = NoticeRef::builder_in(&mut room).field("Op", 42).build()?;
    /// assert!(store.run(notice)?.delivered().eq([1, 2]));
    /// # Ok::<(), virentolex::Refusal>(())
    /// ```
    pub fn run(&self, notice: impl AsRef<[u8]>) -> Result<Verdicts, Refusal> {
        let mut bytes = [FREE; STORE_PLACES];
        let matched = raw::store_match(self.buffer.as_ref(), notice.as_ref(), &mut bytes);
        Refusal::or(matched.number, matched.place, Verdicts::of(bytes))
    }

    /// The buffer's bytes, the store first.
    ///
    /// ```
    /// use virentolex::Store;
    ///
    /// assert_eq!(Store::make([9; 10])?.as_bytes(), [4, 0, 0, 0, 6, 0, 0, 0, 9, 9]);
    /// # Ok::<(), virentolex::Refusal>(())
    /// ```
    pub fn as_bytes(&self) -> &[u8] {
        self.buffer.as_ref()
    }
}

impl<B> Store<B> {
    /// The buffer, to be kept.
    ///
    /// ```
    /// assert_eq!(virentolex::Store::make([0; 9])?.into_buffer().len(), 9);
    /// # Ok::<(), virentolex::Refusal>(())
    /// ```
    pub fn into_buffer(self) -> B {
        self.buffer
    }
}

/// The numbers and the subscriptions held under them.
impl<B: AsRef<[u8]>> fmt::Debug for Store<B> {
    fn fmt(&self, f: &mut fmt::Formatter<'_>) -> fmt::Result {
        f.debug_map().entries(self.iter()).finish()
    }
}

#[cfg(test)]
mod tests;
