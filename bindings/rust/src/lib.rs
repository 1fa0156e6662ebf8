//! Readers of mail that are proved: the fields of messages, base subjects, the messages of an mbox, and threads.
//!
//! What each call gives is said by a contract of the library, and proved; that this crate hands over what it is given and gives
//! back what it got is tested.

use std::collections::hash_map::RandomState;
use std::fmt;
use std::hash::{BuildHasher, Hasher};

pub mod sys;

/// The version of this crate, and of the library that it was written for.
pub const VERSION: &str = env!("CARGO_PKG_VERSION");

/// Where a message is, as in `&mbox[start..end]`, and when it arrived, in seconds since 1970-01-01 00:00:00 UTC.
#[repr(C)]
#[derive(Clone, Copy, Debug, Default, PartialEq, Eq)]
pub struct Message {
    pub start: usize,
    pub end: usize,
    pub arrival: i64,
}

/// A base subject, and whether its subject marks a reply or a forward.
#[derive(Clone, Debug, PartialEq, Eq)]
pub struct Base {
    pub text: Vec<u8>,
    pub is_reply: bool,
}

/// The id of a message, `None` where it has none, and the ids that it refers to, oldest first. Each is `left@right`.
#[derive(Clone, Debug, PartialEq, Eq)]
pub struct Ids {
    pub own: Option<Vec<u8>>,
    pub references: Vec<Vec<u8>>,
}

/// What a message says of itself: the bodies of Subject and From, unfolded and else as they are, its ids, and when it was sent; where
/// `is_dated` is false, its Date field is no date, and `sent` is the arrival.
#[derive(Clone, Debug, PartialEq, Eq)]
pub struct Fields {
    pub subject: Vec<u8>,
    pub author: Vec<u8>,
    pub own: Option<Vec<u8>>,
    pub references: Vec<Vec<u8>>,
    pub sent: i64,
    pub is_dated: bool,
}

/// A row of threads: its depth, from 0, and which message stands there; `None` where others refer to one that is not there.
#[derive(Clone, Copy, Debug, PartialEq, Eq)]
pub struct Row {
    pub depth: usize,
    pub place: Option<usize>,
}

/// Why a call refuses.
#[derive(Clone, Copy, Debug, PartialEq, Eq)]
#[non_exhaustive]
pub enum Refusal {
    /// No memory is left.
    NoMemory,
    /// An arrival lies outside the years 1900 to 9998.
    NoInstant,
    /// A message lies outside the bytes.
    Outside,
    /// The first line that is not empty begins there and is no separator line.
    NoMbox(usize),
    /// An array has more than 2^40 elements.
    TooLong,
    /// The library answers a number that this call does not have.
    Unknown(u8),
}

impl fmt::Display for Refusal {
    fn fmt(&self, f: &mut fmt::Formatter<'_>) -> fmt::Result {
        match self {
            Refusal::NoMemory => f.write_str("no memory is left"),
            Refusal::NoInstant => f.write_str("an arrival lies outside the years 1900 to 9998"),
            Refusal::Outside => f.write_str("a message lies outside the bytes"),
            Refusal::NoMbox(offset) => write!(f, "the first line that is not empty, at {offset}, is no separator line"),
            Refusal::TooLong => f.write_str("there are more than 2^40 elements"),
            Refusal::Unknown(status) => write!(f, "the library answers {status}, which this call does not have"),
        }
    }
}

impl std::error::Error for Refusal {}

/// What a status other than 0 means, with the count that came with it.
fn refusal(status: u8, offset: usize) -> Refusal {
    match status {
        sys::NO_MEMORY => Refusal::NoMemory,
        sys::NO_INSTANT => Refusal::NoInstant,
        sys::OUTSIDE => Refusal::Outside,
        sys::NO_MBOX => Refusal::NoMbox(offset),
        sys::TOO_LONG => Refusal::TooLong,
        _ => Refusal::Unknown(status),
    }
}

/// An array for an answer.
fn room<T: Clone + Default>(len: usize) -> Result<Vec<T>, Refusal> {
    let mut array = Vec::new();
    array.try_reserve_exact(len).map_err(|_| Refusal::NoMemory)?;
    array.resize(len, T::default());
    Ok(array)
}

/// The base of an unfolded subject (RFC 5256, section 2.1), in ASCII lower case.
pub fn base_subject(subject: &[u8]) -> Result<Base, Refusal> {
    let (mut text, mut found) = (room(subject.len())?, sys::Base::default());
    // SAFETY: each pointer and length are those of one slice or value, borrowed for the call, and none of them overlap. So below.
    match unsafe { sys::luv_base_subject(subject.as_ptr(), subject.len(), text.as_mut_ptr(), text.len(), &mut found) } {
        sys::DONE => {
            text.truncate(found.len);
            Ok(Base { text, is_reply: found.is_reply })
        }
        status => Err(refusal(status, 0)),
    }
}

/// The texts that are one behind the other in this one, each of which is so long.
fn split<'a>(text: &'a [u8], lens: &'a [usize]) -> impl Iterator<Item = Vec<u8>> + 'a {
    let mut rest = text;
    lens.iter().map(move |&len| {
        let (it, behind) = rest.split_at(len);
        rest = behind;
        it.to_vec()
    })
}

/// The ids that a message names (RFC 5322, section 3.6.4).
pub fn message_ids(message: &[u8]) -> Result<Ids, Refusal> {
    let (mut texts, mut lens, mut found) = (room(1_000)?, room(20)?, sys::Ids::default());
    loop {
        let (text, len) = (texts.as_mut_ptr(), lens.as_mut_ptr());
        // SAFETY: as above.
        match unsafe { sys::luv_message_ids(message.as_ptr(), message.len(), text, texts.len(), len, lens.len(), &mut found) } {
            sys::DONE => break,
            sys::NO_ROOM => (texts, lens) = (room(found.len)?, room(found.count)?),
            status => return Err(refusal(status, 0)),
        }
    }
    let mut ids = split(&texts[..found.len], &lens[..found.count]);
    let own = if found.own == 1 { ids.next() } else { None };
    Ok(Ids { own, references: ids.collect() })
}

/// When a message was sent that arrived then, in seconds since 1970: by its Date field, else the arrival.
pub fn sent_date(message: &[u8], arrival: i64) -> Result<i64, Refusal> {
    let mut sent = 0;
    // SAFETY: as above.
    match unsafe { sys::luv_sent_date(message.as_ptr(), message.len(), arrival, &mut sent) } {
        sys::DONE => Ok(sent),
        status => Err(refusal(status, 0)),
    }
}

/// What a message says of itself that has the next of these texts.
fn said(found: &sys::Fields, texts: &mut impl Iterator<Item = Vec<u8>>) -> Fields {
    let mut texts = texts.by_ref().take(found.count);
    let (subject, author) = (texts.next().unwrap_or_default(), texts.next().unwrap_or_default());
    let own = if found.own == 1 { texts.next() } else { None };
    Fields { subject, author, own, references: texts.collect(), sent: found.sent, is_dated: found.is_dated }
}

/// All that a message says of itself that arrived then: what `message_ids` and `sent_date` say, its subject and its From.
pub fn fields(message: &[u8], arrival: i64) -> Result<Fields, Refusal> {
    let (mut texts, mut lens, mut found) = (room(1_000)?, room(20)?, sys::Fields::default());
    loop {
        let (text, len) = (texts.as_mut_ptr(), lens.as_mut_ptr());
        // SAFETY: as above.
        match unsafe { sys::luv_fields(message.as_ptr(), message.len(), arrival, text, texts.len(), len, lens.len(), &mut found) } {
            sys::DONE => break,
            sys::NO_ROOM => (texts, lens) = (room(found.len)?, room(found.count)?),
            status => return Err(refusal(status, 0)),
        }
    }
    let mut texts = split(&texts[..found.len], &lens[..found.count]);
    Ok(said(&found, &mut texts))
}

/// The messages of an mbox, as `cut` has them, and what each says of itself, as `fields` has it.
pub fn fields_of_mbox(mbox: &[u8]) -> Result<(Vec<Message>, Vec<Fields>), Refusal> {
    let mut found = sys::Totals { messages: 64 + mbox.len() / 1_000, count: 512 + mbox.len() / 200, len: 8_192 + mbox.len() / 8 };
    loop {
        let (mut messages, mut rows): (Vec<Message>, Vec<sys::Fields>) = (room(found.messages)?, room(found.messages)?);
        let (mut texts, mut lens): (Vec<u8>, Vec<usize>) = (room(found.len)?, room(found.count)?);
        // SAFETY: as above.
        let status = unsafe {
            sys::luv_fields_of_mbox(
                mbox.as_ptr(), mbox.len(), messages.as_mut_ptr(), messages.len(), rows.as_mut_ptr(), rows.len(), texts.as_mut_ptr(),
                texts.len(), lens.as_mut_ptr(), lens.len(), &mut found,
            )
        };
        match status {
            sys::DONE => {
                let mut texts = split(&texts[..found.len], &lens[..found.count]);
                let fields = rows[..found.messages].iter().map(|it| said(it, &mut texts)).collect();
                messages.truncate(found.messages);
                return Ok((messages, fields));
            }
            sys::NO_ROOM => (),
            status => return Err(refusal(status, found.messages)),
        }
    }
}

/// Calls with an array of so many elements, and again where that has no room.
fn filled<T: Clone + Default>(len: usize, call: impl Fn(&mut [T], &mut usize) -> u8) -> Result<Vec<T>, Refusal> {
    let (mut array, mut count) = (room(len)?, 0);
    loop {
        match call(&mut array, &mut count) {
            sys::DONE => break,
            sys::NO_ROOM => array = room(count)?,
            status => return Err(refusal(status, count)),
        }
    }
    array.truncate(count);
    Ok(array)
}

/// The messages of an mbox (RFC 4155), in order.
pub fn cut(mbox: &[u8]) -> Result<Vec<Message>, Refusal> {
    // SAFETY: as above.
    filled(64 + mbox.len() / 1_000, |to: &mut [Message], count| unsafe {
        sys::luv_cut(mbox.as_ptr(), mbox.len(), to.as_mut_ptr(), to.len(), count)
    })
}

fn rows(len: usize, call: impl Fn(u64, u64, &mut [sys::Row], &mut usize) -> u8) -> Result<Vec<Row>, Refusal> {
    let key = || RandomState::new().build_hasher().finish();
    let (key0, key1) = (key(), key());
    let found = filled(len, |to: &mut [sys::Row], count| call(key0, key1, to, count))?;
    Ok(found.iter().map(|it| Row { depth: it.depth, place: it.is_message.then_some(it.place) }).collect())
}

/// The threads of messages in some bytes (RFC 5256, section 3, REFERENCES), in preorder; those of one base subject are gathered
/// where `merge` is true.
pub fn threads(bytes: &[u8], messages: &[Message], merge: bool) -> Result<Vec<Row>, Refusal> {
    rows(2 * messages.len(), |key0, key1, to, count| {
        let (places, many) = (messages.as_ptr(), messages.len());
        // SAFETY: as above.
        unsafe { sys::luv_threads(bytes.as_ptr(), bytes.len(), places, many, merge, key0, key1, to.as_mut_ptr(), to.len(), count) }
    })
}

/// The threads of the messages of an mbox; a row's place is that of its message in the order of `cut`.
pub fn threads_of_mbox(mbox: &[u8], merge: bool) -> Result<Vec<Row>, Refusal> {
    rows(64 + mbox.len() / 500, |key0, key1, to, count| {
        // SAFETY: as above.
        unsafe { sys::luv_threads_of_mbox(mbox.as_ptr(), mbox.len(), merge, key0, key1, to.as_mut_ptr(), to.len(), count) }
    })
}

#[cfg(test)]
mod tests {
    use super::*;

    #[test]
    fn each_number_has_its_refusal() {
        let known = [Refusal::NoMemory, Refusal::NoInstant, Refusal::Outside, Refusal::NoMbox(9), Refusal::TooLong];
        assert_eq!([2, 3, 4, 5, 6].map(|it| refusal(it, 9)), known);
        assert_eq!([1, 7, 255].map(|it| refusal(it, 9)), [Refusal::Unknown(1), Refusal::Unknown(7), Refusal::Unknown(255)]);
        assert_eq!(Refusal::Unknown(7).to_string(), "the library answers 7, which this call does not have");
    }

    #[test]
    fn an_array_that_cannot_be_made_is_a_refusal() {
        assert_eq!(room::<u8>(usize::MAX), Err(Refusal::NoMemory));
    }
}
