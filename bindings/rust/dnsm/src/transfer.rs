//! Messages of a stream, and transfers of zones.
use crate::{Class, Error, Item};
use dnsm_sys::*;

/// A message, and the octets after it.
pub type Split<'a> = (&'a [u8], &'a [u8]);

/// The first message of a stream, such as TCP, and the octets after it. None if octets of it are missing. Two octets with its length come
/// before it (RFC 1035 section 4.2.2).
///
/// # Errors
///
/// `ShortInput` if the length is less than 12. Close the connection then.
pub fn first_message(stream: &[u8]) -> Result<Option<Split<'_>>, Error> {
    let (mut len, mut missing) = (0, 0);
    // SAFETY: the pointer and the length are those of the octets, and the references are to live values.
    match unsafe { dnsm_first_message(stream.as_ptr(), stream.len(), &mut len, &mut missing) } {
        DNSM_OK => Ok(Some(stream[2..].split_at(len))),
        DNSM_END => Ok(None),
        status => Err(Error::from_status(status)),
    }
}

/// How many octets of the first message of a stream are missing: from its length or, once that is there, from the message.
pub fn missing_octets(stream: &[u8]) -> usize {
    let (mut len, mut missing) = (0, 0);
    // SAFETY: the pointer and the length are those of the octets, and the references are to live values.
    unsafe { dnsm_first_message(stream.as_ptr(), stream.len(), &mut len, &mut missing) };
    missing
}

/// A transfer of a zone, of which some messages were taken (RFC 5936, RFC 1995). TSIG isn't checked.
#[derive(Debug, Clone)]
pub struct Transfer(dnsm_transfer);

impl Transfer {
    /// The transfer that a query by AXFR asks for: the whole zone. `zone` is its name as octets.
    ///
    /// # Errors
    ///
    /// `BadText` if the octets aren't exactly one name.
    pub fn axfr(id: u16, zone: &[u8], class: Class) -> Result<Self, Error> {
        Self::begin(id, zone, class, None)
    }

    /// The transfer that a query by IXFR asks for: the changes since the version with serial `known`.
    ///
    /// # Errors
    ///
    /// Those of [`axfr`](Self::axfr).
    pub fn ixfr(id: u16, zone: &[u8], class: Class, known: u32) -> Result<Self, Error> {
        Self::begin(id, zone, class, Some(known))
    }

    fn begin(id: u16, zone: &[u8], class: Class, known: Option<u32>) -> Result<Self, Error> {
        let (version, last, status, class_, state, changes, zone_len) = (0, 0, 0, 0, 0, 0, 0);
        let mut begun = dnsm_transfer { known: 0, version, last, status, id, class_, state, changes, zone_len, zone: [0; 255] };
        // SAFETY: the pointer and the length are those of the octets, and the reference is to a live value.
        Error::check(unsafe {
            dnsm_begin_transfer(&mut begun, id, zone.as_ptr(), zone.len(), class.0, known.is_some(), known.unwrap_or(0))
        })?;
        Ok(Self(begun))
    }

    /// The steps of the next message. Take all of them: if they are dropped before, steps are left out, and the transfer ends with the
    /// error `Incomplete`.
    ///
    /// # Errors
    ///
    /// Why the message isn't the next one of the transfer: `ShortInput`, `AfterEnd`, `OtherQuery`, `NoResponse`, `BadRcode`, `Truncated`,
    /// or the error of reading a question. Each later call returns it again.
    pub fn take<'t, 'm>(&'t mut self, message: &'m [u8]) -> Result<Steps<'t, 'm>, Error> {
        let mut cursor = dnsm_cursor::default();
        // SAFETY: the pointer and the length are those of the octets, and the references are to live values.
        Error::check(unsafe { dnsm_open_transfer(&mut self.0, message.as_ptr(), message.len(), &mut cursor) })?;
        Ok(Steps { transfer: &mut self.0, octets: message, cursor, ended: false })
    }

    /// Whether it has ended without an error. Else it waits for a message: over UDP, ask again over TCP (RFC 1995 section 2).
    pub fn has_ended(&self) -> bool {
        self.end().is_ok()
    }

    /// Says that no message follows.
    ///
    /// # Errors
    ///
    /// The error that ended the transfer, or `Incomplete` if it hasn't ended.
    pub fn end(&self) -> Result<(), Error> {
        // SAFETY: the reference is to a live value.
        Error::check(unsafe { dnsm_end_transfer(&self.0) })
    }
}

/// What a record of a transfer does.
#[derive(Debug, Clone, Copy)]
#[non_exhaustive]
pub enum Step<'a> {
    /// The version with this serial is transferred. The record is its SOA record: part of a zone that is sent whole, but changes add it
    /// again.
    Begin(u32, Item<'a>),
    /// The server's version has this serial, and isn't newer: nothing follows.
    UpToDate(u32),
    /// In place of changes the whole zone follows: forget the version before, and begin with the record of `Begin`.
    Whole,
    /// Remove the record.
    Remove(Item<'a>),
    /// Add the record.
    Add(Item<'a>),
    /// The zone is now the version with this serial.
    End(u32),
    /// One that this version of the crate doesn't know.
    Other(u8, Item<'a>),
}

/// An iterator over the steps of a message, up to the first record that can't come next, and then its error.
#[derive(Debug)]
pub struct Steps<'t, 'm> {
    transfer: &'t mut dnsm_transfer,
    octets: &'m [u8],
    cursor: dnsm_cursor,
    ended: bool,
}

impl<'m> Iterator for Steps<'_, 'm> {
    type Item = Result<Step<'m>, Error>;

    fn next(&mut self) -> Option<Self::Item> {
        if self.ended {
            return None;
        }
        let mut step = dnsm_step::default();
        let (octets, len) = (self.octets.as_ptr(), self.octets.len());
        // SAFETY: the pointer and the length are those of the octets, and the references are to live values.
        match unsafe { dnsm_next_step(self.transfer, octets, len, &mut self.cursor, &mut step) } {
            DNSM_OK => {
                let item = Item { octets: self.octets, item: step.item };
                Some(Ok(match step.kind {
                    DNSM_STEP_BEGIN => Step::Begin(step.serial, item),
                    DNSM_STEP_UP_TO_DATE => Step::UpToDate(step.serial),
                    DNSM_STEP_WHOLE => Step::Whole,
                    DNSM_STEP_REMOVE => Step::Remove(item),
                    DNSM_STEP_ADD => Step::Add(item),
                    DNSM_STEP_END => Step::End(step.serial),
                    other => Step::Other(other, item),
                }))
            }
            status => {
                self.ended = true;
                (status != DNSM_END).then(|| Err(Error::from_status(status)))
            }
        }
    }
}

impl std::iter::FusedIterator for Steps<'_, '_> {}

impl Drop for Steps<'_, '_> {
    fn drop(&mut self) {
        if !self.ended && self.cursor.left > 0 {
            self.transfer.status = DNSM_INCOMPLETE;
        }
    }
}
