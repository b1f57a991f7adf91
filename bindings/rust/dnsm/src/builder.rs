//! Messages that are written item by item.
use crate::{EdnsOption, Error, Item, NewItem, NewOpt, Section};
use dnsm_sys::*;

/// A message that is written into a buffer of the caller, item by item, without an allocation. Names are compressed.
///
/// ```
/// use dnsm::{Builder, Class, Error, NewItem, Rtype, Section, QR, TC};
///
/// let mut out = [0; 1232];
/// let mut builder = Builder::new(&mut out, 4660, QR)?;
/// builder.set_limit(512);
/// builder.put(&NewItem::question("example.com", Rtype::A, Class::IN))?;
/// let mark = builder.mark();
/// for address in [[192, 0, 2, 1], [192, 0, 2, 2]] {
///     let put = builder.put(&NewItem::record(Section::Answer, "example.com", Rtype::A, 300, &address));
///     if put == Err(Error::NoRoom) {
///         builder.rewind(&mark);
///         builder.set_flags(QR | TC);
///         break;
///     }
///     put?;
/// }
/// assert_eq!(builder.finish()?.len(), 12 + 17 + 2 * 16);
/// # Ok::<(), dnsm::Error>(())
/// ```
#[derive(Debug)]
pub struct Builder<'a> {
    out: &'a mut [u8],
    draft: dnsm_draft,
}

/// A draft before it is begun.
const EMPTY: dnsm_draft =
    dnsm_draft { len: 0, limit: 0, reserved: 0, id: 0, flags: 0, counts: [0; 4], section: 0, unchecked: 0, hints: [0; 64] };

/// The item for the calls, with this name.
fn pass(item: &NewItem<'_>, name: &[u8]) -> dnsm_put_item {
    dnsm_put_item {
        name: name.as_ptr(),
        name_len: name.len(),
        data: item.data.as_ptr(),
        data_len: item.data.len(),
        ttl: item.ttl,
        type_: item.rtype.0,
        class_: item.class.0,
        section: item.section as u8,
    }
}

/// What the OPT record of a response says, as [`Builder::respond`] returns it: the upper bits of the rcode, and DO of the query.
#[derive(Debug, Clone, Copy)]
pub struct ResponseOpt(dnsm_opt);

impl ResponseOpt {
    /// The most octets of a UDP payload that the client can receive, at least 512.
    pub fn udp_size(&self) -> u16 {
        self.0.udp_size
    }

    /// Whether the client wants DNSSEC records.
    pub fn dnssec_ok(&self) -> bool {
        self.0.flags & DNSM_DO != 0
    }

    /// The record with the server's own size of a payload, and options. Before it is put, [`set_reserved`](Builder::set_reserved) to 0.
    ///
    /// # Errors
    ///
    /// `LongData` for an option of more than 65,535 octets.
    pub fn record(&self, udp_size: u16, options: &[EdnsOption<'_>]) -> Result<NewOpt, Error> {
        NewOpt::new(udp_size, self.dnssec_ok(), self.0.rcode_high, options)
    }
}

/// How much of a message was written, as [`Builder::mark`] returns it.
#[derive(Debug, Clone, Copy)]
pub struct Mark(dnsm_draft);

impl<'a> Builder<'a> {
    /// Begins a message in a buffer. `flags` are the third and fourth octets of the header, as `QR | AA`.
    ///
    /// # Errors
    ///
    /// `NoRoom` if the buffer has fewer than 12 octets.
    pub fn new(out: &'a mut [u8], id: u16, flags: u16) -> Result<Self, Error> {
        let mut draft = EMPTY;
        // SAFETY: the pointer and the length are those of the buffer, and the reference is to a live value.
        Error::check(unsafe { dnsm_begin(&mut draft, out.as_mut_ptr(), out.len(), id, flags) })?;
        Ok(Self { out, draft })
    }

    /// Begins the response to a query, with its question: with its ID, opcode, RD and CD, QR, and the low four bits of `rcode`.
    ///
    /// # Errors
    ///
    /// `ShortInput`, `IsResponse` or `NoQuestion` for octets that are no query with one question, the error of reading the question,
    /// and `NoRoom`.
    pub fn response(out: &'a mut [u8], query: &[u8], rcode: u16) -> Result<Self, Error> {
        let mut draft = EMPTY;
        // SAFETY: the pointers and the lengths are those of the buffer and the query, and the reference is to a live value.
        Error::check(unsafe {
            dnsm_begin_response(&mut draft, out.as_mut_ptr(), out.len(), query.as_ptr(), query.len(), rcode)
        })?;
        Ok(Self { out, draft })
    }

    /// Begins the response to any query, with its question if it has exactly one that can be read: with its ID, opcode, RD and CD, QR,
    /// and the low four bits of the rcode. Returns also the rcode and, if the query has an OPT record, what that of the response says.
    ///
    /// The rcode is FORMERR for several OPT records or without such a question, BADVERS for a version of EDNS above 0, else the low
    /// twelve bits of `rcode`. The 11 octets of an OPT record without options are reserved.
    ///
    /// # Errors
    ///
    /// `ShortInput` for less than a header, `IsResponse`, and `NoRoom`.
    pub fn respond(out: &'a mut [u8], query: &[u8], rcode: u16) -> Result<(Self, u16, Option<ResponseOpt>), Error> {
        let (mut draft, mut said, mut fields) = (EMPTY, rcode, dnsm_opt::default());
        // SAFETY: the pointers and the lengths are those of the buffer and the query, and the references are to live values.
        Error::check(unsafe {
            dnsm_respond(&mut draft, out.as_mut_ptr(), out.len(), query.as_ptr(), query.len(), &mut said, &mut fields)
        })?;
        let opt = (fields.udp_size > 0).then_some(fields);
        Ok((Self { out, draft }, said, opt.map(ResponseOpt)))
    }

    /// Sets the most octets that the message may have. Before, its buffer is the only limit.
    pub fn set_limit(&mut self, octets: usize) {
        self.draft.limit = octets;
    }

    /// Keeps octets free for later items, as for an OPT record. 0 lets the next ones have them.
    pub fn set_reserved(&mut self, octets: usize) {
        self.draft.reserved = octets;
    }

    /// Copies RDATA of other types than those with names of RFC 1035 as it is, if it is known to be well-formed. Before, all is
    /// checked.
    pub fn set_unchecked(&mut self, unchecked: bool) {
        self.draft.unchecked = u8::from(unchecked);
    }

    /// Sets the ID.
    pub fn set_id(&mut self, id: u16) {
        self.draft.id = id;
    }

    /// The third and fourth octets of the header.
    pub fn flags(&self) -> u16 {
        self.draft.flags
    }

    /// Sets the third and fourth octets of the header, as `QR | TC`.
    pub fn set_flags(&mut self, flags: u16) {
        self.draft.flags = flags;
    }

    /// The octets of the message so far. An empty one has 12.
    #[allow(clippy::len_without_is_empty)]
    pub fn len(&self) -> usize {
        self.draft.len
    }

    /// Appends an item. Items come in the order of their sections. On an error the message is as before.
    ///
    /// # Errors
    ///
    /// `NoRoom` if the buffer or the limit leaves too few octets, without those that are reserved. `BadSection` for a section
    /// before that of the last item. `BadText` for octets or a text that is no name, `LongData`, `BadData` and `TooMany`.
    pub fn put(&mut self, item: &NewItem<'_>) -> Result<(), Error> {
        let mut buffer = [0; DNSM_NAME_OCTETS];
        let passed = pass(item, item.name.octets(&mut buffer)?);
        // SAFETY: the pointers and the lengths are those of the buffer, the name and the RDATA, and the references are to live
        // values.
        Error::check(unsafe { dnsm_put(&mut self.draft, self.out.as_mut_ptr(), self.out.len(), &passed) })
    }

    /// Appends all items of a set, or leaves it out if they don't fit, and returns whether they went in. If a `required` set doesn't
    /// fit, as one that answers the question, TC is set. Once TC is set each set is left out. Allocates.
    ///
    /// # Errors
    ///
    /// Those of [`put`](Self::put) but `NoRoom`. Then the set is left out, too.
    pub fn put_set(&mut self, items: &[NewItem<'_>], required: bool) -> Result<bool, Error> {
        let mut buffers = vec![[0; DNSM_NAME_OCTETS]; items.len()];
        let passed = items.iter().zip(&mut buffers).map(|(item, buffer)| Ok(pass(item, item.name.octets(buffer)?)));
        let passed = passed.collect::<Result<Vec<_>, Error>>()?;
        // SAFETY: the pointers and the lengths are those of the buffer and of `passed`, which points to names and RDATA that live.
        let put = Error::check(unsafe {
            dnsm_put_set(&mut self.draft, self.out.as_mut_ptr(), self.out.len(), passed.as_ptr(), passed.len(), required)
        });
        match put {
            Err(Error::NoRoom) => Ok(false),
            other => other.map(|()| true),
        }
    }

    /// Appends an item of another message, in a section and with a TTL. A cache lowers the TTL by the age of the message. Names are
    /// compressed anew.
    ///
    /// # Errors
    ///
    /// Those of [`put`](Self::put).
    pub fn put_from(&mut self, item: &Item<'_>, section: Section, ttl: u32) -> Result<(), Error> {
        let (octets, passed) = item.parts();
        let passed = dnsm_item { section: section as u8, ttl, ..passed };
        // SAFETY: the pointers and the lengths are those of the buffer and the other message, and the references are to live values.
        Error::check(unsafe {
            dnsm_put_from(&mut self.draft, self.out.as_mut_ptr(), self.out.len(), octets.as_ptr(), octets.len(), &passed)
        })
    }

    /// What has been written so far, for [`rewind`](Self::rewind).
    pub fn mark(&self) -> Mark {
        Mark(self.draft)
    }

    /// Removes the items since the mark, and restores all that was set before it, as flags and limit. The mark has to be one of this builder.
    /// Marks that were made after it mean nothing from then on: with one of them, the octets needn't be a message.
    pub fn rewind(&mut self, mark: &Mark) {
        self.draft = mark.0;
    }

    /// Writes the header, and returns the message.
    ///
    /// # Errors
    ///
    /// `NoRoom`, only after a rewind to a mark of another builder.
    pub fn finish(self) -> Result<&'a mut [u8], Error> {
        let mut len = 0;
        // SAFETY: the pointer and the length are those of the buffer, and the references are to live values.
        Error::check(unsafe { dnsm_finish(&self.draft, self.out.as_mut_ptr(), self.out.len(), &mut len) })?;
        Ok(&mut self.out[..len])
    }
}
