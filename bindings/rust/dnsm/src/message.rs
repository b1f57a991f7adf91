//! Messages that are read.
use crate::{out, Class, Error, Opt, Reply, Rtype, Section};
use dnsm_sys::*;
use std::cmp::Ordering;
use std::fmt;
use std::hash::{Hash, Hasher};
use std::iter::FusedIterator;

/// A message over octets that are borrowed. Its header has been read.
#[derive(Debug, Clone, Copy)]
pub struct Message<'a> {
    octets: &'a [u8],
    header: Header,
    start: dnsm_cursor,
}

/// The header of a message.
#[derive(Debug, Clone, Copy, PartialEq, Eq)]
pub struct Header {
    /// The ID.
    pub id: u16,
    /// The third and fourth octets: the flags, as [`crate::QR`], and opcode and rcode.
    pub flags: u16,
    /// The number of items in each section, as the header says.
    pub counts: [u16; 4],
    /// The kind of query.
    pub opcode: u8,
    /// The response code, without the bits in an OPT record.
    pub rcode: u8,
}

impl<'a> Message<'a> {
    /// Reads the header.
    ///
    /// # Errors
    ///
    /// `ShortInput` if there are fewer than 12 octets.
    pub fn new(octets: &'a [u8]) -> Result<Self, Error> {
        let (mut header, mut start) = (dnsm_header::default(), dnsm_cursor::default());
        // SAFETY: the pointer and the length are those of the octets, and the references are to live values.
        Error::check(unsafe { dnsm_open(octets.as_ptr(), octets.len(), &mut header, &mut start) })?;
        let dnsm_header { id, flags, counts, opcode, rcode } = header;
        Ok(Self { octets, header: Header { id, flags, counts, opcode, rcode }, start })
    }

    /// The octets.
    pub fn octets(&self) -> &'a [u8] {
        self.octets
    }

    /// The header.
    pub fn header(&self) -> Header {
        self.header
    }

    /// Checks that this is the response to a query: QR is set, and ID, opcode and questions are those of the query.
    ///
    /// # Errors
    ///
    /// `NoResponse`, `OtherQuery`, and `ShortInput` if the query has fewer than 12 octets.
    pub fn check_answers(&self, query: &[u8]) -> Result<(), Error> {
        // SAFETY: the pointers and the lengths are those of both octets.
        Error::check(unsafe { dnsm_answers(query.as_ptr(), query.len(), self.octets.as_ptr(), self.octets.len()) })
    }

    /// What this says of the first question of a query, if it is a reply to that. `zone` is the name of the zone that the server was
    /// asked about, as octets: the root, one zero octet, for a server that resolves. Only records whose owners are within it count, but
    /// NS records of a zone above can make it [`ReplyKind::Lame`](crate::ReplyKind::Lame).
    ///
    /// Ask [`is_regular`](Self::is_regular) first: another message can take seconds.
    ///
    /// # Errors
    ///
    /// `ShortInput` if the query has fewer than 12 octets, `BadText` if the octets aren't exactly one name, and `NoResponse` or
    /// `OtherQuery` if it is no such reply.
    pub fn reply_to(&self, query: &[u8], zone: &[u8]) -> Result<Reply, Error> {
        Reply::read(query, self.octets, zone)
    }

    /// Whether all items can be skipped, and each compression pointer leads to a label of an earlier name (RFC 1035 section 4.1.4). To
    /// read a name of such a message, at most 128 pointers are followed, else some 8,000.
    pub fn is_regular(&self) -> bool {
        let mut regular = 0;
        // SAFETY: the pointer and the length are those of the octets, and the reference is to a live value.
        let status = unsafe { dnsm_is_regular(self.octets.as_ptr(), self.octets.len(), &mut regular) };
        status == DNSM_OK && regular != 0
    }

    /// The least TTL of the records, in seconds. None if no record has one, as OPT, TSIG, TKEY and SIG haven't.
    ///
    /// # Errors
    ///
    /// The error of the first item that can't be skipped. Pointers aren't followed.
    pub fn min_ttl(&self) -> Result<Option<u32>, Error> {
        let mut ttl = 0;
        // SAFETY: the pointer and the length are those of the octets, and the reference is to a live value.
        match unsafe { dnsm_min_ttl(self.octets.as_ptr(), self.octets.len(), &mut ttl) } {
            DNSM_OK => Ok(Some(ttl)),
            DNSM_END => Ok(None),
            status => Err(Error::from_status(status)),
        }
    }

    /// The offset after the last item.
    ///
    /// # Errors
    ///
    /// Those of [`min_ttl`](Self::min_ttl).
    pub fn records_end(&self) -> Result<usize, Error> {
        let mut end = 0;
        // SAFETY: the pointer and the length are those of the octets, and the reference is to a live value.
        Error::check(unsafe { dnsm_records_end(self.octets.as_ptr(), self.octets.len(), &mut end) })?;
        Ok(end)
    }

    /// All questions and records, in order, up to the first that can't be read, and then its error.
    pub fn items(&self) -> Items<'a> {
        Items { octets: self.octets, cursor: self.start, ended: false }
    }

    /// The octets after the last item, which are no part of the message.
    ///
    /// # Errors
    ///
    /// The error of the first item that can't be read.
    pub fn trailing(&self) -> Result<&'a [u8], Error> {
        let mut items = self.items();
        items.try_for_each(|item| item.map(drop))?;
        Ok(&self.octets[items.offset()..])
    }

    /// The items of a section. What can't be read after the section makes no error.
    pub fn section(&self, section: Section) -> impl Iterator<Item = Result<Item<'a>, Error>> {
        let before = self.header.counts[..=section as usize].iter().map(|&count| usize::from(count)).sum();
        self.items().take(before).filter(move |item| item.as_ref().map_or(true, |item| item.section() == section))
    }

    /// The only OPT record, anywhere in the additional section, and the rcode of twelve bits. None if there is none.
    ///
    /// # Errors
    ///
    /// `TwoOpts`, the error of the first item that can't be read, and `BadOwner` if the owner isn't the root.
    pub fn find_opt(&self) -> Result<Option<(Opt<'a>, u16)>, Error> {
        let (octets, mut fields, mut item, mut rcode) = (self.octets, dnsm_opt::default(), dnsm_item::default(), 0);
        // SAFETY: the pointer and the length are those of the octets, and the references are to live values.
        match unsafe { dnsm_find_opt(octets.as_ptr(), octets.len(), &mut fields, &mut item, &mut rcode) } {
            DNSM_OK => Ok(Some((Opt::found(Item { octets, item }, fields), rcode))),
            DNSM_NO_OPT => Ok(None),
            status => Err(Error::from_status(status)),
        }
    }

    /// The first OPT record of the additional section.
    ///
    /// # Errors
    ///
    /// The error of an item before it that can't be read.
    pub fn opt(&self) -> Result<Option<Opt<'a>>, Error> {
        for item in self.section(Section::Additional) {
            let item = item?;
            if item.rtype() == Rtype::OPT {
                return item.opt().map(Some);
            }
        }
        Ok(None)
    }
}

/// Lowers the TTL of each record of a message by some seconds, but not below 0, in place: for a response that was in a cache for so long.
/// Records of OPT, TSIG, TKEY and SIG have none. No other octet changes.
///
/// # Errors
///
/// `ShortInput` if there are fewer than 12 octets, and why the message isn't [regular](Message::is_regular): the error of the
/// first item that can't be skipped, or `BadPointer`. Then nothing has changed.
pub fn age_ttls(octets: &mut [u8], seconds: u32) -> Result<(), Error> {
    // SAFETY: the pointer and the length are those of the octets.
    Error::check(unsafe { dnsm_age(octets.as_mut_ptr(), octets.len(), seconds) })
}

/// An iterator over the questions and records of a message.
#[derive(Debug, Clone)]
pub struct Items<'a> {
    octets: &'a [u8],
    cursor: dnsm_cursor,
    ended: bool,
}

impl Items<'_> {
    /// The offset at which the next item begins; after the last one, where the message ends.
    pub fn offset(&self) -> usize {
        self.cursor.place
    }
}

impl<'a> Iterator for Items<'a> {
    type Item = Result<Item<'a>, Error>;

    fn next(&mut self) -> Option<Self::Item> {
        if self.ended {
            return None;
        }
        let mut item = dnsm_item::default();
        // SAFETY: the pointer and the length are those of the octets, and the references are to live values.
        match unsafe { dnsm_next(self.octets.as_ptr(), self.octets.len(), &mut self.cursor, &mut item) } {
            DNSM_OK => Some(Ok(Item { octets: self.octets, item })),
            status => {
                self.ended = true;
                (status != DNSM_END).then(|| Err(Error::from_status(status)))
            }
        }
    }
}

impl FusedIterator for Items<'_> {}

/// A question or a record.
#[derive(Debug, Clone, Copy)]
pub struct Item<'a> {
    pub(crate) octets: &'a [u8],
    pub(crate) item: dnsm_item,
}

impl<'a> Item<'a> {
    /// The section that it is in.
    pub fn section(&self) -> Section {
        match self.item.section {
            DNSM_QUESTION => Section::Question,
            DNSM_ANSWER => Section::Answer,
            DNSM_AUTHORITY => Section::Authority,
            _ => Section::Additional,
        }
    }

    /// Its name.
    pub fn name(&self) -> Name<'a> {
        Name { octets: self.octets, offset: self.item.place }
    }

    /// Its type.
    pub fn rtype(&self) -> Rtype {
        Rtype(self.item.type_)
    }

    /// Its class.
    pub fn class(&self) -> Class {
        Class(self.item.class_)
    }

    /// Its TTL in seconds; 0 for a question.
    pub fn ttl(&self) -> u32 {
        self.item.ttl
    }

    /// Its RDATA as it is in the message; names in it may be compressed. A question has none.
    pub fn data(&self) -> &'a [u8] {
        &self.octets[self.item.data..][..usize::from(self.item.data_len)]
    }

    /// The offset of its RDATA in the message. The TTL of a record is six octets before it, in four octets, big-endian.
    pub fn data_offset(&self) -> usize {
        self.item.data
    }

    /// Its RDATA as in a zone file, or `\#` and the octets if it isn't that of the type. None for a question.
    pub fn data_text(&self) -> Option<DataText<'a>> {
        (self.section() != Section::Question).then_some(DataText(*self))
    }

    /// Its RDATA with names uncompressed, as [`NewItem`](crate::NewItem) takes it.
    ///
    /// # Errors
    ///
    /// `BadSection` for a question, and `BadData` if the RDATA isn't that of its type.
    pub fn data_octets(&self) -> Result<Vec<u8>, Error> {
        // SAFETY: the pointers and the lengths are those of the octets and of a buffer, and the reference is to a live value.
        out::octets(usize::from(self.item.data_len), |out, out_len, len| unsafe {
            dnsm_data_octets(self.octets.as_ptr(), self.octets.len(), &self.item, out, out_len, len)
        })
    }

    /// Checks that its RDATA is that of its type.
    ///
    /// # Errors
    ///
    /// Those of [`data_octets`](Self::data_octets).
    pub fn check_data(&self) -> Result<(), Error> {
        // SAFETY: the pointer and the length are those of the octets, and the reference is to a live value.
        Error::check(unsafe { dnsm_check_data(self.octets.as_ptr(), self.octets.len(), &self.item) })
    }

    /// The fields of its RDATA, in order. The only error is that of [`check_data`](Self::check_data), in place of the first field.
    pub fn fields(&self) -> Fields<'a> {
        Fields { item: *self, index: 0, ended: false }
    }

    /// The octets and the item, for a call.
    pub(crate) fn parts(&self) -> (&'a [u8], dnsm_item) {
        (self.octets, self.item)
    }

    /// A name in its RDATA, counted from 0 in the order of the fields; SOA has two. No octet after the RDATA belongs to it.
    ///
    /// # Errors
    ///
    /// `BadSection` for a question, `NoName` if it has no such name, and `BadData` if the RDATA isn't that of its type.
    pub fn data_name(&self, index: usize) -> Result<Name<'a>, Error> {
        let mut offset = 0;
        // SAFETY: the pointer and the length are those of the octets, and the references are to live values.
        Error::check(unsafe { dnsm_data_name(self.octets.as_ptr(), self.octets.len(), &self.item, index, &mut offset) })?;
        Ok(Name { octets: self.octets, offset })
    }

    /// The fields of an OPT record.
    ///
    /// # Errors
    ///
    /// `NotOpt`.
    pub fn opt(&self) -> Result<Opt<'a>, Error> {
        Opt::of(*self)
    }
}

/// A field of RDATA.
#[derive(Debug, Clone, Copy)]
pub enum Field<'a> {
    /// A number.
    Number(u64),
    /// A record type.
    Rtype(Rtype),
    /// An IPv4 or IPv6 address.
    Address(&'a [u8]),
    /// A name.
    Name(Name<'a>),
    /// A string, or other octets.
    Octets(&'a [u8]),
}

/// The fields of RDATA, as [`Item::fields`] returns them.
#[derive(Debug, Clone)]
pub struct Fields<'a> {
    item: Item<'a>,
    index: usize,
    ended: bool,
}

impl<'a> Iterator for Fields<'a> {
    type Item = Result<Field<'a>, Error>;

    fn next(&mut self) -> Option<Self::Item> {
        let (octets, item) = self.item.parts();
        let mut field = dnsm_data_field::default();
        if self.ended {
            return None;
        }
        // SAFETY: the pointer and the length are those of the octets, and the references are to live values.
        match unsafe { dnsm_next_field(octets.as_ptr(), octets.len(), &item, &mut self.index, &mut field) } {
            DNSM_OK => Some(Ok(Field::of(octets, &field))),
            status => {
                self.ended = true;
                (status != DNSM_END).then(|| Err(Error::from_status(status)))
            }
        }
    }
}

impl FusedIterator for Fields<'_> {}

impl<'a> Field<'a> {
    fn of(octets: &'a [u8], field: &dnsm_data_field) -> Self {
        match field.kind {
            DNSM_FIELD_NUMBER => Self::Number(field.number),
            DNSM_FIELD_TYPE => Self::Rtype(Rtype(field.number as u16)),
            DNSM_FIELD_NAME => Self::Name(Name { octets, offset: field.place }),
            DNSM_FIELD_IPV4 | DNSM_FIELD_IPV6 => Self::Address(&octets[field.place..][..field.len]),
            _ => Self::Octets(&octets[field.place..][..field.len]),
        }
    }
}

/// A question or a record as a line of a zone file.
impl fmt::Display for Item<'_> {
    fn fmt(&self, f: &mut fmt::Formatter<'_>) -> fmt::Result {
        match self.data_text() {
            None => write!(f, "{} {} {}", self.name(), self.class(), self.rtype()),
            Some(data) => write!(f, "{} {} {} {} {data}", self.name(), self.ttl(), self.class(), self.rtype()),
        }
    }
}

/// A name in a message, or in other octets. It can be read.
///
/// ```
/// use dnsm::{name_from_text, Name};
///
/// let (zone, octets) = (name_from_text("example.org")?, b"\x03www\x07EXAMPLE\x03ORG\0");
/// let name = Name::read(octets, 0)?;
/// assert!(name.is_below(&Name::read(&zone, 0)?) && name.to_string() == "www.EXAMPLE.ORG.");
/// # Ok::<(), dnsm::Error>(())
/// ```
#[derive(Debug, Clone, Copy)]
pub struct Name<'a> {
    octets: &'a [u8],
    offset: usize,
}

impl<'a> Name<'a> {
    /// The name at an offset of octets, as at the start of those of [`name_from_text`](crate::name_from_text).
    ///
    /// # Errors
    ///
    /// Why no name can be read there.
    pub fn read(octets: &'a [u8], offset: usize) -> Result<Self, Error> {
        let mut end = 0;
        // SAFETY: the pointer and the length are those of the octets, and the reference is to a live value.
        Error::check(unsafe { dnsm_name_end(octets.as_ptr(), octets.len(), offset, &mut end) })?;
        Ok(Self { octets, offset })
    }

    /// The octets of the name, without compression pointers.
    pub fn to_octets(&self) -> Vec<u8> {
        // SAFETY: the pointers and the lengths are those of the octets and of a buffer.
        let write = |out, out_len, len: &mut usize| unsafe {
            dnsm_name_octets(self.octets.as_ptr(), self.octets.len(), self.offset, out, out_len, len)
        };
        out::octets(DNSM_NAME_OCTETS, write).expect("the name was read before")
    }

    /// Octets that compare as RFC 4034 section 6.1 orders names. The keys of subdomains begin with that of the name.
    pub fn key(&self) -> Vec<u8> {
        self.key_in(&mut [0; DNSM_NAME_KEY]).to_vec()
    }

    /// The key, in a buffer.
    fn key_in<'b>(&self, buffer: &'b mut [u8; DNSM_NAME_KEY]) -> &'b [u8] {
        let mut len = 0;
        // SAFETY: the pointers and the lengths are those of the octets and of a buffer.
        let status = unsafe {
            dnsm_name_key(self.octets.as_ptr(), self.octets.len(), self.offset, buffer.as_mut_ptr(), buffer.len(), &mut len)
        };
        assert_eq!(status, DNSM_OK, "the name was read before");
        &buffer[..len]
    }

    /// A hash of the name, ignoring ASCII case. If others choose the names, the seed has to be secret and random, of 16 octets: else
    /// they can choose names with the same hash.
    pub fn seeded_hash(&self, seed: &[u8]) -> u32 {
        let mut hash = 0;
        // SAFETY: the pointers and the lengths are those of the octets and of the seed, and the reference is to a live value.
        let status =
            unsafe { dnsm_name_hash(self.octets.as_ptr(), self.octets.len(), self.offset, seed.as_ptr(), seed.len(), &mut hash) };
        assert_eq!(status, DNSM_OK, "the name was read before");
        hash
    }

    /// Whether the name is the other or a subdomain of it, ignoring ASCII case.
    pub fn is_below(&self, other: &Name<'_>) -> bool {
        let (octets, others, mut below) = (self.octets, other.octets, 0);
        // SAFETY: the pointers and the lengths are those of the octets, and the reference is to a live value.
        let status = unsafe {
            dnsm_name_below(octets.as_ptr(), octets.len(), self.offset, others.as_ptr(), others.len(), other.offset, &mut below)
        };
        status == DNSM_OK && below != 0
    }

    /// The offset of the name in the octets.
    pub fn offset(&self) -> usize {
        self.offset
    }

    /// The offset after the name. A compression pointer ends it.
    pub fn end(&self) -> usize {
        let mut end = 0;
        // SAFETY: the pointer and the length are those of the octets, and the reference is to a live value.
        let status = unsafe { dnsm_name_end(self.octets.as_ptr(), self.octets.len(), self.offset, &mut end) };
        assert_eq!(status, DNSM_OK, "the name was read before");
        end
    }
}

/// Names are equal if they are but for ASCII case, also if they are of different messages.
impl PartialEq for Name<'_> {
    fn eq(&self, other: &Name<'_>) -> bool {
        let (octets, others, mut equal) = (self.octets, other.octets, 0);
        // SAFETY: the pointers and the lengths are those of the octets, and the reference is to a live value.
        let status = unsafe {
            dnsm_name_equal(octets.as_ptr(), octets.len(), self.offset, others.as_ptr(), others.len(), other.offset, &mut equal)
        };
        status == DNSM_OK && equal != 0
    }
}

impl Eq for Name<'_> {}

/// Equal names have equal hashes.
impl Hash for Name<'_> {
    fn hash<H: Hasher>(&self, state: &mut H) {
        self.key_in(&mut [0; DNSM_NAME_KEY]).hash(state);
    }
}

/// Names are ordered by RFC 4034 section 6.1.
impl Ord for Name<'_> {
    fn cmp(&self, other: &Name<'_>) -> Ordering {
        let (octets, others, mut order) = (self.octets, other.octets, 0);
        // SAFETY: the pointers and the lengths are those of the octets, and the reference is to a live value.
        let status = unsafe {
            dnsm_name_order(octets.as_ptr(), octets.len(), self.offset, others.as_ptr(), others.len(), other.offset, &mut order)
        };
        assert_eq!(status, DNSM_OK, "the names were read before");
        order.cmp(&1)
    }
}

impl PartialOrd for Name<'_> {
    fn partial_cmp(&self, other: &Name<'_>) -> Option<Ordering> {
        Some(self.cmp(other))
    }
}

impl fmt::Display for Name<'_> {
    fn fmt(&self, f: &mut fmt::Formatter<'_>) -> fmt::Result {
        // SAFETY: the pointers and the lengths are those of the octets and of a buffer.
        out::text(f, |out, out_len, len| unsafe {
            dnsm_name_text(self.octets.as_ptr(), self.octets.len(), self.offset, out.cast(), out_len, len)
        })
    }
}

/// The RDATA of a record, for printing.
#[derive(Debug, Clone, Copy)]
pub struct DataText<'a>(Item<'a>);

impl fmt::Display for DataText<'_> {
    fn fmt(&self, f: &mut fmt::Formatter<'_>) -> fmt::Result {
        let Item { octets, item } = self.0;
        // SAFETY: the pointers and the lengths are those of the octets and of a buffer.
        out::text(f, |out, out_len, len| unsafe {
            dnsm_data_text(octets.as_ptr(), octets.len(), &item, out.cast(), out_len, len)
        })
    }
}
