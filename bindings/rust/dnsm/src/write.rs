//! Messages that are written by one call.
use crate::{out, Class, Error, Item, NewItem, NewOpt, Rtype};
use dnsm_sys::*;
use std::cell::Cell;

/// The octets of a message with these items, each in its section, in order. Names are compressed. `flags` are the third and fourth
/// octets of the header, as `QR | AA`.
///
/// # Errors
///
/// `BadText`, `LongData`, `BadData` or `TooMany` for an item that can't be written, and `NoMemory`. An item whose name is octets
/// has the errors of reading a name, and `BadText` if octets follow it, or it has a compression pointer.
pub fn build(id: u16, flags: u16, items: &[NewItem<'_>]) -> Result<Vec<u8>, Error> {
    let names = items.iter().map(|item| item.name.text()).collect::<Result<Vec<_>, _>>()?;
    let passed: Vec<dnsm_new_item> = items.iter().zip(&names).map(|(item, name)| pass(item, name)).collect();
    // Enough for the message, or for what TCP carries. A longer message is written by a second call.
    let capacity = passed.iter().fold(12, |sum, it| sum + it.name_len + it.data_len + 12).min(65535);
    // SAFETY: the pointers and the lengths are those of `passed`, which points to octets of `items` and `names`, and of a buffer.
    out::octets(capacity, |out, out_len, len| unsafe { dnsm_build(id, flags, passed.as_ptr(), passed.len(), out, out_len, len) })
}

/// The item for the call.
fn pass(item: &NewItem<'_>, name: &str) -> dnsm_new_item {
    dnsm_new_item {
        name: name.as_ptr().cast(),
        name_len: name.len(),
        data: item.data.as_ptr(),
        data_len: item.data.len(),
        ttl: item.ttl,
        type_: item.rtype.0,
        class_: item.class.0,
        section: item.section as u8,
    }
}

/// A query with one question. Choose the ID at random if it goes over UDP. `recursion` sets RD.
///
/// # Errors
///
/// `BadText` if the text is no name.
pub fn query(id: u16, recursion: bool, name: &str, rtype: Rtype, class: Class) -> Result<Vec<u8>, Error> {
    // SAFETY: the pointers and the lengths are those of the text and of a buffer.
    out::octets(DNSM_MADE, |out, out_len, len| unsafe {
        dnsm_query(id, recursion, name.as_ptr().cast(), name.len(), rtype.0, class.0, out, out_len, len)
    })
}

/// A query like that of [`query`], with an OPT record.
///
/// ```
/// use dnsm::{query_opt, Class, EdnsOption, Message, NewOpt, Rtype};
///
/// let opt = NewOpt::new(1232, true, 0, &[EdnsOption { code: 3, data: &[] }])?;
/// let octets = query_opt(4660, true, "www.example.com", Rtype::A, Class::IN, &opt)?;
/// assert_eq!(octets.len(), 33 + 11 + 4);
/// # Ok::<(), dnsm::Error>(())
/// ```
///
/// # Errors
///
/// `BadText` if the text is no name, and `LongData` for more than 65,535 octets of options.
pub fn query_opt(id: u16, recursion: bool, name: &str, rtype: Rtype, class: Class, opt: &NewOpt) -> Result<Vec<u8>, Error> {
    let (fields, options) = (&opt.fields, &opt.data);
    // Enough for each query with these options.
    let capacity = 282 + options.len();
    // SAFETY: the pointers and the lengths are those of the text, of the options and of a buffer, and `fields` is a live value.
    out::octets(capacity, |out, out_len, len| unsafe {
        let (name, name_len, options, options_len) = (name.as_ptr().cast(), name.len(), options.as_ptr(), options.len());
        dnsm_query_opt(id, recursion, name, name_len, rtype.0, class.0, fields, options, options_len, out, out_len, len)
    })
}

/// The response to a query of class IN for type A or ANY, with one address.
///
/// # Errors
///
/// Why the octets are no such query.
pub fn respond_a(query: &[u8], authoritative: bool, ttl: u32, address: [u8; 4]) -> Result<Vec<u8>, Error> {
    // SAFETY: the pointers and the lengths are those of the query, of four octets and of a buffer.
    out::octets(DNSM_MADE, |out, out_len, len| unsafe {
        dnsm_respond_a(query.as_ptr(), query.len(), authoritative, ttl, address.as_ptr(), out, out_len, len)
    })
}

/// The RDATA that a text represents, as in a zone file.
///
/// # Errors
///
/// `BadText` if it represents none, and `NoMemory`.
pub fn data_from_text(rtype: Rtype, text: &str) -> Result<Vec<u8>, Error> {
    // SAFETY: the pointers and the lengths are those of the text and of a buffer.
    out::octets(DNSM_NAME_OCTETS, |out, out_len, len| unsafe {
        dnsm_data_from_text(rtype.0, text.as_ptr().cast(), text.len(), out, out_len, len)
    })
}

/// A record that was read from text, with its octets.
#[derive(Debug, Clone)]
pub struct TextRecord {
    octets: Vec<u8>,
    item: dnsm_item,
}

impl TextRecord {
    /// The record, as of the answer section, for [`Builder::put_from`](crate::Builder::put_from).
    pub fn item(&self) -> Item<'_> {
        Item { octets: &self.octets, item: self.item }
    }
}

/// The record that a text represents, as in a line of a zone file.
///
/// # Errors
///
/// `BadText` if it represents none, and `NoMemory`.
pub fn record_from_text(text: &str) -> Result<TextRecord, Error> {
    let item = Cell::new(dnsm_item::default());
    // SAFETY: the pointers and the lengths are those of the text and of a buffer, and `item` is a live value.
    let octets = out::octets(DNSM_MADE, |out, out_len, len| unsafe {
        dnsm_record_from_text(text.as_ptr().cast(), text.len(), out, out_len, len, item.as_ptr())
    })?;
    Ok(TextRecord { octets, item: item.get() })
}

/// The octets of the name that a text represents, as in RDATA.
///
/// # Errors
///
/// `BadText` if the text is no name.
pub fn name_from_text(name: &str) -> Result<Vec<u8>, Error> {
    // SAFETY: the pointers and the lengths are those of the text and of a buffer.
    out::octets(DNSM_NAME_OCTETS, |out, out_len, len| unsafe {
        dnsm_name_from_text(name.as_ptr().cast(), name.len(), out, out_len, len)
    })
}
