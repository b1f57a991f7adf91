//! EDNS: the fields and options of an OPT record.
use crate::{Error, Item};
use dnsm_sys::*;

/// An OPT record of a message.
#[derive(Debug, Clone, Copy)]
pub struct Opt<'a> {
    item: Item<'a>,
    fields: dnsm_opt,
}

impl<'a> Opt<'a> {
    pub(crate) fn of(item: Item<'a>) -> Result<Self, Error> {
        let mut fields = dnsm_opt::default();
        // SAFETY: the references are to live values.
        Error::check(unsafe { dnsm_opt_fields(&item.item, &mut fields) })?;
        Ok(Self { item, fields })
    }

    /// The record with its fields, which were read already.
    pub(crate) fn found(item: Item<'a>, fields: dnsm_opt) -> Self {
        Self { item, fields }
    }

    /// The most octets of a UDP payload that the sender can receive.
    pub fn udp_size(&self) -> u16 {
        self.fields.udp_size
    }

    /// Whether the sender wants DNSSEC records.
    pub fn dnssec_ok(&self) -> bool {
        self.fields.flags & DNSM_DO != 0
    }

    /// The version of EDNS. Only 0 is defined.
    pub fn version(&self) -> u8 {
        self.fields.version
    }

    /// The extended rcode, with the lower bits from the header.
    pub fn rcode(&self, header: u8) -> u16 {
        u16::from(self.fields.rcode_high) << 4 | u16::from(header & 15)
    }

    /// The options, up to the first that isn't whole, and then its error.
    pub fn options(&self) -> Options<'a> {
        Options { item: self.item, offset: self.item.item.data, ended: false }
    }
}

/// An option of an OPT record.
#[derive(Debug, Clone, Copy, PartialEq, Eq)]
pub struct EdnsOption<'a> {
    /// What kind of option it is.
    pub code: u16,
    /// Its octets.
    pub data: &'a [u8],
}

impl EdnsOption<'_> {
    /// Appends the octets of the option.
    pub(crate) fn append(&self, to: &mut Vec<u8>) -> Result<(), Error> {
        // SAFETY: the pointers and the lengths are those of the data and of a buffer.
        let write = |out, out_len, len: &mut usize| unsafe {
            dnsm_option_octets(self.code, self.data.as_ptr(), self.data.len(), out, out_len, len)
        };
        to.extend(crate::out::octets(self.data.len() + 4, write)?);
        Ok(())
    }
}

/// An iterator over the options of an OPT record.
#[derive(Debug, Clone)]
pub struct Options<'a> {
    item: Item<'a>,
    offset: usize,
    ended: bool,
}

impl<'a> Iterator for Options<'a> {
    type Item = Result<EdnsOption<'a>, Error>;

    fn next(&mut self) -> Option<Self::Item> {
        if self.ended {
            return None;
        }
        let (octets, mut option) = (self.item.octets, dnsm_opt_option::default());
        // SAFETY: the pointer and the length are those of the octets, and the references are to live values.
        match unsafe { dnsm_next_option(octets.as_ptr(), octets.len(), &self.item.item, &mut self.offset, &mut option) } {
            DNSM_OK => Some(Ok(EdnsOption { code: option.code, data: &octets[option.data..][..usize::from(option.data_len)] })),
            status => {
                self.ended = true;
                (status != DNSM_END).then(|| Err(Error::from_status(status)))
            }
        }
    }
}
