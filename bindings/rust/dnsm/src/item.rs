//! Questions and records to write.
use crate::{Class, EdnsOption, Error, Name, Rtype, Section};
use dnsm_sys::*;
use std::borrow::Cow;

/// A question or a record to write.
#[derive(Debug, Clone, Copy)]
pub struct NewItem<'a> {
    /// The section that it is for.
    pub section: Section,
    /// The name of a question, or the owner of a record.
    pub name: NewName<'a>,
    /// Its type.
    pub rtype: Rtype,
    /// Its class.
    pub class: Class,
    /// Its TTL in seconds. A question has none.
    pub ttl: u32,
    /// Its RDATA, with names in it uncompressed ([`name_from_text`](crate::name_from_text)). A question has none.
    pub data: &'a [u8],
}

impl<'a> NewItem<'a> {
    /// A question.
    pub fn question(name: impl Into<NewName<'a>>, rtype: Rtype, class: Class) -> Self {
        Self { section: Section::Question, name: name.into(), rtype, class, ttl: 0, data: &[] }
    }

    /// A record of class IN.
    pub fn record(section: Section, name: impl Into<NewName<'a>>, rtype: Rtype, ttl: u32, data: &'a [u8]) -> Self {
        Self { section, name: name.into(), rtype, class: Class::IN, ttl, data }
    }
}

/// A name to write: text, or the octets of an uncompressed name.
#[derive(Debug, Clone, Copy)]
pub enum NewName<'a> {
    /// The text of a name.
    Text(&'a str),
    /// The octets of a name, as [`Name::to_octets`](crate::Name::to_octets) and [`name_from_text`](crate::name_from_text) return.
    Octets(&'a [u8]),
}

impl<'a> NewName<'a> {
    /// The octets of the name, in a buffer if it is text.
    pub(crate) fn octets(self, buffer: &'a mut [u8; DNSM_NAME_OCTETS]) -> Result<&'a [u8], Error> {
        match self {
            Self::Octets(octets) => Ok(octets),
            Self::Text(text) => {
                let mut len = 0;
                // SAFETY: the pointers and the lengths are those of the text and of a buffer.
                let status =
                    unsafe { dnsm_name_from_text(text.as_ptr().cast(), text.len(), buffer.as_mut_ptr(), buffer.len(), &mut len) };
                Error::check(status).map(|()| &buffer[..len])
            }
        }
    }

    /// The text of the name.
    pub(crate) fn text(self) -> Result<Cow<'a, str>, Error> {
        match self {
            Self::Text(text) => Ok(Cow::Borrowed(text)),
            Self::Octets(octets) => {
                let name = Name::read(octets, 0)?;
                if name.to_octets() != octets {
                    return Err(Error::BadText);
                }
                Ok(Cow::Owned(name.to_string()))
            }
        }
    }
}

impl<'a> From<&'a str> for NewName<'a> {
    fn from(text: &'a str) -> Self {
        Self::Text(text)
    }
}

impl<'a> From<&'a [u8]> for NewName<'a> {
    fn from(octets: &'a [u8]) -> Self {
        Self::Octets(octets)
    }
}

impl<'a> From<&'a Vec<u8>> for NewName<'a> {
    fn from(octets: &'a Vec<u8>) -> Self {
        Self::Octets(octets)
    }
}

/// An OPT record to write.
#[derive(Debug, Clone)]
pub struct NewOpt {
    pub(crate) fields: dnsm_opt,
    pub(crate) data: Vec<u8>,
}

impl NewOpt {
    /// An OPT record of version 0. `udp_size` is the most octets of a UDP payload that the sender can receive, `dnssec_ok` asks for
    /// DNSSEC records, and `rcode_high` are the upper eight bits of the extended rcode.
    ///
    /// # Errors
    ///
    /// `LongData` for an option of more than 65,535 octets.
    pub fn new(udp_size: u16, dnssec_ok: bool, rcode_high: u8, options: &[EdnsOption<'_>]) -> Result<Self, Error> {
        let fields = dnsm_opt { udp_size, flags: if dnssec_ok { DNSM_DO } else { 0 }, rcode_high, version: 0 };
        let mut data = Vec::new();
        for option in options {
            option.append(&mut data)?;
        }
        Ok(Self { fields, data })
    }

    /// The record, which is the same in each message.
    pub fn item(&self) -> NewItem<'_> {
        // SAFETY: the reference is to a live value.
        let ttl = unsafe { dnsm_opt_ttl(&self.fields) };
        let class = Class(self.fields.udp_size);
        let name = NewName::Octets(&[0]);
        NewItem { section: Section::Additional, name, rtype: Rtype::OPT, class, ttl, data: &self.data }
    }

    /// The octets that the record takes.
    pub fn octets(&self) -> usize {
        // The root, the type, the class, the TTL and RDLENGTH.
        1 + 2 + 2 + 4 + 2 + self.data.len()
    }
}
