//! What replies say.
use crate::{Error, Name, Rcode};
use dnsm_sys::*;
use std::fmt;

/// What a reply says (RFC 1034 section 5.3.3). "The name" is that at the end of the chain of aliases, CNAME records, that begins at
/// the question's name.
#[derive(Debug, Clone, Copy, PartialEq, Eq, Hash)]
#[non_exhaustive]
pub enum ReplyKind {
    /// The name owns records that the question asks for; they are in the answer section.
    Answer,
    /// The name owns no such records (RFC 2308 section 2.2).
    NoData,
    /// The name doesn't exist (RFC 2308 section 2.1).
    NoName,
    /// NS records of the authority section delegate the name to a zone below.
    Referral,
    /// The name is outside the zone: other servers have to be asked for it.
    Alias,
    /// A DNAME record redirects the name, and there is no CNAME record for that (RFC 6672 section 3.1).
    Dname,
    /// TC is set: the query has to be sent again over TCP.
    Truncated,
    /// The rcode is neither NOERROR nor NXDOMAIN, or an error where no records were asked for.
    Failed,
    /// NOERROR, where no records were asked for: the opcode isn't QUERY, or there is no question.
    Done,
    /// A record can't be read. This reply and those below are of no use: ask another server.
    Unreadable,
    /// There is more than one OPT record.
    ManyOpts,
    /// The chain of aliases has more than 20 names.
    Loop,
    /// NS records, but of no zone below the one that was asked.
    Lame,
    /// One that this version of the crate doesn't know.
    Other(u8),
}

impl ReplyKind {
    fn of(kind: u8) -> Self {
        match kind {
            DNSM_REPLY_ANSWER => Self::Answer,
            DNSM_REPLY_NO_DATA => Self::NoData,
            DNSM_REPLY_NO_NAME => Self::NoName,
            DNSM_REPLY_REFERRAL => Self::Referral,
            DNSM_REPLY_ALIAS => Self::Alias,
            DNSM_REPLY_DNAME => Self::Dname,
            DNSM_REPLY_TRUNCATED => Self::Truncated,
            DNSM_REPLY_FAILED => Self::Failed,
            DNSM_REPLY_DONE => Self::Done,
            DNSM_REPLY_UNREADABLE => Self::Unreadable,
            DNSM_REPLY_MANY_OPTS => Self::ManyOpts,
            DNSM_REPLY_LOOP => Self::Loop,
            DNSM_REPLY_LAME => Self::Lame,
            other => Self::Other(other),
        }
    }
}

/// What a reply says, and of which name. [`Message::reply_to`](crate::Message::reply_to) returns it.
#[derive(Clone)]
pub struct Reply(dnsm_saying);

impl Reply {
    pub(crate) fn read(query: &[u8], received: &[u8], zone: &[u8]) -> Result<Self, Error> {
        let [name, owner, target] = [[0; DNSM_NAME_OCTETS]; 3];
        let (ttl, alias_ttl, rcode, kind, name_len, owner_len, target_len) = (0, 0, 0, 0, 0, 0, 0);
        let mut saying = dnsm_saying { ttl, alias_ttl, rcode, kind, name_len, owner_len, target_len, name, owner, target };
        // SAFETY: the pointers and the lengths are those of the octets, and the reference is to a live value.
        let status = unsafe {
            let (received, received_len) = (received.as_ptr(), received.len());
            dnsm_reply(query.as_ptr(), query.len(), received, received_len, zone.as_ptr(), zone.len(), &mut saying)
        };
        Error::check(status).map(|()| Self(saying))
    }

    /// What it says.
    pub fn kind(&self) -> ReplyKind {
        ReplyKind::of(self.0.kind)
    }

    /// For how many seconds it may be cached: of `Answer` the least TTL of its records and the aliases; of `NoData` and `NoName` by the
    /// SOA record (RFC 2308 section 5), without which they shouldn't be; of `Alias` the least TTL of the aliases. It is 0 for the kinds
    /// that have no TTL.
    pub fn ttl(&self) -> u32 {
        self.0.ttl
    }

    /// For how many seconds the aliases may be cached, of `NoData`, `NoName` and `Referral`. It is 0 without one.
    pub fn alias_ttl(&self) -> u32 {
        self.0.alias_ttl
    }

    /// The rcode of `Failed`, of twelve bits.
    pub fn rcode(&self) -> Rcode {
        Rcode(self.0.rcode)
    }

    /// The name, of the kinds up to `Dname`.
    pub fn name(&self) -> Option<Name<'_>> {
        name_in(&self.0.name, self.0.name_len)
    }

    /// The owner of the records that say so: the SOA record of `NoData` and `NoName` if there is one, the NS records of `Referral`,
    /// or the DNAME record of `Dname`. `NoData` without it, of another name than the question's, may come of a server that sends the
    /// alias alone: ask for the name.
    pub fn owner(&self) -> Option<Name<'_>> {
        name_in(&self.0.owner, self.0.owner_len)
    }

    /// The target of `Dname`: the name to ask for has its octets in place of the owner's, which are the name's last.
    pub fn target(&self) -> Option<Name<'_>> {
        name_in(&self.0.target, self.0.target_len)
    }
}

/// The name in a buffer; a length of 0 is no name.
fn name_in(octets: &[u8; DNSM_NAME_OCTETS], len: u8) -> Option<Name<'_>> {
    Name::read(&octets[..usize::from(len)], 0).ok()
}

impl fmt::Debug for Reply {
    fn fmt(&self, f: &mut fmt::Formatter<'_>) -> fmt::Result {
        let names = [self.name(), self.owner(), self.target()].map(|name| name.map(|name| name.to_string()));
        f.debug_tuple("Reply").field(&self.kind()).field(&self.ttl()).field(&self.rcode()).field(&names).finish()
    }
}
