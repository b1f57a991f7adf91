//! Sections, flags, and the numbers that IANA registers.
use crate::{out, Error};
use dnsm_sys::*;
use std::fmt;
use std::str::FromStr;

/// A section of a message.
#[derive(Debug, Clone, Copy, PartialEq, Eq, PartialOrd, Ord, Hash)]
#[repr(u8)]
#[allow(missing_docs)]
pub enum Section {
    Question = DNSM_QUESTION,
    Answer = DNSM_ANSWER,
    Authority = DNSM_AUTHORITY,
    Additional = DNSM_ADDITIONAL,
}

impl fmt::Display for Section {
    fn fmt(&self, f: &mut fmt::Formatter<'_>) -> fmt::Result {
        f.pad(match self {
            Self::Question => "question",
            Self::Answer => "answer",
            Self::Authority => "authority",
            Self::Additional => "additional",
        })
    }
}

/// The flag of a response.
pub const QR: u16 = DNSM_QR;
/// The flag of an authoritative answer.
pub const AA: u16 = DNSM_AA;
/// The flag of a message that was truncated.
pub const TC: u16 = DNSM_TC;
/// The flag that asks for recursion.
pub const RD: u16 = DNSM_RD;
/// The flag of a server that offers recursion.
pub const RA: u16 = DNSM_RA;
/// The flag of authentic data.
pub const AD: u16 = DNSM_AD;
/// The flag of disabled checking.
pub const CD: u16 = DNSM_CD;

macro_rules! numbers {
    ($(#[$about:meta])* $type:ident($bits:ident) by $write:ident, $read:ident: $($name:ident = $number:ident,)*) => {
        $(#[$about])*
        #[derive(Debug, Clone, Copy, PartialEq, Eq, PartialOrd, Ord, Hash)]
        pub struct $type(pub $bits);

        /// The numbers that IANA has registered, by their names.
        #[allow(missing_docs)]
        impl $type {
            $(pub const $name: Self = Self($number);)*

            #[cfg(test)]
            const NAMED: &'static [(&'static str, Self)] = &[$((stringify!($name), Self::$name),)*];
        }

        impl fmt::Display for $type {
            fn fmt(&self, f: &mut fmt::Formatter<'_>) -> fmt::Result {
                // SAFETY: the pointers and the length are those of a buffer and a number.
                out::text(f, |out, out_len, len| unsafe { $write(self.0, out.cast(), out_len, len) })
            }
        }

        /// Reads the name that IANA has registered, in any case, or the word and the number that are displayed if there is none.
        impl FromStr for $type {
            type Err = Error;

            fn from_str(text: &str) -> Result<Self, Error> {
                let mut number = 0;
                // SAFETY: the pointer and the length are those of the text, and `number` is a live value.
                Error::check(unsafe { $read(text.as_ptr().cast(), text.len(), &mut number) })?;
                Ok(Self(number))
            }
        }

        impl From<$bits> for $type {
            fn from(number: $bits) -> Self {
                Self(number)
            }
        }
    };
}

numbers! {
    /// A record type.
    Rtype(u16) by dnsm_type_text, dnsm_type_from_text:
    A = DNSM_TYPE_A, NS = DNSM_TYPE_NS, MD = DNSM_TYPE_MD, MF = DNSM_TYPE_MF, CNAME = DNSM_TYPE_CNAME, SOA = DNSM_TYPE_SOA,
    MB = DNSM_TYPE_MB, MG = DNSM_TYPE_MG, MR = DNSM_TYPE_MR, NULL = DNSM_TYPE_NULL, WKS = DNSM_TYPE_WKS, PTR = DNSM_TYPE_PTR,
    HINFO = DNSM_TYPE_HINFO, MINFO = DNSM_TYPE_MINFO, MX = DNSM_TYPE_MX, TXT = DNSM_TYPE_TXT, RP = DNSM_TYPE_RP,
    AFSDB = DNSM_TYPE_AFSDB, X25 = DNSM_TYPE_X25, ISDN = DNSM_TYPE_ISDN, RT = DNSM_TYPE_RT, NSAP = DNSM_TYPE_NSAP,
    NSAP_PTR = DNSM_TYPE_NSAP_PTR, SIG = DNSM_TYPE_SIG, KEY = DNSM_TYPE_KEY, PX = DNSM_TYPE_PX, GPOS = DNSM_TYPE_GPOS,
    AAAA = DNSM_TYPE_AAAA, LOC = DNSM_TYPE_LOC, NXT = DNSM_TYPE_NXT, EID = DNSM_TYPE_EID, NIMLOC = DNSM_TYPE_NIMLOC,
    SRV = DNSM_TYPE_SRV, ATMA = DNSM_TYPE_ATMA, NAPTR = DNSM_TYPE_NAPTR, KX = DNSM_TYPE_KX, CERT = DNSM_TYPE_CERT,
    A6 = DNSM_TYPE_A6, DNAME = DNSM_TYPE_DNAME, SINK = DNSM_TYPE_SINK, OPT = DNSM_TYPE_OPT, APL = DNSM_TYPE_APL,
    DS = DNSM_TYPE_DS, SSHFP = DNSM_TYPE_SSHFP, IPSECKEY = DNSM_TYPE_IPSECKEY, RRSIG = DNSM_TYPE_RRSIG, NSEC = DNSM_TYPE_NSEC,
    DNSKEY = DNSM_TYPE_DNSKEY, DHCID = DNSM_TYPE_DHCID, NSEC3 = DNSM_TYPE_NSEC3, NSEC3PARAM = DNSM_TYPE_NSEC3PARAM,
    TLSA = DNSM_TYPE_TLSA, SMIMEA = DNSM_TYPE_SMIMEA, HIP = DNSM_TYPE_HIP, NINFO = DNSM_TYPE_NINFO, RKEY = DNSM_TYPE_RKEY,
    TALINK = DNSM_TYPE_TALINK, CDS = DNSM_TYPE_CDS, CDNSKEY = DNSM_TYPE_CDNSKEY, OPENPGPKEY = DNSM_TYPE_OPENPGPKEY,
    CSYNC = DNSM_TYPE_CSYNC, ZONEMD = DNSM_TYPE_ZONEMD, SVCB = DNSM_TYPE_SVCB, HTTPS = DNSM_TYPE_HTTPS,
    DSYNC = DNSM_TYPE_DSYNC, HHIT = DNSM_TYPE_HHIT, BRID = DNSM_TYPE_BRID, SPF = DNSM_TYPE_SPF, UINFO = DNSM_TYPE_UINFO,
    UID = DNSM_TYPE_UID, GID = DNSM_TYPE_GID, UNSPEC = DNSM_TYPE_UNSPEC, NID = DNSM_TYPE_NID, L32 = DNSM_TYPE_L32,
    L64 = DNSM_TYPE_L64, LP = DNSM_TYPE_LP, EUI48 = DNSM_TYPE_EUI48, EUI64 = DNSM_TYPE_EUI64, NXNAME = DNSM_TYPE_NXNAME,
    TKEY = DNSM_TYPE_TKEY, TSIG = DNSM_TYPE_TSIG, IXFR = DNSM_TYPE_IXFR, AXFR = DNSM_TYPE_AXFR, MAILB = DNSM_TYPE_MAILB,
    MAILA = DNSM_TYPE_MAILA, ANY = DNSM_TYPE_ANY, URI = DNSM_TYPE_URI, CAA = DNSM_TYPE_CAA, AVC = DNSM_TYPE_AVC,
    DOA = DNSM_TYPE_DOA, AMTRELAY = DNSM_TYPE_AMTRELAY, RESINFO = DNSM_TYPE_RESINFO, WALLET = DNSM_TYPE_WALLET,
    CLA = DNSM_TYPE_CLA, IPN = DNSM_TYPE_IPN, TA = DNSM_TYPE_TA, DLV = DNSM_TYPE_DLV,
}

numbers! {
    /// A class.
    Class(u16) by dnsm_class_text, dnsm_class_from_text:
    IN = DNSM_CLASS_IN, CH = DNSM_CLASS_CH, HS = DNSM_CLASS_HS, NONE = DNSM_CLASS_NONE, ANY = DNSM_CLASS_ANY,
}

numbers! {
    /// An opcode.
    Opcode(u8) by dnsm_opcode_text, dnsm_opcode_from_text:
    QUERY = DNSM_OPCODE_QUERY, IQUERY = DNSM_OPCODE_IQUERY, STATUS = DNSM_OPCODE_STATUS, NOTIFY = DNSM_OPCODE_NOTIFY,
    UPDATE = DNSM_OPCODE_UPDATE, DSO = DNSM_OPCODE_DSO,
}

numbers! {
    /// An rcode of up to twelve bits, as of [`Message::find_opt`](crate::Message::find_opt).
    Rcode(u16) by dnsm_rcode_text, dnsm_rcode_from_text:
    NOERROR = DNSM_RCODE_NOERROR, FORMERR = DNSM_RCODE_FORMERR, SERVFAIL = DNSM_RCODE_SERVFAIL,
    NXDOMAIN = DNSM_RCODE_NXDOMAIN, NOTIMP = DNSM_RCODE_NOTIMP, REFUSED = DNSM_RCODE_REFUSED, YXDOMAIN = DNSM_RCODE_YXDOMAIN,
    YXRRSET = DNSM_RCODE_YXRRSET, NXRRSET = DNSM_RCODE_NXRRSET, NOTAUTH = DNSM_RCODE_NOTAUTH, NOTZONE = DNSM_RCODE_NOTZONE,
    DSOTYPENI = DNSM_RCODE_DSOTYPENI, BADVERS = DNSM_RCODE_BADVERS, BADKEY = DNSM_RCODE_BADKEY, BADTIME = DNSM_RCODE_BADTIME,
    BADMODE = DNSM_RCODE_BADMODE, BADNAME = DNSM_RCODE_BADNAME, BADALG = DNSM_RCODE_BADALG, BADTRUNC = DNSM_RCODE_BADTRUNC,
    BADCOOKIE = DNSM_RCODE_BADCOOKIE,
}

numbers! {
    /// The code of an option.
    OptionCode(u16) by dnsm_option_text, dnsm_option_from_text:
    LLQ = DNSM_OPTION_LLQ, UPDATE_LEASE = DNSM_OPTION_UPDATE_LEASE, NSID = DNSM_OPTION_NSID, DAU = DNSM_OPTION_DAU,
    DHU = DNSM_OPTION_DHU, N3U = DNSM_OPTION_N3U, EDNS_CLIENT_SUBNET = DNSM_OPTION_EDNS_CLIENT_SUBNET,
    EDNS_EXPIRE = DNSM_OPTION_EDNS_EXPIRE, COOKIE = DNSM_OPTION_COOKIE, EDNS_TCP_KEEPALIVE = DNSM_OPTION_EDNS_TCP_KEEPALIVE,
    PADDING = DNSM_OPTION_PADDING, CHAIN = DNSM_OPTION_CHAIN, EDNS_KEY_TAG = DNSM_OPTION_EDNS_KEY_TAG,
    EXTENDED_DNS_ERROR = DNSM_OPTION_EXTENDED_DNS_ERROR, EDNS_CLIENT_TAG = DNSM_OPTION_EDNS_CLIENT_TAG,
    EDNS_SERVER_TAG = DNSM_OPTION_EDNS_SERVER_TAG, REPORT_CHANNEL = DNSM_OPTION_REPORT_CHANNEL,
    ZONEVERSION = DNSM_OPTION_ZONEVERSION, UMBRELLA_IDENT = DNSM_OPTION_UMBRELLA_IDENT, DEVICEID = DNSM_OPTION_DEVICEID,
}

numbers! {
    /// The code of an extended error (RFC 8914).
    ExtendedErrorCode(u16) by dnsm_extended_error_text, dnsm_extended_error_from_text:
    OTHER_ERROR = DNSM_EDE_OTHER_ERROR, UNSUPPORTED_DNSKEY_ALGORITHM = DNSM_EDE_UNSUPPORTED_DNSKEY_ALGORITHM,
    UNSUPPORTED_DS_DIGEST_TYPE = DNSM_EDE_UNSUPPORTED_DS_DIGEST_TYPE, STALE_ANSWER = DNSM_EDE_STALE_ANSWER,
    FORGED_ANSWER = DNSM_EDE_FORGED_ANSWER, DNSSEC_INDETERMINATE = DNSM_EDE_DNSSEC_INDETERMINATE,
    DNSSEC_BOGUS = DNSM_EDE_DNSSEC_BOGUS, SIGNATURE_EXPIRED = DNSM_EDE_SIGNATURE_EXPIRED,
    SIGNATURE_NOT_YET_VALID = DNSM_EDE_SIGNATURE_NOT_YET_VALID, DNSKEY_MISSING = DNSM_EDE_DNSKEY_MISSING,
    RRSIGS_MISSING = DNSM_EDE_RRSIGS_MISSING, NO_ZONE_KEY_BIT_SET = DNSM_EDE_NO_ZONE_KEY_BIT_SET,
    NSEC_MISSING = DNSM_EDE_NSEC_MISSING, CACHED_ERROR = DNSM_EDE_CACHED_ERROR, NOT_READY = DNSM_EDE_NOT_READY,
    BLOCKED = DNSM_EDE_BLOCKED, CENSORED = DNSM_EDE_CENSORED, FILTERED = DNSM_EDE_FILTERED, PROHIBITED = DNSM_EDE_PROHIBITED,
    STALE_NXDOMAIN_ANSWER = DNSM_EDE_STALE_NXDOMAIN_ANSWER, NOT_AUTHORITATIVE = DNSM_EDE_NOT_AUTHORITATIVE,
    NOT_SUPPORTED = DNSM_EDE_NOT_SUPPORTED, NO_REACHABLE_AUTHORITY = DNSM_EDE_NO_REACHABLE_AUTHORITY,
    NETWORK_ERROR = DNSM_EDE_NETWORK_ERROR, INVALID_DATA = DNSM_EDE_INVALID_DATA,
    SIGNATURE_EXPIRED_BEFORE_VALID = DNSM_EDE_SIGNATURE_EXPIRED_BEFORE_VALID, TOO_EARLY = DNSM_EDE_TOO_EARLY,
    UNSUPPORTED_NSEC3_ITERATIONS_VALUE = DNSM_EDE_UNSUPPORTED_NSEC3_ITERATIONS_VALUE,
    UNABLE_TO_CONFORM_TO_POLICY = DNSM_EDE_UNABLE_TO_CONFORM_TO_POLICY, SYNTHESIZED = DNSM_EDE_SYNTHESIZED,
    INVALID_QUERY_TYPE = DNSM_EDE_INVALID_QUERY_TYPE,
}

/// The version of the library: major, minor and patch.
pub fn library_version() -> (u32, u32, u32) {
    // SAFETY: the call takes nothing.
    let version = unsafe { dnsm_version() };
    (version / 10000, version / 100 % 100, version % 100)
}

#[cfg(test)]
mod tests {
    use super::*;

    /// The name of a constant for a registered name, in which only letters and digits stay.
    fn constant(text: &str) -> String {
        text.chars().map(|it| if it.is_ascii_alphanumeric() { it.to_ascii_uppercase() } else { '_' }).collect()
    }

    #[test]
    fn constants_have_their_registered_names() {
        fn check<T: fmt::Display>(named: &[(&str, T)]) {
            assert!(named.iter().all(|(name, number)| constant(&number.to_string()) == *name));
        }
        check(Rtype::NAMED);
        check(Class::NAMED);
        check(Opcode::NAMED);
        check(Rcode::NAMED);
        check(OptionCode::NAMED);
        check(ExtendedErrorCode::NAMED);
    }
}
