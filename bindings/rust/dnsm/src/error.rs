//! Why a call has no result.
use crate::out;
use dnsm_sys::*;
use std::fmt;

macro_rules! errors {
    ($($(#[$about:meta])* $name:ident = $status:ident,)*) => {
        /// Why a call has no result.
        #[derive(Debug, Clone, Copy, PartialEq, Eq, Hash)]
        #[non_exhaustive]
        pub enum Error {
            $($(#[$about])* $name,)*
            /// A status that this version of the crate doesn't know.
            Other(u32),
        }

        impl Error {
            pub(crate) fn from_status(status: dnsm_status) -> Self {
                match status {
                    $($status => Self::$name,)*
                    other => Self::Other(other),
                }
            }

            pub(crate) fn check(status: dnsm_status) -> Result<(), Self> {
                match status {
                    DNSM_OK => Ok(()),
                    status => Err(Self::from_status(status)),
                }
            }

            /// The number in `dnsm.h`.
            pub fn status(self) -> u32 {
                match self {
                    $(Self::$name => $status,)*
                    Self::Other(status) => status,
                }
            }
        }
    };
}

errors! {
    /// An octet that is needed is past the end of the message.
    ShortInput = DNSM_SHORT_INPUT,
    /// A length octet has the high bits 01 or 10.
    BadLabel = DNSM_BAD_LABEL,
    /// A compression pointer doesn't lead to an offset before its own.
    BadPointer = DNSM_BAD_POINTER,
    /// A name has more than 255 octets.
    LongName = DNSM_LONG_NAME,
    /// Octets follow the RDATA of an SOA record, in a transfer.
    Form = DNSM_FORM,
    /// The buffer or the limit of a builder leaves too few octets.
    NoRoom = DNSM_NO_ROOM,
    /// A text represents nothing, or octets are no valid name.
    BadText = DNSM_BAD_TEXT,
    /// The query doesn't have exactly one question.
    NoQuestion = DNSM_NO_QUESTION,
    /// An item comes before the section of the last one.
    BadSection = DNSM_BAD_SECTION,
    /// An allocation failed.
    NoMemory = DNSM_NO_MEMORY,
    /// RDATA or an option of more than 65,535 octets.
    LongData = DNSM_LONG_DATA,
    /// More than 65,535 items for a section.
    TooMany = DNSM_TOO_MANY,
    /// The octets are a response, which gets no response.
    IsResponse = DNSM_IS_RESPONSE,
    /// The opcode isn't QUERY.
    OtherOpcode = DNSM_OTHER_OPCODE,
    /// The class of the question isn't IN.
    OtherClass = DNSM_OTHER_CLASS,
    /// The type of the question is neither A nor ANY.
    OtherType = DNSM_OTHER_TYPE,
    /// The item is no OPT record.
    NotOpt = DNSM_NOT_OPT,
    /// An option isn't whole within the RDATA.
    BadOption = DNSM_BAD_OPTION,
    /// The RDATA has no such name.
    NoName = DNSM_NO_NAME,
    /// The octets are no RDATA of the record type.
    BadData = DNSM_BAD_DATA,
    /// The additional section has no OPT record.
    NoOpt = DNSM_NO_OPT,
    /// The additional section has two OPT records.
    TwoOpts = DNSM_TWO_OPTS,
    /// The owner of the OPT record isn't the root.
    BadOwner = DNSM_BAD_OWNER,
    /// QR isn't set, so this is no response.
    NoResponse = DNSM_NO_RESPONSE,
    /// The ID, the opcode or the questions of a response aren't those of the query.
    OtherQuery = DNSM_OTHER_QUERY,
    /// The rcode isn't NOERROR.
    BadRcode = DNSM_BAD_RCODE,
    /// TC is set.
    Truncated = DNSM_TRUNCATED,
    /// A record has another class than the zone.
    WrongClass = DNSM_WRONG_CLASS,
    /// The owner of a record is outside of the zone.
    OutsideZone = DNSM_OUTSIDE_ZONE,
    /// The first record of a transfer is no SOA record.
    NoSoa = DNSM_NO_SOA,
    /// An SOA record isn't the one that may come next in a transfer.
    WrongSoa = DNSM_WRONG_SOA,
    /// A record or a message follows the end of a transfer.
    AfterEnd = DNSM_AFTER_END,
    /// A transfer hasn't ended.
    Incomplete = DNSM_INCOMPLETE,
}

impl fmt::Display for Error {
    fn fmt(&self, f: &mut fmt::Formatter<'_>) -> fmt::Result {
        // SAFETY: the pointers and the length are those of a buffer and a number.
        out::text(f, |out, out_len, len| unsafe { dnsm_status_text(self.status(), out.cast(), out_len, len) })
    }
}

impl std::error::Error for Error {}

#[cfg(test)]
mod tests {
    use super::Error;

    /// 0 is success, and 1 the end.
    #[test]
    fn each_status_has_its_error() {
        for status in 2..=34 {
            let error = Error::from_status(status);
            assert_eq!(error.status(), status);
            assert!(!matches!(error, Error::Other(_)), "{status}");
        }
        for status in [35, 99, u32::MAX] {
            assert_eq!(Error::from_status(status), Error::Other(status));
        }
        assert_eq!((Error::check(0), Error::check(11)), (Ok(()), Err(Error::NoMemory)));
        assert_eq!(Error::check(99), Err(Error::Other(99)));
    }
}
