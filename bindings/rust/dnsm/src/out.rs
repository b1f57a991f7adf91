//! Results that a call writes into a buffer.
use crate::Error;
use dnsm_sys::*;
use std::fmt;

/// Enough for nearly every text, and few octets to fill with zeros.
const TEXT_CAPACITY: usize = 512;

/// The octets that a call writes into a buffer. If it needs more, the call is made again with the capacity that it asks for.
pub fn octets(capacity: usize, write: impl Fn(*mut u8, usize, &mut usize) -> dnsm_status) -> Result<Vec<u8>, Error> {
    let mut out = vec![0; capacity];
    loop {
        let mut len = 0;
        match write(out.as_mut_ptr(), out.len(), &mut len) {
            DNSM_OK => {
                out.truncate(len);
                return Ok(out);
            }
            // A text needs one octet more than its length.
            DNSM_NO_ROOM => out.resize(len + 1, 0),
            status => return Err(Error::from_status(status)),
        }
    }
}

/// Formats the text that a call writes. Texts are ASCII.
pub fn text(f: &mut fmt::Formatter<'_>, write: impl Fn(*mut u8, usize, &mut usize) -> dnsm_status) -> fmt::Result {
    let (mut out, mut len) = ([0; TEXT_CAPACITY], 0);
    let text = match write(out.as_mut_ptr(), out.len(), &mut len) {
        DNSM_OK => std::str::from_utf8(&out[..len]).map_err(|_| fmt::Error)?,
        DNSM_NO_ROOM => {
            let long = octets(len + 1, write).map_err(|_| fmt::Error)?;
            return f.pad(std::str::from_utf8(&long).map_err(|_| fmt::Error)?);
        }
        _ => return Err(fmt::Error),
    };
    f.pad(text)
}
