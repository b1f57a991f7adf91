//! Reads and writes DNS messages, by proved code.
//!
//! ```
//! use dnsm::{query, Class, Message, Rtype};
//!
//! let octets = query(4660, true, "www.example.com", Rtype::A, Class::IN)?;
//! let message = Message::new(&octets)?;
//! let items = message.items().collect::<Result<Vec<_>, _>>()?;
//! assert_eq!(items[0].to_string(), "www.example.com. IN A");
//! # Ok::<(), dnsm::Error>(())
//! ```
//!
//! The text of a name is its labels, separated by dots, with a dot at the end that may be left out when it is read. In a label,
//! `\.`, `\\` and `\032` are a dot, a backslash and a space. Names in other scripts have to be in ASCII already (IDNA).
#![warn(missing_docs)]

mod builder;
mod error;
mod item;
mod message;
mod number;
mod opt;
mod out;
mod reply;
mod transfer;
mod write;

/// The programs of the page.
#[cfg(doctest)]
#[doc = include_str!("../README.md")]
struct Page;

pub use builder::{Builder, Mark, ResponseOpt};
pub use error::Error;
pub use item::{NewItem, NewName, NewOpt};
pub use message::{age_ttls, DataText, Field, Fields, Header, Item, Items, Message, Name};
pub use number::{library_version, Class, ExtendedErrorCode, Opcode, OptionCode, Rcode, Rtype, Section};
pub use number::{AA, AD, CD, QR, RA, RD, TC};
pub use opt::{EdnsOption, Opt, Options};
pub use reply::{Reply, ReplyKind};
pub use transfer::{first_message, missing_octets, Split, Step, Steps, Transfer};
pub use write::{build, data_from_text, name_from_text, query, query_opt, record_from_text, respond_a, TextRecord};
