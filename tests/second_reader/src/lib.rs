//! A second reader of OCSP responses, written from document 01 ("The build,
//! stated with its exact rules"), document 02 ("Follow-up change requests") and
//! the settled readings of both, and from nothing else.  It is evidence from
//! outside for the verified reader, so it goes another way wherever it can: it
//! first builds the whole tree of the octets, then judges that tree, and makes
//! owned values throughout.
//!
//! The order of the modules is the order of the work:
//! octets (`element`, `oid`, `serial`, `time`), what they mean (`reading`,
//! `layout`, `parts`) and what does not fit (`misfit`), what is asked
//! (`question`), what is answered (`check`, `shown`), what is written (`piece`,
//! `write`, `request`, `slip`), what is kept (`cache`, `filing`), the program
//! (`desk`), and the cases that are run against others (`cases`).

pub mod cache;
pub mod cases;
pub mod check;
pub mod desk;
pub mod element;
pub mod filing;
pub mod hex;
pub mod layout;
pub mod limits;
pub mod misfit;
pub mod oid;
pub mod parts;
pub mod piece;
pub mod question;
pub mod reading;
pub mod request;
pub mod serial;
pub mod shown;
pub mod slip;
pub mod time;
pub mod words;
pub mod write;

/// 01: "response longer than 16,384 octets" is refused.
pub const LONGEST_RESPONSE: usize = 16_384;
