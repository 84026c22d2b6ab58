//! What a compiler's command line asks for, and the command to run in its place.
//!
//! ```
//! let answer = scl::Request::new("gcc").words(["-c", "a.c"]).ask()?;
//! assert!(answer.is_cacheable());
//! let command: Vec<_> = answer.command().collect();
//! assert_eq!(command[..3], [&b"-x"[..], b"c", b"-c"]);
//! # Ok::<(), scl::Error>(())
//! ```
//!
//! Words, paths and names are bytes. An [`Answer`] owns its text and is dropped as any value; its words are read from that text as
//! they are asked for. The answers are those of the library; nothing is proved of this crate, which writes requests and reads rows
//! (docs/PROTOCOL.md).

mod answer;
mod catalogue;
mod maker;
mod name;
mod request;

pub use answer::{Answer, KeyRow, Outcome, Output, Row};
pub use catalogue::Catalogue;
pub use maker::{made_by, Maker};
pub use name::{name, Name};
pub use request::{line, rows, Error, Request};
