//! Reads Gregorian chant scores in GABC, with unheighted neumes in NABC, by a proved compiler.
//!
//! [`compile`] takes a score in memory, [`messages`] returns only its messages, [`tree`] all that was read with its places, [`draw`] a picture of it, and a
//! [`Run`] takes a score in pieces. The crate links the C library `libgregorio.a`, which `tools/build_c` of the project makes; the environment variable `GREGORIO_LIBRARY` names its
//! folder at build time. The answers of the library are proved; this crate is tested.
//!
//! ```
//! use gregorio_chant::{compile, Job, Status};
//!
//! let made = compile("name: Kyrie;\n%%\n(c4) Ky(f)ri(/./)", &Job::default())?;
//! assert_eq!(made.output, "name: Kyrie;\n%%\n(c4)\nKy(f)ri(//)\n");
//! assert_eq!(made.messages, "<stdin>:3:15: error: E1: character left out of the notes\n");
//! assert_eq!(made.status, Status::Errors);
//! # Ok::<(), gregorio_chant::Error>(())
//! ```
#![deny(missing_docs)]
#![deny(unsafe_code)]

mod compiled;
mod draw;
mod error;
mod job;
mod kind;
#[allow(unsafe_code)]
mod library;
mod message;
mod run;
mod texts;
mod tree;

pub use compiled::{compile, Compiled};
pub use draw::{draw, PictureOptions, ShownMessages};
pub use error::{Error, Status};
pub use job::{Format, Job, Limits, Warnings};
pub use kind::Kind;
pub use message::{messages, Code, Message, Messages, NoCode, Severity};
pub use run::{Run, Step};
pub use tree::{tree, Node, Tree};

/// Returns the version of the linked library. It is that of this crate if both come from one build.
#[must_use]
pub fn version() -> &'static str {
    library::version().to_str().unwrap_or_default()
}
