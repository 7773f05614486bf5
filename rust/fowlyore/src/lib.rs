//! Python's versions and specifiers (PEP 440), requirements and markers (PEP 508), and lists of requirements,
//! by a C library whose answers are proved.
//!
//! Texts are passed to the library as they are, and it keeps none of them. When memory runs out the process
//! ends, as with Rust's own collections. This crate itself is not proved: it calls the library and splits its
//! replies.
//!
//! A value means what was written. A marker is evaluated, compared and joined by its given text, and a
//! requirement's marker is what is written in the requirement. Printing makes normal texts, and each print is
//! read again as an equal value:
//!
//! ```
//! use fowlyore::Requirement;
//!
//! let line: Requirement = "Foo >= 1 ; python_version > '3.7' and os_name != \"it's\"".parse()?;
//! assert_eq!(line.to_string(), "foo>=1 ; python_version > '3.7' and os_name != \"it's\"");
//! assert_eq!(line.to_string().parse::<Requirement>()?, line);
//! # Ok::<(), fowlyore::Refused>(())
//! ```
//!
//! Calls share nothing, and neither they nor values have a lock. So values can be moved to other threads and
//! used by several at once. Calls can also be made in the child of a `fork`, even of a process with threads,
//! with glibc's `fork` and its own `malloc`.
//!
//! ```
//! fn is_shared<Value: Send + Sync + 'static>() {}
//!
//! is_shared::<fowlyore::Version>();
//! is_shared::<fowlyore::VersionSpecifiers>();
//! is_shared::<fowlyore::Requirement>();
//! is_shared::<fowlyore::MarkerTree>();
//! is_shared::<(fowlyore::Refused, fowlyore::Row, fowlyore::Conflict, fowlyore::Same, fowlyore::Covers)>();
//! ```
#![warn(missing_docs)]

#[cfg(reqs_absent)]
mod absent;
mod answers;
mod assuming;
mod bounds;
mod elements;
mod grammar;
mod kept;
mod lists;
mod marker;
mod native;
mod refused;
mod requirement;
mod specifiers;
mod version;

pub use answers::{Conflict, Covers, Outcome, Row, Same};
pub use assuming::Assuming;
pub use bounds::{Bounded, Bounds};
pub use lists::{
    check, check_json, check_text, conflicts, conflicts_json, conflicts_text, covers, covers_json,
    matrix, matrix_json, matrix_text, normal, normal_json, same, same_json, LIMIT,
};
pub use marker::MarkerTree;
pub use refused::Refused;
pub use requirement::Requirement;
pub use specifiers::VersionSpecifiers;
pub use version::Version;

/// The version number of the linked library's interface, which is 4.
///
/// ```
/// assert_eq!(fowlyore::abi(), 4);
/// assert!(fowlyore::is_known());
/// ```
#[must_use]
pub fn abi() -> u32 {
    native::abi()
}

/// Whether the linked library has the interface that this crate is written for. The replies of another
/// library may be misread.
#[must_use]
pub fn is_known() -> bool {
    native::is_known()
}
