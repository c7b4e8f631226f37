//! Regular expressions by the names of fancy-regex, over a backtracking engine whose answers are proved.
//!
//! Look-around, back references, atomic groups, conditionals, absent repeaters and subroutine calls are there; the syntax is
//! that of fancy-regex 0.20. A program that says `use fancy_regex::Regex` builds with `use fancy::Regex`.
//!
//! ```
//! # fn main() -> fancy::Result<()> {
//! use fancy::Regex;
//!
//! let price = Regex::new(r"(?<=\$)(?<number>[0-9]+)")?;
//! let captures = price.captures("cost $42")?.unwrap();
//! assert_eq!(&captures["number"], "42");
//! assert_eq!(price.replace_all("cost $42", "<$number>"), "cost $<42>");
//! # Ok(())
//! # }
//! ```
//!
//! # What differs from fancy-regex
//!
//! - [`Error`] has the variant `Memory`, and [`Error::offset`]. `Error::CompileError` holds a [`Refusal`], by `*` its
//!   [`CompileError`]. The kinds of errors carry no text, but for those that say so.
//! - `ParseError::UnopenedCloseParen`, in `CompileError` `NestLimitExceeded` and `AnalysisLimitExceeded`, and in
//!   `RuntimeError` `StepLimitExceeded`, `VisitLimitExceeded` and `MemoryLimitExceeded` are new.
//! - [`Options`] and [`Regex::of_tree`] are new, for trees and for the options of `fancy.h`.
//! - [`Scanner`] is new: many patterns that are searched for together.
//! - [`ByteText`] is new: bytes that need not be UTF-8, read as a text. [`RegexInput`] and [`BytesMode`] are there over it: a
//!   haystack is a slice of bytes, and a mode says how it is read. Under `BytesMode::Ascii` a character of the pattern is one
//!   byte.
//! - A search from a byte that is no character boundary panics.
//! - Of several groups with one name, [`Captures::name`] returns the first that is set.

#![deny(missing_docs)]

mod bytes;
mod captures;
mod error;
mod expand;
mod matches;
mod options;
mod program;
mod regex;
mod replacer;
mod scanner;
mod splits;

pub use crate::bytes::{ByteCaptures, ByteMatch, ByteText, BytesMode, RegexInput};
pub use crate::captures::{Captures, Match, SubCaptureMatches};
pub use crate::error::{
    CompileError, Error, ParseError, ParseErrorPosition, Refusal, Result, RuntimeError,
};
pub use crate::expand::Expander;
pub use crate::matches::{CaptureMatches, Matches};
pub use crate::options::{Options, RegexBuilder};
pub use crate::regex::{CaptureNames, Regex};
pub use crate::replacer::{NoExpand, Replacer, ReplacerRef};
pub use crate::scanner::{Scan, ScanMatch, Scanner, Stopped};
pub use crate::splits::{Split, SplitN};

use std::borrow::Cow;

/// The pattern that matches a text as it is, under all flags: a backslash is before each character with a meaning of its own,
/// and before blanks.
///
/// ```
/// assert_eq!(fancy::escape("1+1"), r"1\+1");
/// ```
pub fn escape(text: &str) -> Cow<'_, str> {
    if !text.contains(is_special) {
        return Cow::Borrowed(text);
    }
    let mut pattern = String::with_capacity(text.len() + 8);
    for c in text.chars() {
        if is_special(c) {
            pattern.push('\\');
        }
        pattern.push(c);
    }
    Cow::Owned(pattern)
}

/// Whether a character has a meaning of its own in a pattern, or under `x`.
fn is_special(c: char) -> bool {
    matches!(
        c,
        '\\' | '.'
            | '+'
            | '*'
            | '?'
            | '('
            | ')'
            | '|'
            | '['
            | ']'
            | '{'
            | '}'
            | '^'
            | '$'
            | '#'
            | ' '
            | '\t'
            | '\n'
            | '\r'
    )
}

/// The version of the library that is linked, as `0.4.0`.
pub fn version() -> String {
    // Safety: the room has the length that is said.
    program::written(|version, room| unsafe { fancy_sys::fancy_version(version, room) })
}
