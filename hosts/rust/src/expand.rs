//! Templates: what they write for a match.

use crate::captures::Captures;
use crate::error::{CompileError, Error, ParseError, Result};
use crate::regex::Regex;
use std::borrow::Cow;
use std::io;

/// How a template refers to groups.
///
/// ```
/// # fn main() -> fancy::Result<()> {
/// use fancy::{Expander, Regex};
///
/// let regex = Regex::new(r"(?<year>\d{4})-(?<month>\d\d)")?;
/// let captures = regex.captures("2026-11")?.unwrap();
/// assert_eq!(Expander::default().expansion("$month/${year}", &captures), "11/2026");
/// assert_eq!(Expander::python().expansion(r"\2/\g<year>", &captures), "11/2026");
/// # Ok(())
/// # }
/// ```
#[derive(Clone, Debug)]
pub struct Expander {
    mark: char,
    open: &'static str,
    close: &'static str,
    has_bare_names: bool,
}

/// A part of a template.
enum Part<'t> {
    Text(&'t str),
    Name(&'t str),
    Number(usize),
    /// A mark that begins no reference, and is written as it is.
    Stray(&'t str),
}

impl Default for Expander {
    /// `$1`, `${1}`, `$name` and `${name}`; `$$` writes a dollar. It is that of [`Captures::expand`].
    fn default() -> Expander {
        Expander {
            mark: '$',
            open: "{",
            close: "}",
            has_bare_names: true,
        }
    }
}

impl Expander {
    /// `\1`, `\g<1>` and `\g<name>`, as in Python; `\\` writes a backslash.
    pub fn python() -> Expander {
        Expander {
            mark: '\\',
            open: "g<",
            close: ">",
            has_bare_names: false,
        }
    }

    /// Checks that a template writes what its author may have meant, for matches of a regex.
    ///
    /// A mark that begins no reference is an [`Error::ParseError`] at its byte. An [`Error::CompileError`] says that
    /// there is no such group, or that a number was used of a regex whose groups have names.
    pub fn check(&self, template: &str, regex: &Regex) -> Result<()> {
        let mut at = 0;
        self.parts(template).try_for_each(|(part, length)| {
            let start = at;
            at += length;
            match part {
                Part::Text(_) => Ok(()),
                Part::Name(name) if regex.has_group_named(name) => Ok(()),
                Part::Name(name) => match name.parse() {
                    Ok(number) => check_number(number, regex),
                    Err(_) => Err(CompileError::InvalidGroupNameBackref(name.to_string()).into()),
                },
                Part::Number(number) => check_number(number, regex),
                Part::Stray(_) => Err(Error::ParseError(start, ParseError::GeneralParseError)),
            }
        })
    }

    /// The template that writes a text as it is.
    ///
    /// ```
    /// assert_eq!(fancy::Expander::default().escape("5 $"), "5 $$");
    /// ```
    pub fn escape<'a>(&self, text: &'a str) -> Cow<'a, str> {
        if text.contains(self.mark) {
            let doubled: String = [self.mark, self.mark].iter().collect();
            Cow::Owned(text.replace(self.mark, &doubled))
        } else {
            Cow::Borrowed(text)
        }
    }

    /// What a template writes for a match. A group that is not set, or not there, writes nothing.
    pub fn expansion(&self, template: &str, captures: &Captures<'_>) -> String {
        let mut expansion = String::with_capacity(template.len());
        self.append_expansion(&mut expansion, template, captures);
        expansion
    }

    /// Appends what a template writes for a match.
    pub fn append_expansion(&self, dst: &mut String, template: &str, captures: &Captures<'_>) {
        for (part, _) in self.parts(template) {
            dst.push_str(text_of(&part, captures));
        }
    }

    /// Writes what a template writes for a match. An error is that of the writer.
    pub fn write_expansion(
        &self,
        mut dst: impl io::Write,
        template: &str,
        captures: &Captures<'_>,
    ) -> io::Result<()> {
        self.parts(template)
            .try_for_each(|(part, _)| dst.write_all(text_of(&part, captures).as_bytes()))
    }

    /// The parts of a template, each with its length in bytes.
    fn parts<'t>(&self, template: &'t str) -> impl Iterator<Item = (Part<'t>, usize)> {
        let expander = self.clone();
        let mut rest = template;
        std::iter::from_fn(move || {
            let (part, length) = expander.first_part(rest)?;
            rest = &rest[length..];
            Some((part, length))
        })
    }

    /// The first part of what is left of a template, and its length in bytes.
    fn first_part<'t>(&self, rest: &'t str) -> Option<(Part<'t>, usize)> {
        let Some(after) = rest.strip_prefix(self.mark) else {
            let length = rest.find(self.mark).unwrap_or(rest.len());
            return (length > 0).then(|| (Part::Text(&rest[..length]), length));
        };
        let mark = self.mark.len_utf8();
        if after.starts_with(self.mark) {
            return Some((Part::Text(&rest[..mark]), 2 * mark));
        }
        let (part, length) = self
            .name(after)
            .or_else(|| number(after))
            .unwrap_or((Part::Stray(&rest[..mark]), 0));
        Some((part, mark + length))
    }

    /// The name at the front of a text, between the brackets or, where that is allowed, without them.
    fn name<'t>(&self, text: &'t str) -> Option<(Part<'t>, usize)> {
        let in_brackets = text.strip_prefix(self.open).and_then(|inner| {
            let length = name_length(inner);
            let is_closed = length > 0 && inner[length..].starts_with(self.close);
            is_closed.then(|| {
                (
                    Part::Name(&inner[..length]),
                    self.open.len() + length + self.close.len(),
                )
            })
        });
        in_brackets.or_else(|| {
            let length = name_length(text);
            (self.has_bare_names && length > 0).then(|| (Part::Name(&text[..length]), length))
        })
    }
}

/// The text that a part of a template writes.
fn text_of<'c>(part: &Part<'c>, captures: &'c Captures<'_>) -> &'c str {
    let group = match *part {
        Part::Text(text) | Part::Stray(text) => return text,
        Part::Number(number) => captures.get(number),
        Part::Name(name) => captures
            .name(name)
            .or_else(|| name.parse().ok().and_then(|number| captures.get(number))),
    };
    group.map_or("", |group| group.as_str())
}

fn name_length(text: &str) -> usize {
    text.find(|c: char| !c.is_alphanumeric() && c != '_')
        .unwrap_or(text.len())
}

/// The number at the front of a text, as far as its digits go.
fn number(text: &str) -> Option<(Part<'_>, usize)> {
    let length = text
        .find(|c: char| !c.is_ascii_digit())
        .unwrap_or(text.len());
    let number = text[..length].parse().ok()?;
    Some((Part::Number(number), length))
}

fn check_number(number: usize, regex: &Regex) -> Result<()> {
    if number == 0 {
        Ok(())
    } else if regex.has_names() {
        Err(CompileError::NamedBackrefOnly.into())
    } else if number < regex.captures_len() {
        Ok(())
    } else {
        Err(CompileError::InvalidBackref(number).into())
    }
}
