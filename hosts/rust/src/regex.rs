//! Patterns that were compiled.

use crate::bytes::{over_ascii, BytesMode};
use crate::captures::{Captures, Match};
use crate::error::{Error, Result};
use crate::matches::{CaptureMatches, Form, Matches};
use crate::options::Options;
use crate::program::{Pool, Program, Source};
use crate::replacer::Replacer;
use crate::splits::{Split, SplitN};
use fancy_sys as sys;
use std::borrow::Cow;
use std::collections::HashMap;
use std::fmt;
use std::str::FromStr;
use std::sync::Arc;

/// A pattern that was compiled.
///
/// Threads may share it: each search takes a program of its own from a pool, and a copy if all are in use. Copies share
/// what was compiled. A clone shares the pool.
///
/// ```
/// # fn main() -> fancy::Result<()> {
/// use fancy::Regex;
///
/// let repeated = Regex::new(r"\b(\w+) \1\b")?;
/// assert_eq!(repeated.find("it was was so")?.unwrap().range(), 3..10);
/// # Ok(())
/// # }
/// ```
#[derive(Clone)]
pub struct Regex {
    shared: Arc<Shared>,
}

struct Shared {
    /// The pattern as it was given, if another text is compiled.
    given: Option<String>,
    names: Arc<Names>,
    pool: Pool,
}

/// The groups of a pattern.
pub(crate) struct Names {
    /// The name of each group, by its number.
    of_groups: Vec<Option<String>>,
    /// The groups of each name, in the order in which they open.
    numbers: HashMap<String, Vec<usize>>,
}

impl Names {
    fn of(program: &mut Program) -> Names {
        let of_groups: Vec<_> = (0..program.group_count())
            .map(|group| program.group_name(group))
            .collect();
        let mut numbers = HashMap::<String, Vec<usize>>::new();
        for (group, name) in of_groups.iter().enumerate() {
            if let Some(name) = name {
                numbers.entry(name.clone()).or_default().push(group);
            }
        }
        Names { of_groups, numbers }
    }

    /// How many groups there are, with group 0.
    pub(crate) fn len(&self) -> usize {
        self.of_groups.len()
    }

    /// The groups of a name, in the order in which they open.
    pub(crate) fn numbers(&self, name: &str) -> impl Iterator<Item = usize> + '_ {
        self.numbers.get(name).into_iter().flatten().copied()
    }
}

impl Regex {
    /// Compiles a pattern with the default options; see [`RegexBuilder`](crate::RegexBuilder) for others.
    ///
    /// # Errors
    ///
    /// [`Error::ParseError`], with the byte of the pattern, if it cannot be read; [`Error::CompileError`] if it is refused;
    /// [`Error::Memory`] if an allocation of the library fails.
    ///
    /// ```
    /// use fancy::{Error, ParseError, Regex};
    ///
    /// assert_eq!(Regex::new("a(b").err(), Some(Error::ParseError(3, ParseError::UnclosedOpenParen)));
    /// ```
    pub fn new(re: &str) -> Result<Regex> {
        Regex::with_options(re, Options::default())
    }

    /// Compiles a pattern with these options.
    ///
    /// # Errors
    ///
    /// Those of [`Regex::new`].
    pub fn with_options(pattern: &str, options: Options) -> Result<Regex> {
        let given = pattern.to_string();
        if options.bytes_mode != BytesMode::Ascii {
            return Regex::of(Source::Pattern(given), options, None);
        }
        let written = Source::Pattern(over_ascii(pattern));
        Regex::of(written, options, Some(given)).map_err(|error| {
            // why it is refused as it was given
            let as_given = Regex::of(Source::Pattern(pattern.to_string()), options, None);
            as_given.err().unwrap_or(error)
        })
    }

    /// Compiles the tree that a text in the notation of docs/MEANING.md spells. Its groups have no names.
    ///
    /// # Errors
    ///
    /// [`Error::ParseError`] of kind `GeneralParseError`, with the byte, if the text spells no tree; otherwise those of
    /// [`Regex::new`].
    pub fn of_tree(tree: &str, options: Options) -> Result<Regex> {
        Regex::of(Source::Tree(tree.to_string()), options, None)
    }

    fn of(source: Source, options: Options, given: Option<String>) -> Result<Regex> {
        let pool = Pool::of(source, options)?;
        let names = Arc::new(pool.with(|program| Ok(Names::of(program)))?);
        Ok(Regex {
            shared: Arc::new(Shared { given, names, pool }),
        })
    }

    /// How bytes are read that are searched.
    pub(crate) fn bytes_mode(&self) -> BytesMode {
        self.shared.pool.options().bytes_mode
    }

    /// The pattern, or the tree, as it was given.
    pub fn as_str(&self) -> &str {
        self.shared
            .given
            .as_deref()
            .unwrap_or_else(|| self.compiled())
    }

    /// The text that is compiled.
    pub(crate) fn compiled(&self) -> &str {
        self.shared.pool.text()
    }

    // ---- Groups

    /// How many groups the pattern has, with group 0.
    pub fn captures_len(&self) -> usize {
        self.shared.names.len()
    }

    /// The names of all groups, from group 0 on; `None` for a group without a name, as group 0 is.
    pub fn capture_names(&self) -> CaptureNames<'_> {
        CaptureNames(self.shared.names.of_groups.iter())
    }

    pub(crate) fn names(&self) -> Arc<Names> {
        Arc::clone(&self.shared.names)
    }

    pub(crate) fn has_names(&self) -> bool {
        !self.shared.names.numbers.is_empty()
    }

    pub(crate) fn has_group_named(&self, name: &str) -> bool {
        self.shared.names.numbers.contains_key(name)
    }

    // ---- One match

    /// Whether the text has a match.
    ///
    /// # Errors
    ///
    /// Of this and of each other search: [`Error::RuntimeError`] if the search exceeds a limit, which it names, and
    /// [`Error::Memory`] if an allocation of the library fails.
    pub fn is_match(&self, text: &str) -> Result<bool> {
        let pool = &self.shared.pool;
        pool.with(|program| program.is_match(text, pool.options()))
    }

    /// Finds the first match: the one with the earliest start, and of several there the first in the order of preference, or
    /// the longest under `leftmost_longest`. Positions are in bytes of the text, from 0. `Ok(None)` means that there is no
    /// match.
    ///
    /// # Errors
    ///
    /// Those of [`is_match`](Regex::is_match).
    ///
    /// ```
    /// # fn main() -> fancy::Result<()> {
    /// use fancy::Regex;
    ///
    /// let found = Regex::new(r"(?<=\$)[0-9]+")?.find("tea 2, cake $42")?.unwrap();
    /// assert_eq!((found.range(), found.as_str()), (13..15, "42"));
    /// # Ok(())
    /// # }
    /// ```
    pub fn find<'t>(&self, text: &'t str) -> Result<Option<Match<'t>>> {
        self.find_from_pos(text, 0)
    }

    /// Finds the first match that starts at byte `pos` or later. Look-behind, `\b` and `^` see the text before `pos`.
    ///
    /// # Errors
    ///
    /// Those of [`is_match`](Regex::is_match).
    ///
    /// # Panics
    ///
    /// If `pos` is no character boundary of the text.
    pub fn find_from_pos<'t>(&self, text: &'t str, pos: usize) -> Result<Option<Match<'t>>> {
        let mut span = [sys::FANCY_UNSET; 2];
        let is_found = self.search(text, pos, &mut span)?;
        Ok(if is_found {
            Match::of(text, span[0], span[1])
        } else {
            None
        })
    }

    /// Finds the first match, with its groups.
    ///
    /// # Errors
    ///
    /// Those of [`is_match`](Regex::is_match).
    pub fn captures<'t>(&self, text: &'t str) -> Result<Option<Captures<'t>>> {
        self.captures_from_pos(text, 0)
    }

    /// Finds the first match that starts at byte `pos` or later, with its groups.
    ///
    /// # Errors
    ///
    /// Those of [`is_match`](Regex::is_match).
    ///
    /// # Panics
    ///
    /// If `pos` is no character boundary of the text.
    pub fn captures_from_pos<'t>(&self, text: &'t str, pos: usize) -> Result<Option<Captures<'t>>> {
        let mut spans = vec![sys::FANCY_UNSET; 2 * self.captures_len()];
        let is_found = self.search(text, pos, &mut spans)?;
        Ok(is_found.then(|| self.captures_of(text, spans)))
    }

    /// A match, by start and end of each group.
    pub(crate) fn captures_of<'t>(&self, text: &'t str, spans: Vec<usize>) -> Captures<'t> {
        Captures::of(text, spans, Arc::clone(&self.shared.names))
    }

    fn search(&self, text: &str, pos: usize, spans: &mut [usize]) -> Result<bool> {
        assert!(
            text.is_char_boundary(pos),
            "byte {pos} is no character boundary of the text"
        );
        let pool = &self.shared.pool;
        let mut options = *pool.options();
        options.host.pos = pos;
        pool.with(|program| program.find(text, &options, spans))
    }

    // ---- All matches

    /// The matches from left to right, as an iterator. Matches do not overlap, and an empty match directly after another match
    /// is left out. An item can be an error of [`is_match`](Regex::is_match); it is the last one.
    ///
    /// ```
    /// # fn main() -> fancy::Result<()> {
    /// use fancy::Regex;
    ///
    /// let numbers: Result<Vec<_>, _> = Regex::new("[0-9]+")?.find_iter("1, 22").map(|it| it.map(|it| it.as_str())).collect();
    /// assert_eq!(numbers?, ["1", "22"]);
    /// # Ok(())
    /// # }
    /// ```
    pub fn find_iter<'r, 't>(&'r self, text: &'t str) -> Matches<'r, 't> {
        Matches::of(self, text)
    }

    /// The next matches of a list, with how many there are and why there are no more.
    pub(crate) fn next_matches(
        &self,
        form: Form,
        text: &str,
        cursor: &mut sys::FancyCursor,
        spans: &mut [usize],
    ) -> (usize, Result<bool>) {
        let pool = &self.shared.pool;
        let found =
            pool.with(|program| Ok(program.find_all(form, text, pool.options(), cursor, spans)));
        found.unwrap_or_else(|error| (0, Err(error)))
    }

    /// The matches of [`find_iter`](Regex::find_iter), each with its groups, as an iterator.
    pub fn captures_iter<'r, 't>(&'r self, text: &'t str) -> CaptureMatches<'r, 't> {
        CaptureMatches::of(self, text)
    }

    /// The pieces of the text between the matches, as an iterator: one more than there are matches. An item can be an error of
    /// [`is_match`](Regex::is_match); it is the last one.
    pub fn split<'r, 't>(&'r self, target: &'t str) -> Split<'r, 't> {
        Split::of(self.find_iter(target))
    }

    /// As [`split`](Regex::split), with `limit` pieces at most: the last one is the rest of the text. With a limit of 0 there
    /// are none.
    pub fn splitn<'r, 't>(&'r self, target: &'t str, limit: usize) -> SplitN<'r, 't> {
        SplitN::of(self.split(target), limit)
    }

    // ---- Replacing

    /// The text with its first match replaced, or the text itself if there is no match. [`Replacer`] says what `rep` can be:
    /// in a text, `$1` and `$name` are groups.
    ///
    /// # Panics
    ///
    /// If the search ends with an error: [`try_replacen`](Regex::try_replacen) returns it.
    ///
    /// ```
    /// # fn main() -> fancy::Result<()> {
    /// use fancy::{Captures, Regex};
    ///
    /// let date = Regex::new(r"(?<year>\d+)-(?<month>\d+)")?;
    /// assert_eq!(date.replace("on 2026-11", "${month}/$year"), "on 11/2026");
    /// assert_eq!(date.replace("on 2026-11", |it: &Captures<'_>| it["year"].to_string()), "on 2026");
    /// # Ok(())
    /// # }
    /// ```
    pub fn replace<'t, R: Replacer>(&self, text: &'t str, rep: R) -> Cow<'t, str> {
        self.replacen(text, 1, rep)
    }

    /// The text with all its matches replaced, or the text itself if there is no match.
    ///
    /// # Panics
    ///
    /// As [`replace`](Regex::replace).
    pub fn replace_all<'t, R: Replacer>(&self, text: &'t str, rep: R) -> Cow<'t, str> {
        self.replacen(text, 0, rep)
    }

    /// The text with its first `limit` matches replaced, all of them if `limit` is 0.
    ///
    /// # Panics
    ///
    /// As [`replace`](Regex::replace).
    pub fn replacen<'t, R: Replacer>(&self, text: &'t str, limit: usize, rep: R) -> Cow<'t, str> {
        match self.try_replacen(text, limit, rep) {
            Ok(replaced) => replaced,
            Err(error) => panic!("a search while replacing: {error}"),
        }
    }

    /// As [`replacen`](Regex::replacen), without a panic.
    ///
    /// # Errors
    ///
    /// Those of [`is_match`](Regex::is_match).
    pub fn try_replacen<'t, R: Replacer>(
        &self,
        text: &'t str,
        limit: usize,
        mut rep: R,
    ) -> Result<Cow<'t, str>> {
        if let Some(fixed) = rep.no_expansion().map(Cow::into_owned) {
            let matches = self.find_iter(text).map(|it| it.map(|it| (it, ())));
            return rewritten(text, limit, matches, |_, new| new.push_str(&fixed));
        }
        let matches = self
            .captures_iter(text)
            .map(|it| it.map(|it| (it.whole(), it)));
        rewritten(text, limit, matches, |captures, new| {
            rep.replace_append(&captures, new)
        })
    }
}

/// The text with its first `limit` matches replaced, or all of them if `limit` is 0; the text itself if there are
/// none.
fn rewritten<'t, T>(
    text: &'t str,
    limit: usize,
    matches: impl Iterator<Item = Result<(Match<'t>, T)>>,
    mut write: impl FnMut(T, &mut String),
) -> Result<Cow<'t, str>> {
    let limit = if limit == 0 { usize::MAX } else { limit };
    let mut matches = matches.take(limit).peekable();
    if matches.peek().is_none() {
        return Ok(Cow::Borrowed(text));
    }
    let mut new = String::with_capacity(text.len());
    let mut end = 0;
    for found in matches {
        let (found, written) = found?;
        new.push_str(&text[end..found.start()]);
        write(written, &mut new);
        end = found.end();
    }
    new.push_str(&text[end..]);
    Ok(Cow::Owned(new))
}

impl fmt::Debug for Regex {
    fn fmt(&self, f: &mut fmt::Formatter<'_>) -> fmt::Result {
        f.write_str(self.as_str())
    }
}

impl fmt::Display for Regex {
    fn fmt(&self, f: &mut fmt::Formatter<'_>) -> fmt::Result {
        f.write_str(self.as_str())
    }
}

impl FromStr for Regex {
    type Err = Error;

    fn from_str(s: &str) -> Result<Regex> {
        Regex::new(s)
    }
}

impl TryFrom<&str> for Regex {
    type Error = Error;

    fn try_from(s: &str) -> Result<Regex> {
        Regex::new(s)
    }
}

impl TryFrom<String> for Regex {
    type Error = Error;

    fn try_from(s: String) -> Result<Regex> {
        Regex::new(&s)
    }
}

/// The names of all groups; see [`Regex::capture_names`].
#[derive(Clone, Debug)]
pub struct CaptureNames<'r>(std::slice::Iter<'r, Option<String>>);

impl<'r> Iterator for CaptureNames<'r> {
    type Item = Option<&'r str>;

    fn next(&mut self) -> Option<Option<&'r str>> {
        self.0.next().map(Option::as_deref)
    }

    fn size_hint(&self) -> (usize, Option<usize>) {
        self.0.size_hint()
    }
}

impl ExactSizeIterator for CaptureNames<'_> {}
