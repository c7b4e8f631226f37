//! Matches, and what their groups took.

use crate::expand::Expander;
use crate::regex::Names;
use std::fmt;
use std::ops::{Index, Range};
use std::sync::Arc;

/// A match, or what a group captured: a part of a text. Positions are in bytes of the text, from 0.
#[derive(Clone, Copy, PartialEq, Eq)]
pub struct Match<'t> {
    text: &'t str,
    start: usize,
    end: usize,
}

impl<'t> Match<'t> {
    /// The match from one byte of a text to another; none for a group that is not set.
    pub(crate) fn of(text: &'t str, start: usize, end: usize) -> Option<Match<'t>> {
        (start != fancy_sys::FANCY_UNSET).then_some(Match { text, start, end })
    }

    /// The byte where the match begins.
    pub fn start(&self) -> usize {
        self.start
    }

    /// The byte where the match ends: the first one after it.
    pub fn end(&self) -> usize {
        self.end
    }

    /// The bytes of the match, from [`start`](Match::start) to [`end`](Match::end).
    pub fn range(&self) -> Range<usize> {
        self.start..self.end
    }

    /// The part of the text that matched.
    pub fn as_str(&self) -> &'t str {
        &self.text[self.range()]
    }
}

impl fmt::Debug for Match<'_> {
    fn fmt(&self, f: &mut fmt::Formatter<'_>) -> fmt::Result {
        f.debug_struct("Match")
            .field("start", &self.start)
            .field("end", &self.end)
            .field("string", &self.as_str())
            .finish()
    }
}

impl<'t> From<Match<'t>> for &'t str {
    fn from(found: Match<'t>) -> &'t str {
        found.as_str()
    }
}

impl From<Match<'_>> for Range<usize> {
    fn from(found: Match<'_>) -> Range<usize> {
        found.range()
    }
}

/// A match with its groups, by their numbers and names. Group 0 is the match itself.
///
/// ```
/// # fn main() -> fancy::Result<()> {
/// use fancy::Regex;
///
/// let captures = Regex::new(r"(?<key>\w+)=(\d+)?")?.captures("width=")?.unwrap();
/// assert_eq!(&captures["key"], "width");
/// assert_eq!(captures.len(), 3);
/// assert!(captures.get(2).is_none());
/// # Ok(())
/// # }
/// ```
#[derive(Clone)]
pub struct Captures<'t> {
    text: &'t str,
    /// Start and end of each group.
    spans: Vec<usize>,
    names: Arc<Names>,
}

#[allow(clippy::len_without_is_empty)] // there is always group 0
impl<'t> Captures<'t> {
    pub(crate) fn of(text: &'t str, spans: Vec<usize>, names: Arc<Names>) -> Captures<'t> {
        Captures { text, spans, names }
    }

    /// The names of the groups.
    pub(crate) fn names(&self) -> Arc<Names> {
        Arc::clone(&self.names)
    }

    /// The match.
    pub(crate) fn whole(&self) -> Match<'t> {
        Match {
            text: self.text,
            start: self.spans[0],
            end: self.spans[1],
        }
    }

    /// What the group with this number captured. `None` if the group is not set, or if there is no such group. Group 0 is the
    /// match.
    pub fn get(&self, i: usize) -> Option<Match<'t>> {
        let at = i.checked_mul(2)?;
        Match::of(self.text, *self.spans.get(at)?, *self.spans.get(at + 1)?)
    }

    /// What the group with this name captured; of several groups with the name, the first that is set. `None` if none of them
    /// is set, or if no group has the name.
    pub fn name(&self, name: &str) -> Option<Match<'t>> {
        self.names.numbers(name).find_map(|number| self.get(number))
    }

    /// Appends a template to `dst`, with each reference to a group replaced by what the group captured: `$1`, `${1}`, `$name`
    /// and `${name}` are groups, and `$$` is a dollar.
    ///
    /// Without braces a name is the longest run of letters, digits and `_`. A group that is not set, or not there,
    /// writes nothing.
    pub fn expand(&self, replacement: &str, dst: &mut String) {
        Expander::default().append_expansion(dst, replacement, self);
    }

    /// What the groups captured, from group 0 on, as an iterator. An item is `None` if its group is not set.
    pub fn iter<'c>(&'c self) -> SubCaptureMatches<'c, 't> {
        SubCaptureMatches {
            captures: self,
            next: 0,
        }
    }

    /// How many groups the pattern has, set or not, with group 0.
    pub fn len(&self) -> usize {
        self.spans.len() / 2
    }
}

impl fmt::Debug for Captures<'_> {
    fn fmt(&self, f: &mut fmt::Formatter<'_>) -> fmt::Result {
        f.debug_list().entries(self.iter()).finish()
    }
}

/// The text of a group by its number.
///
/// # Panics
///
/// If the group is not set, or not there.
impl Index<usize> for Captures<'_> {
    type Output = str;

    fn index(&self, i: usize) -> &str {
        match self.get(i) {
            Some(group) => group.as_str(),
            None => panic!("no group at index '{i}'"),
        }
    }
}

/// The text of a group by its name.
///
/// # Panics
///
/// If the group is not set, or not there.
impl Index<&str> for Captures<'_> {
    type Output = str;

    fn index(&self, name: &str) -> &str {
        match self.name(name) {
            Some(group) => group.as_str(),
            None => panic!("no group named '{name}'"),
        }
    }
}

/// What the groups of a match captured; see [`Captures::iter`].
#[derive(Clone, Debug)]
pub struct SubCaptureMatches<'c, 't> {
    captures: &'c Captures<'t>,
    next: usize,
}

impl<'t> Iterator for SubCaptureMatches<'_, 't> {
    type Item = Option<Match<'t>>;

    fn next(&mut self) -> Option<Option<Match<'t>>> {
        if self.next == self.captures.len() {
            return None;
        }
        self.next += 1;
        Some(self.captures.get(self.next - 1))
    }

    fn size_hint(&self) -> (usize, Option<usize>) {
        let left = self.captures.len() - self.next;
        (left, Some(left))
    }
}

impl ExactSizeIterator for SubCaptureMatches<'_, '_> {}
