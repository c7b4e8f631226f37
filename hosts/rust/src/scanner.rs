//! Many patterns that are searched for together.

use crate::captures::Captures;
use crate::error::{Error, Result, RuntimeError};
use crate::options::Options;
use crate::program::Patterns;
use crate::regex::{Names, Regex};
use fancy_sys as sys;
use std::fmt;
use std::sync::Arc;
use std::vec::IntoIter;

/// For how many numbers a call has room, at most, or for one match. Each call has room for twice as many matches as the one
/// before, since each searches for each pattern once more.
const MOST_ROOM: usize = 1 << 17;

/// Patterns that are searched for together, as the rules of a highlighter are. Of their first matches the one that begins
/// first is found, and of several that begin there that of the pattern that was added first.
///
/// ```
/// # fn main() -> fancy::Result<()> {
/// use fancy::Scanner;
///
/// let mut scanner = Scanner::new();
/// scanner.add("\"[^\"]*\"")?;
/// scanner.add("(?<word>[a-z]+)")?;
/// let found: fancy::Result<Vec<_>> = scanner.scan("a \"b c\" d").map(|it| it.map(|it| (it.index, it.captures[0].to_string()))).collect();
/// assert_eq!(found?, [(1, "a".to_string()), (0, "\"b c\"".to_string()), (1, "d".to_string())]);
/// # Ok(())
/// # }
/// ```
#[derive(Default)]
pub struct Scanner {
    patterns: Patterns,
    names: Vec<Arc<Names>>,
    /// How many groups a row has: those of the pattern with the most.
    groups: usize,
}

/// A pattern whose search exceeded a limit: whether it has a match is not known.
#[derive(Clone, Copy, Debug, PartialEq, Eq)]
pub struct Stopped {
    /// The pattern: how many patterns were added before it.
    pub index: usize,
    /// The limit that was exceeded.
    pub limit: RuntimeError,
}

/// A match of one of the patterns.
#[derive(Clone, Debug)]
pub struct ScanMatch<'t> {
    /// The pattern that matched: how many patterns were added before it.
    pub index: usize,
    /// The match, with its groups.
    pub captures: Captures<'t>,
    /// The first pattern whose search exceeded a limit, if there is one: it may have a match that begins before this one.
    pub stopped: Option<Stopped>,
}

impl Scanner {
    /// A scanner without patterns.
    pub fn new() -> Scanner {
        Scanner::default()
    }

    /// Adds a pattern, after the others, with the default options.
    ///
    /// # Errors
    ///
    /// Those of [`Regex::new`]. After an error the scanner has the patterns that it had.
    pub fn add(&mut self, pattern: &str) -> Result<()> {
        self.add_with_options(pattern, Options::default())
    }

    /// Adds a pattern, after the others, with these options.
    ///
    /// # Errors
    ///
    /// Those of [`Regex::new`]. After an error the scanner has the patterns that it had.
    pub fn add_with_options(&mut self, pattern: &str, options: Options) -> Result<()> {
        let regex = Regex::with_options(pattern, options)?;
        self.patterns.add(regex.compiled(), &options)?;
        self.groups = self.groups.max(regex.captures_len());
        self.names.push(regex.names());
        Ok(())
    }

    /// How many patterns there are.
    pub fn len(&self) -> usize {
        self.names.len()
    }

    /// Whether there are no patterns.
    pub fn is_empty(&self) -> bool {
        self.names.is_empty()
    }

    /// Finds the first match that starts at byte `pos` or later. Look-behind, `\b` and `^` see the text before `pos`.
    ///
    /// # Errors
    ///
    /// [`Error::RuntimeError`] if a pattern exceeds a limit and no other has a match; [`Error::Memory`] if an allocation of
    /// the library fails.
    ///
    /// # Panics
    ///
    /// If `pos` is no character boundary of the text.
    pub fn find_from_pos<'t>(
        &mut self,
        text: &'t str,
        pos: usize,
    ) -> Result<Option<ScanMatch<'t>>> {
        let mut scan = self.scan_from_pos(text, pos);
        scan.next().transpose()
    }

    /// The matches from left to right, as an iterator. Each search begins where the match before it ended, or one character
    /// further if that match was empty. An item can be an error of [`find_from_pos`](Scanner::find_from_pos); it is the last
    /// one.
    ///
    /// A scan keeps the match that it found for a pattern while it holds, so it reads the text few times for each pattern.
    pub fn scan<'s, 't>(&'s mut self, text: &'t str) -> Scan<'s, 't> {
        self.scan_from_pos(text, 0)
    }

    /// As [`scan`](Scanner::scan), from byte `pos` of the text on.
    ///
    /// # Panics
    ///
    /// If `pos` is no character boundary of the text.
    pub fn scan_from_pos<'s, 't>(&'s mut self, text: &'t str, pos: usize) -> Scan<'s, 't> {
        assert!(
            text.is_char_boundary(pos),
            "byte {pos} is no character boundary of the text"
        );
        Scan {
            width: sys::FANCY_ROW_SPANS + 2 * self.groups,
            scanner: self,
            text,
            pos,
            found: Vec::new().into_iter(),
            room: 1,
            error: None,
        }
    }
}

impl fmt::Debug for Scanner {
    fn fmt(&self, f: &mut fmt::Formatter<'_>) -> fmt::Result {
        write!(f, "Scanner of {} patterns", self.len())
    }
}

/// The matches of the patterns of a scanner; see [`Scanner::scan`].
#[derive(Debug)]
pub struct Scan<'s, 't> {
    scanner: &'s mut Scanner,
    text: &'t str,
    pos: usize,
    /// How many numbers a row has.
    width: usize,
    /// The rows that were found and not given yet.
    found: IntoIter<usize>,
    /// For how many rows the next call has room; 0 once the scan has ended.
    room: usize,
    error: Option<Error>,
}

impl<'t> Scan<'_, 't> {
    /// Finds the next rows, while there is room.
    fn find_more(&mut self) {
        let mut numbers = vec![0; self.room * self.width];
        let groups = self.scanner.groups;
        let patterns = &mut self.scanner.patterns;
        let (count, why) = patterns.scan(self.text, &mut self.pos, groups, &mut numbers);
        numbers.truncate(count * self.width);
        self.found = numbers.into_iter();
        match why {
            Ok(true) => self.room = (2 * self.room).min(usize::max(1, MOST_ROOM / self.width)),
            Ok(false) => self.room = 0,
            Err(error) => {
                self.room = 0;
                self.error = Some(error);
            }
        }
    }

    /// The next row, by its three numbers and its spans.
    fn next_row(&mut self) -> Option<ScanMatch<'t>> {
        let (index, stopped, limit) = (self.found.next()?, self.found.next()?, self.found.next()?);
        let mut spans: Vec<_> = self.found.by_ref().take(2 * self.scanner.groups).collect();
        let names = &self.scanner.names[index];
        spans.truncate(2 * names.len());
        let limit = u32::try_from(limit).ok().and_then(RuntimeError::of);
        Some(ScanMatch {
            index,
            captures: Captures::of(self.text, spans, Arc::clone(names)),
            stopped: limit.map(|limit| Stopped {
                index: stopped,
                limit,
            }),
        })
    }
}

impl<'t> Iterator for Scan<'_, 't> {
    type Item = Result<ScanMatch<'t>>;

    fn next(&mut self) -> Option<Result<ScanMatch<'t>>> {
        if self.found.len() == 0 && self.room > 0 {
            self.find_more();
        }
        match self.next_row() {
            Some(found) => Some(Ok(found)),
            None => self.error.take().map(Err),
        }
    }
}
