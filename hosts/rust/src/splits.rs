//! Texts split at matches.

use crate::error::Result;
use crate::matches::Matches;

/// The pieces of a text between the matches; see [`Regex::split`](crate::Regex::split).
#[derive(Debug)]
pub struct Split<'r, 't> {
    matches: Matches<'r, 't>,
    /// Where the next piece begins; none after the last one.
    start: Option<usize>,
}

impl<'r, 't> Split<'r, 't> {
    pub(crate) fn of(matches: Matches<'r, 't>) -> Split<'r, 't> {
        Split {
            matches,
            start: Some(0),
        }
    }

    /// What is left of the text.
    fn rest(&mut self) -> Option<Result<&'t str>> {
        let start = self.start.take()?;
        Some(Ok(&self.matches.text()[start..]))
    }
}

impl<'t> Iterator for Split<'_, 't> {
    type Item = Result<&'t str>;

    fn next(&mut self) -> Option<Result<&'t str>> {
        let start = self.start?;
        match self.matches.next() {
            None => self.rest(),
            Some(Ok(found)) => {
                self.start = Some(found.end());
                Some(Ok(&self.matches.text()[start..found.start()]))
            }
            Some(Err(error)) => {
                self.start = None;
                Some(Err(error))
            }
        }
    }
}

/// At most `limit` pieces of a text; see [`Regex::splitn`](crate::Regex::splitn).
#[derive(Debug)]
pub struct SplitN<'r, 't> {
    pieces: Split<'r, 't>,
    left: usize,
}

impl<'r, 't> SplitN<'r, 't> {
    pub(crate) fn of(pieces: Split<'r, 't>, left: usize) -> SplitN<'r, 't> {
        SplitN { pieces, left }
    }
}

impl<'t> Iterator for SplitN<'_, 't> {
    type Item = Result<&'t str>;

    fn next(&mut self) -> Option<Result<&'t str>> {
        self.left = self.left.checked_sub(1)?;
        if self.left == 0 {
            self.pieces.rest()
        } else {
            self.pieces.next()
        }
    }
}
