//! All matches of a text.

use crate::captures::{Captures, Match};
use crate::error::{Error, Result};
use crate::regex::Regex;
use fancy_sys as sys;
use std::vec::IntoIter;

/// For how many numbers a call has room, at most, or for one match. Each call has room for twice as many matches as the one
/// before, since each checks the whole text.
const MOST_ROOM: usize = 1 << 17;

/// What a list has of each match.
#[derive(Clone, Copy, Debug, PartialEq, Eq)]
pub(crate) enum Form {
    /// Its start and end.
    Span,
    /// Start and end of each group.
    Groups,
}

/// A list of matches, each as a row of numbers.
#[derive(Debug)]
struct Rows<'r, 't> {
    regex: &'r Regex,
    text: &'t str,
    form: Form,
    /// How many numbers a row has.
    width: usize,
    cursor: sys::FancyCursor,
    /// The rows that were found and not given yet.
    found: IntoIter<usize>,
    /// For how many rows the next call has room; 0 once the list has ended.
    room: usize,
    error: Option<Error>,
}

impl<'r, 't> Rows<'r, 't> {
    fn of(regex: &'r Regex, text: &'t str, form: Form) -> Rows<'r, 't> {
        Rows {
            regex,
            text,
            form,
            width: match form {
                Form::Span => 2,
                Form::Groups => 2 * regex.captures_len(),
            },
            cursor: sys::FANCY_FIRST,
            found: Vec::new().into_iter(),
            room: 1,
            error: None,
        }
    }

    /// Finds the next rows, while there is room.
    fn find_more(&mut self) {
        let mut numbers = vec![0; self.room * self.width];
        let (count, why) =
            self.regex
                .next_matches(self.form, self.text, &mut self.cursor, &mut numbers);
        numbers.truncate(count * self.width);
        self.found = numbers.into_iter();
        match why {
            Ok(true) => self.room = (2 * self.room).min(usize::max(1, MOST_ROOM / self.width)),
            Ok(false) => self.room = 0,
            Err(error) => {
                self.room = 0;
                self.error = Some(error);
            }
        }
    }

    /// Whether there is a row more; it is then at the front of what was found.
    fn has_next(&mut self) -> bool {
        if self.found.len() == 0 && self.room > 0 {
            self.find_more();
        }
        self.found.len() > 0
    }
}

/// The matches of a text; see [`Regex::find_iter`].
#[derive(Debug)]
pub struct Matches<'r, 't>(Rows<'r, 't>);

impl<'r, 't> Matches<'r, 't> {
    pub(crate) fn of(regex: &'r Regex, text: &'t str) -> Matches<'r, 't> {
        Matches(Rows::of(regex, text, Form::Span))
    }

    /// The text that is searched.
    pub fn text(&self) -> &'t str {
        self.0.text
    }

    /// The regex whose matches these are.
    pub fn regex(&self) -> &'r Regex {
        self.0.regex
    }
}

impl<'t> Iterator for Matches<'_, 't> {
    type Item = Result<Match<'t>>;

    fn next(&mut self) -> Option<Result<Match<'t>>> {
        if !self.0.has_next() {
            return self.0.error.take().map(Err);
        }
        let (start, end) = (self.0.found.next()?, self.0.found.next()?);
        Match::of(self.0.text, start, end).map(Ok)
    }
}

/// The matches of a text, with their groups; see [`Regex::captures_iter`].
#[derive(Debug)]
pub struct CaptureMatches<'r, 't>(Rows<'r, 't>);

impl<'r, 't> CaptureMatches<'r, 't> {
    pub(crate) fn of(regex: &'r Regex, text: &'t str) -> CaptureMatches<'r, 't> {
        let form = match regex.captures_len() {
            1 => Form::Span,
            _ => Form::Groups,
        };
        CaptureMatches(Rows::of(regex, text, form))
    }

    /// The text that is searched.
    pub fn text(&self) -> &'t str {
        self.0.text
    }

    /// The regex whose matches these are.
    pub fn regex(&self) -> &'r Regex {
        self.0.regex
    }
}

impl<'t> Iterator for CaptureMatches<'_, 't> {
    type Item = Result<Captures<'t>>;

    fn next(&mut self) -> Option<Result<Captures<'t>>> {
        if !self.0.has_next() {
            return self.0.error.take().map(Err);
        }
        let spans = self.0.found.by_ref().take(self.0.width).collect();
        Some(Ok(self.0.regex.captures_of(self.0.text, spans)))
    }
}
