//! The handles of the library.

use crate::error::{Error, Result};
use crate::matches::Form;
use crate::options::Options;
use fancy_sys as sys;
use std::ffi::c_char;
use std::sync::{Mutex, MutexGuard, PoisonError};

/// A text, by what it spells.
pub(crate) enum Source {
    Pattern(String),
    Tree(String),
}

impl Source {
    pub(crate) fn text(&self) -> &str {
        match self {
            Source::Pattern(text) | Source::Tree(text) => text,
        }
    }
}

/// A compiled pattern with the memory of its searches: a program of the library, freed when it is dropped.
pub(crate) struct Program(sys::FancyProgram);

// Safety: `fancy.h` says that a program may go from thread to thread, used by one call at a time. A call has it by `&mut`.
unsafe impl Send for Program {}

impl Drop for Program {
    fn drop(&mut self) {
        // Safety: the program is the library's, and no other call has it.
        unsafe { sys::fancy_free(&mut self.0) }
    }
}

pub(crate) fn start_of(text: &str) -> *const c_char {
    text.as_ptr().cast()
}

/// What a call writes into the room that it is given, which returns the length of the whole.
pub(crate) fn written(write: impl Fn(*mut c_char, usize) -> usize) -> String {
    let mut room = vec![0u8; 64];
    loop {
        let length = write(room.as_mut_ptr().cast(), room.len());
        if length < room.len() {
            room.truncate(length);
            return String::from_utf8_lossy(&room).into_owned();
        }
        room.resize(length + 1, 0);
    }
}

impl Program {
    /// Compiles what a text spells.
    fn compile(source: &Source, options: &Options) -> Result<Program> {
        let mut program = Program(sys::FANCY_NOTHING);
        // Safety, here and below: each pointer is that of a reference, with its length, and none is null.
        let outcome = unsafe {
            match source {
                Source::Pattern(text) => sys::fancy_compile_pattern(
                    start_of(text),
                    text.len(),
                    &options.host,
                    &mut program.0,
                ),
                Source::Tree(text) => {
                    sys::fancy_compile(start_of(text), text.len(), &options.host, &mut program.0)
                }
            }
        };
        match outcome.code {
            sys::FANCY_OK => Ok(program),
            _ => Err(Error::of(&outcome, || message(source, options, &outcome))),
        }
    }

    /// A program that shares what was compiled, with memory of its own for its searches. The only error is `Memory`.
    fn try_clone(&mut self) -> Result<Program> {
        let mut copy = Program(sys::FANCY_NOTHING);
        // Safety: as above.
        let outcome = unsafe { sys::fancy_clone(&mut self.0, &mut copy.0) };
        match outcome.code {
            sys::FANCY_OK => Ok(copy),
            _ => Err(Error::of(&outcome, String::new)),
        }
    }

    /// How many groups there are, with group 0.
    pub(crate) fn group_count(&self) -> usize {
        // Safety: as above.
        unsafe { sys::fancy_group_count(&self.0) }
    }

    /// The name of a group, if it has one.
    pub(crate) fn group_name(&mut self, group: usize) -> Option<String> {
        let program: *mut sys::FancyProgram = &mut self.0;
        // Safety: as above, and the call has the program to itself.
        let name =
            written(|name, room| unsafe { sys::fancy_group_name(program, group, name, room) });
        (!name.is_empty()).then_some(name)
    }

    /// Whether a text has a match.
    pub(crate) fn is_match(&mut self, text: &str, options: &Options) -> Result<bool> {
        // Safety: as above.
        let outcome =
            unsafe { sys::fancy_is_match(&mut self.0, start_of(text), text.len(), &options.host) };
        is_found(&outcome)
    }

    /// Whether a text has a match; start and end of its groups are written, as far as there is room.
    pub(crate) fn find(
        &mut self,
        text: &str,
        options: &Options,
        spans: &mut [usize],
    ) -> Result<bool> {
        let (at, length) = (spans.as_mut_ptr(), spans.len());
        // Safety: as above.
        let outcome = unsafe {
            sys::fancy_find(
                &mut self.0,
                start_of(text),
                text.len(),
                &options.host,
                at,
                length,
            )
        };
        is_found(&outcome)
    }

    /// Writes the rows of the next matches of a list, and returns how many there are and why there are no more: an
    /// error, or the end of the list.
    pub(crate) fn find_all(
        &mut self,
        form: Form,
        text: &str,
        options: &Options,
        cursor: &mut sys::FancyCursor,
        spans: &mut [usize],
    ) -> (usize, Result<bool>) {
        let (at, length) = (spans.as_mut_ptr(), spans.len());
        let call = match form {
            Form::Span => sys::fancy_find_all,
            Form::Groups => sys::fancy_captures_all,
        };
        // Safety: as above.
        let outcome = unsafe {
            call(
                &mut self.0,
                start_of(text),
                text.len(),
                &options.host,
                cursor,
                at,
                length,
            )
        };
        (outcome.count, is_found(&outcome))
    }
}

/// Patterns that were compiled for a scanner, with the memory of their searches: a scanner of the library, freed when it is
/// dropped.
pub(crate) struct Patterns(sys::FancyScanner);

// Safety: `fancy.h` says that a scanner may go from thread to thread, used by one call at a time. A call has it by `&mut`.
unsafe impl Send for Patterns {}

// Safety: what is shared is not used.
unsafe impl Sync for Patterns {}

impl Default for Patterns {
    fn default() -> Patterns {
        Patterns(sys::FANCY_NO_PATTERNS)
    }
}

impl Drop for Patterns {
    fn drop(&mut self) {
        // Safety: the scanner is the library's, and no other call has it.
        unsafe { sys::fancy_scanner_free(&mut self.0) }
    }
}

impl Patterns {
    /// Adds a pattern that was compiled with these options before. The only error is `Memory`.
    pub(crate) fn add(&mut self, pattern: &str, options: &Options) -> Result<()> {
        // Safety, here and below: each pointer is that of a reference, with its length, and none is null.
        let outcome = unsafe {
            sys::fancy_scanner_add(&mut self.0, start_of(pattern), pattern.len(), &options.host)
        };
        is_found(&outcome).map(|_| ())
    }

    /// Writes the rows of the next matches of a scan, each with this many groups, and returns how many there are and
    /// why there are no more: an error, or the end of the scan.
    pub(crate) fn scan(
        &mut self,
        text: &str,
        pos: &mut usize,
        groups: usize,
        rows: &mut [usize],
    ) -> (usize, Result<bool>) {
        let (at, length) = (rows.as_mut_ptr(), rows.len());
        // of a scan: those of its patterns were given with them
        let options = Options::default();
        // Safety: as above.
        let outcome = unsafe {
            sys::fancy_scan(
                &mut self.0,
                start_of(text),
                text.len(),
                &options.host,
                pos,
                groups,
                at,
                length,
            )
        };
        (outcome.count, is_found(&outcome))
    }
}

fn is_found(outcome: &sys::FancyOutcome) -> Result<bool> {
    match outcome.code {
        sys::FANCY_OK => Ok(true),
        sys::FANCY_NO_MATCH => Ok(false),
        // A search refuses nothing, so there is nothing to explain.
        _ => Err(Error::of(outcome, String::new)),
    }
}

/// What the library says of a refusal.
fn message(source: &Source, options: &Options, outcome: &sys::FancyOutcome) -> String {
    // Safety: as above.
    match source {
        Source::Pattern(text) => written(|message, room| unsafe {
            sys::fancy_explain_pattern(start_of(text), text.len(), &options.host, message, room)
        }),
        Source::Tree(_) => {
            written(|message, room| unsafe { sys::fancy_error_message(outcome, message, room) })
        }
    }
}

/// Programs of one pattern or tree, which share what was compiled: a call takes one that is idle, or a new copy if none
/// is.
pub(crate) struct Pool {
    source: Source,
    options: Options,
    /// No call searches with it, so there is always one to copy.
    original: Mutex<Program>,
    idle: Mutex<Vec<Program>>,
}

/// Nothing panics while one of these locks is held, so what a poisoned one guards is whole too.
fn locked<T>(lock: &Mutex<T>) -> MutexGuard<'_, T> {
    lock.lock().unwrap_or_else(PoisonError::into_inner)
}

impl Pool {
    /// A pool without copies yet.
    pub(crate) fn of(source: Source, options: Options) -> Result<Pool> {
        let original = Program::compile(&source, &options)?;
        Ok(Pool {
            source,
            options,
            original: Mutex::new(original),
            idle: Mutex::new(Vec::new()),
        })
    }

    /// The text that is compiled.
    pub(crate) fn text(&self) -> &str {
        self.source.text()
    }

    pub(crate) fn options(&self) -> &Options {
        &self.options
    }

    /// Lets a call have a program to itself. The only error of a copy is `Memory`.
    pub(crate) fn with<T>(&self, call: impl FnOnce(&mut Program) -> Result<T>) -> Result<T> {
        let idle = locked(&self.idle).pop();
        let mut program = match idle {
            Some(program) => program,
            None => locked(&self.original).try_clone()?,
        };
        let answer = call(&mut program);
        locked(&self.idle).push(program);
        answer
    }
}

#[cfg(test)]
mod tests {
    use super::*;

    /// Two calls at the same time: each has a program of its own, and both are idle afterwards.
    fn search_in_both(source: Source) {
        let pool = Pool::of(source, Options::default()).unwrap();
        for _ in 0..2 {
            let found = pool.with(|first| {
                pool.with(|second| {
                    let options = pool.options();
                    let group_counts = (first.group_count(), second.group_count());
                    let answers = (
                        first.is_match("xa", options)?,
                        second.is_match("b", options)?,
                    );
                    Ok((group_counts, answers))
                })
            });
            assert_eq!(found, Ok(((2, 2), (true, false))));
            assert_eq!(locked(&pool.idle).len(), 2);
        }
    }

    #[test]
    fn calls_at_the_same_time_have_programs_of_their_own() {
        search_in_both(Source::Pattern("(a)".to_string()));
        search_in_both(Source::Tree(r#"(grp "a")"#.to_string()));
    }
}
