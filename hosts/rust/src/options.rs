//! How a pattern is read, compiled and searched for.

use crate::bytes::BytesMode;
use crate::error::Result;
use crate::regex::Regex;
use fancy_sys as sys;

/// The options of a pattern or tree and of its searches: each is that of `fancy_options` in `fancy.h`.
///
/// [`RegexBuilder`] has those that fancy-regex knows, by its names.
#[derive(Clone, Copy, Debug, PartialEq, Eq)]
pub struct Options {
    pub(crate) host: sys::FancyOptions,
    pub(crate) bytes_mode: BytesMode,
}

impl Default for Options {
    /// Those of `fancy_default_options`. A text is a `str`, so the library need not check it.
    fn default() -> Options {
        // Safety: the call has no arguments.
        let defaults = unsafe { sys::fancy_default_options() };
        Options {
            host: sys::FancyOptions {
                text_is_utf8: true,
                ..defaults
            },
            bytes_mode: BytesMode::default(),
        }
    }
}

macro_rules! setters {
    ($($(#[doc = $text:literal])+ $name:ident: $kind:ty,)*) => {
        $($(#[doc = $text])+
        #[must_use]
        pub fn $name(mut self, $name: $kind) -> Options {
            self.host.$name = $name;
            self
        })*
    };
}

impl Options {
    setters! {
        /// How many instructions the program of a pattern may have; 100,000 by default.
        max_prog_size: usize,
        /// How many nodes of a pattern may nest in one another, with calls written out; 500 by default, for a stack of 1 MB.
        max_nesting: usize,
        /// How many nodes the analysis of a pattern may look at in rounds that change something; 5,000,000 by default. 0
        /// is no limit.
        analysis_limit: usize,
        /// How many parentheses of a tree may be open at one place; 250 by default, for a stack of 1 MB.
        max_depth: usize,
        /// How often a search may backtrack to a branch. The default is 20,000,000, and one more for each byte of the
        /// text and for its end.
        backtrack_limit: usize,
        /// How many instructions a search may execute. The default, and `u64::MAX`, is 100,000,000, and eight more
        /// for each byte of the text and for its end.
        step_limit: u64,
        /// How many states a search may visit in the parts of a pattern that an automaton searches; 20,000,000 by default,
        /// some 3 s at worst. 0 is no limit.
        visit_limit: u64,
        /// How many bytes a search may keep for these parts at one time, and again for its branches; 256 MiB by default. 0
        /// is no limit.
        memory_limit: usize,
        /// Only the first start is tried; for the compiler.
        compile_anchored: bool,
        /// Only the first start is tried; for a search.
        anchored: bool,
        /// No match ended where a search begins, so `\G` fails there.
        not_continued: bool,
        /// A match is not empty.
        not_empty: bool,
        /// No empty match at the end of a text after a newline.
        end_text: bool,
        /// Folding, word characters and classes are those of ASCII.
        ascii: bool,
        /// A search finds the longest match, in bytes, at the earliest start, and not the first one.
        longest: bool,
        /// Literals, classes and references match without regard to case, as with the flag `i`.
        case_insensitive: bool,
        /// `^` and `$` also match where a line begins and ends, as with the flag `m`.
        multi_line: bool,
        /// `.` matches a newline too, as with the flag `s`.
        dot_matches_new_line: bool,
        /// White space and comments in the pattern are ignored, as with the flag `x`.
        ignore_whitespace: bool,
        /// A CR before an LF belongs to the end of its line, as with the flag `R`.
        crlf: bool,
        /// Quantifiers are lazy, and greedy with a `?`, as with the flag `U`.
        swap_greed: bool,
        /// Under `multi_line` a line begins where it does for Oniguruma.
        oniguruma: bool,
        /// If the pattern has a named group, a plain `( )` captures nothing.
        named_groups_only: bool,
    }
}

/// A pattern with the options of its regex.
///
/// ```
/// # fn main() -> fancy::Result<()> {
/// use fancy::RegexBuilder;
///
/// let word = RegexBuilder::new(r"\bpi\b").case_insensitive(true).build()?;
/// assert!(word.is_match("PI day")?);
/// # Ok(())
/// # }
/// ```
#[derive(Clone, Debug)]
pub struct RegexBuilder {
    pattern: String,
    options: Options,
}

macro_rules! builder_setters {
    ($($(#[doc = $text:literal])+ $name:ident: $kind:ty => $($field:ident).+,)*) => {
        $($(#[doc = $text])+
        pub fn $name(&mut self, value: $kind) -> &mut RegexBuilder {
            self.options.host.$($field).+ = value;
            self
        })*
    };
}

impl RegexBuilder {
    /// The pattern with the default options.
    pub fn new(pattern: &str) -> RegexBuilder {
        RegexBuilder {
            pattern: pattern.to_string(),
            options: Options::default(),
        }
    }

    /// Compiles the pattern with these options.
    ///
    /// # Errors
    ///
    /// Those of [`Regex::new`].
    pub fn build(&self) -> Result<Regex> {
        Regex::with_options(&self.pattern, self.options)
    }

    builder_setters! {
        /// Literals, classes and references match without regard to case, as with the flag `i`. Off by default.
        case_insensitive: bool => case_insensitive,
        /// `^` and `$` also match where a line begins and ends, as with the flag `m`. Off by default.
        multi_line: bool => multi_line,
        /// `.` matches a newline too, as with the flag `s`. Off by default.
        dot_matches_new_line: bool => dot_matches_new_line,
        /// White space and comments in the pattern are ignored, as with the flag `x`. Off by default.
        ignore_whitespace: bool => ignore_whitespace,
        /// As [`ignore_whitespace`](RegexBuilder::ignore_whitespace).
        verbose_mode: bool => ignore_whitespace,
        /// A CR before an LF belongs to the end of its line, as with the flag `R`. Off by default.
        crlf: bool => crlf,
        /// Quantifiers are lazy, and greedy with a `?`, as with the flag `U`. Off by default.
        swap_greed: bool => swap_greed,
        /// Under `multi_line` a line begins where it does for Oniguruma. Off by default.
        oniguruma_mode: bool => oniguruma,
        /// If the pattern has a named group, a plain `( )` captures nothing. Off by default.
        ignore_numbered_groups_when_named_groups_exist: bool => named_groups_only,
        /// A match is not empty. Off by default.
        find_not_empty: bool => not_empty,
        /// A search finds the longest match, in bytes, at the earliest start, and not the first one. Off by default.
        leftmost_longest: bool => longest,
        /// How often a search may backtrack to a branch. The default is 20,000,000, and one more for each byte of the
        /// text and for its end.
        backtrack_limit: usize => backtrack_limit,
        /// How many instructions a search may execute. The default, and `u64::MAX`, is 100,000,000, and eight more
        /// for each byte of the text and for its end.
        step_limit: u64 => step_limit,
        /// How many states a search may visit in the parts of the pattern that an automaton searches; 20,000,000 by
        /// default, some 3 s at worst. 0 is no limit.
        visit_limit: u64 => visit_limit,
        /// How many bytes a search may keep for these parts at one time, and again for its branches; 256 MiB by default. 0
        /// is no limit.
        memory_limit: usize => memory_limit,
        /// How many instructions the program of the pattern may have; 100,000 by default.
        max_prog_size: usize => max_prog_size,
        /// How many nodes of the pattern may nest in one another, with calls written out; 500 by default, for a stack of 1 MB.
        max_nesting: usize => max_nesting,
        /// How many nodes the analysis of the pattern may look at in rounds that change something; 5,000,000 by default. A
        /// pattern that exceeds it is refused as `CompileError::AnalysisLimitExceeded`. 0 is no limit.
        analysis_limit: usize => analysis_limit,
    }

    /// Folding, classes and word characters are those of Unicode, and otherwise those of ASCII. On by default.
    pub fn unicode_mode(&mut self, yes: bool) -> &mut RegexBuilder {
        self.options.host.ascii = !yes;
        self
    }

    /// How bytes are read that [`Regex::find_input`] and its like search, as UTF-8 by default. Under [`BytesMode::Ascii`] only
    /// ASCII letters are letters.
    pub fn bytes_mode(&mut self, mode: BytesMode) -> &mut RegexBuilder {
        self.options.bytes_mode = mode;
        self
    }

    /// Does nothing: this engine has no automaton of `regex` whose size could be bounded; [`max_prog_size`] bounds a program.
    ///
    /// [`max_prog_size`]: RegexBuilder::max_prog_size
    pub fn delegate_size_limit(&mut self, _limit: usize) -> &mut RegexBuilder {
        self
    }

    /// Does nothing, as [`delegate_size_limit`](RegexBuilder::delegate_size_limit).
    pub fn delegate_dfa_size_limit(&mut self, _limit: usize) -> &mut RegexBuilder {
        self
    }
}
