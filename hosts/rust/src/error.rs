//! Why a call has no result.

use fancy_sys as sys;
use std::fmt;
use std::ops::Deref;

/// What a call that may fail returns.
pub type Result<T> = std::result::Result<T, Error>;

/// A byte of a pattern, from 0 to its length.
pub type ParseErrorPosition = usize;

/// Why a call has no result. `Display` writes a sentence for a reader.
#[derive(Clone, Debug, PartialEq, Eq)]
#[non_exhaustive]
pub enum Error {
    /// The pattern cannot be read: the byte of the pattern where it fails, and what is wrong there.
    ParseError(ParseErrorPosition, ParseError),
    /// The pattern can be read, and is refused.
    CompileError(Refusal),
    /// A search exceeds a limit.
    RuntimeError(RuntimeError),
    /// Out of memory: an allocation of the library failed.
    Memory,
}

/// Why a pattern that can be read is refused, and where. By `*` it is its `CompileError`, and equal to another if that is.
#[derive(Clone, Debug)]
pub struct Refusal(Box<Refused>);

#[derive(Clone, Debug)]
struct Refused {
    kind: CompileError,
    at: Option<usize>,
    message: String,
}

/// What is wrong with a pattern that cannot be read.
#[derive(Clone, Copy, Debug, PartialEq, Eq)]
#[non_exhaustive]
pub enum ParseError {
    /// No verb goes on here, there are more than a million groups, or a tree or a template cannot be read.
    GeneralParseError,
    /// A `(` is not closed.
    UnclosedOpenParen,
    /// A `)` closes nothing.
    UnopenedCloseParen,
    /// The counts of a loop are out of order or too large.
    InvalidRepeat,
    /// The pattern nests deeper than 250, or a tree deeper than `max_depth`.
    RecursionExceeded,
    /// A `\` is last.
    TrailingBackslash,
    /// No escape has this letter.
    InvalidEscape,
    /// A property has no name, or no `}`.
    UnclosedUnicodeName,
    /// A hexadecimal digit or a `}` is missing.
    InvalidHex,
    /// No character has this number.
    InvalidCodepointValue,
    /// A class is not closed.
    InvalidClass,
    /// No such flag, or no flag where one is needed.
    UnknownFlag,
    /// The flag `u` cannot be cleared.
    NonUnicodeUnsupported,
    /// The number of a group is too large.
    InvalidBackref,
    /// A quantifier after nothing that can be repeated.
    TargetNotRepeatable,
    /// No name and no number of a group, or not what closes it.
    InvalidGroupName,
    /// Several groups have the name that is called, or more than 100 the name that is referred to.
    InvalidGroupNameBackref,
}

/// Why a pattern that was read is refused.
#[derive(Clone, Debug, PartialEq, Eq)]
#[non_exhaustive]
pub enum CompileError {
    /// A class cannot be read: the message, with its text.
    InnerError(String),
    /// A class is refused for its size: the message, with its text.
    ClassTooBig(String),
    /// A reference names no group: its number.
    InvalidBackref(usize),
    /// A template names no group: the name.
    InvalidGroupNameBackref(String),
    /// A group is referred to by its number, and groups have names.
    NamedBackrefOnly,
    /// This can be read, and is not supported.
    FeatureNotYetSupported,
    /// A call of a group that is not there.
    SubroutineCallTargetNotFound,
    /// A reference or a condition to a name that no group has.
    UnresolvedAstNode,
    /// A group calls itself before anything is matched: the message, with its description.
    LeftRecursiveSubroutineCall(String),
    /// A recursion that never ends.
    NeverEndingRecursion,
    /// A look-behind whose matches have several lengths.
    VariableLookBehindRequiresFeature,
    /// The program of the pattern would have too many instructions.
    PatternTooComplex,
    /// More nodes of the pattern nest in one another, with calls written out, than `max_nesting`.
    NestLimitExceeded,
    /// The analysis of the pattern exceeds `analysis_limit`.
    AnalysisLimitExceeded,
}

/// The limit that a search exceeds.
#[derive(Clone, Copy, Debug, PartialEq, Eq)]
#[non_exhaustive]
pub enum RuntimeError {
    /// The search would hold more than 1,000,000 branches at one time.
    StackOverflow,
    /// The search backtracked more often than `backtrack_limit`.
    BacktrackLimitExceeded,
    /// The search executed more instructions than `step_limit`.
    StepLimitExceeded,
    /// The search visited more states than `visit_limit`.
    VisitLimitExceeded,
    /// The search kept more bytes than `memory_limit`.
    MemoryLimitExceeded,
}

impl Error {
    /// The error of an outcome that is neither a match nor none. `explain` writes the message of a refusal.
    pub(crate) fn of(outcome: &sys::FancyOutcome, explain: impl FnOnce() -> String) -> Error {
        if let Some(limit) = RuntimeError::of(outcome.code) {
            return Error::RuntimeError(limit);
        }
        if let Some(kind) = ParseError::of(outcome.code) {
            let at = if outcome.byte == sys::FANCY_UNSET {
                0
            } else {
                outcome.byte
            };
            return Error::ParseError(at, kind);
        }
        if outcome.code == sys::FANCY_MEMORY {
            return Error::Memory;
        }
        let at = (outcome.byte != sys::FANCY_UNSET).then_some(outcome.byte);
        let message = without_place(explain(), at);
        match CompileError::of(outcome, &message) {
            Some(kind) => Error::CompileError(Refusal::new(kind, at, message)),
            // The crate passes text that is UTF-8, options of this size, and positions that it checked.
            None => unreachable!(
                "the library returns code {}: is it of the version of this crate?",
                outcome.code
            ),
        }
    }
}

impl Error {
    /// The byte of the pattern, from 0 to its length, where it cannot be read, or where the piece begins that is refused.
    /// `None` if no one piece is refused, or of another error.
    ///
    /// ```
    /// let error = fancy::Regex::new(r"(a)\k<x>").unwrap_err();
    /// assert_eq!(error.offset(), Some(3));
    /// assert_eq!(error.to_string(), "at byte 3: there is no group named 'x'");
    /// ```
    pub fn offset(&self) -> Option<usize> {
        match self {
            Error::ParseError(at, _) => Some(*at),
            Error::CompileError(refusal) => refusal.offset(),
            _ => None,
        }
    }
}

impl Refusal {
    fn new(kind: CompileError, at: Option<usize>, message: String) -> Refusal {
        Refusal(Box::new(Refused { kind, at, message }))
    }

    /// The byte of the pattern, from 0, where the piece begins that is refused; `None` if no one piece is.
    pub fn offset(&self) -> Option<usize> {
        self.0.at
    }
}

impl Deref for Refusal {
    type Target = CompileError;

    fn deref(&self) -> &CompileError {
        &self.0.kind
    }
}

impl PartialEq for Refusal {
    fn eq(&self, other: &Refusal) -> bool {
        **self == **other
    }
}

impl Eq for Refusal {}

/// A message of the library without its place.
fn without_place(message: String, at: Option<usize>) -> String {
    let place = at.map(|at| format!("at byte {at}: "));
    match place.and_then(|place| message.strip_prefix(&place)) {
        Some(rest) => rest.to_string(),
        None => message,
    }
}

impl ParseError {
    fn of(code: u32) -> Option<ParseError> {
        Some(match code {
            sys::FANCY_TREE_FAULT | sys::FANCY_GENERAL_PARSE_ERROR => ParseError::GeneralParseError,
            sys::FANCY_UNCLOSED_OPEN_PAREN => ParseError::UnclosedOpenParen,
            sys::FANCY_UNOPENED_CLOSE_PAREN => ParseError::UnopenedCloseParen,
            sys::FANCY_INVALID_REPEAT => ParseError::InvalidRepeat,
            sys::FANCY_RECURSION_EXCEEDED => ParseError::RecursionExceeded,
            sys::FANCY_TRAILING_BACKSLASH => ParseError::TrailingBackslash,
            sys::FANCY_INVALID_ESCAPE => ParseError::InvalidEscape,
            sys::FANCY_UNCLOSED_UNICODE_NAME => ParseError::UnclosedUnicodeName,
            sys::FANCY_INVALID_HEX => ParseError::InvalidHex,
            sys::FANCY_INVALID_CODEPOINT_VALUE => ParseError::InvalidCodepointValue,
            sys::FANCY_INVALID_CLASS => ParseError::InvalidClass,
            sys::FANCY_UNKNOWN_FLAG => ParseError::UnknownFlag,
            sys::FANCY_NON_UNICODE_UNSUPPORTED => ParseError::NonUnicodeUnsupported,
            sys::FANCY_INVALID_GROUP_NAME => ParseError::InvalidGroupName,
            sys::FANCY_INVALID_GROUP_NAME_BACKREF => ParseError::InvalidGroupNameBackref,
            sys::FANCY_INVALID_BACKREF_NUMBER => ParseError::InvalidBackref,
            sys::FANCY_TARGET_NOT_REPEATABLE => ParseError::TargetNotRepeatable,
            _ => return None,
        })
    }

    fn text(self) -> &'static str {
        match self {
            ParseError::GeneralParseError => "this cannot be read",
            ParseError::UnclosedOpenParen => "a parenthesis is not closed: expected `)`",
            ParseError::UnopenedCloseParen => "this `)` closes no parenthesis",
            ParseError::InvalidRepeat => "the counts of a repetition are out of order or too large",
            ParseError::RecursionExceeded => "parentheses nest deeper than the limit",
            ParseError::TrailingBackslash => {
                "the pattern ends with a backslash: expected a character after it"
            }
            ParseError::InvalidEscape => "there is no escape with this letter",
            ParseError::UnclosedUnicodeName => "a property has no name, or its `}` is missing",
            ParseError::InvalidHex => {
                "expected a hexadecimal digit, or `}` after one to eight of them"
            }
            ParseError::InvalidCodepointValue => "there is no character with this number",
            ParseError::InvalidClass => "a class is not closed: expected `]`",
            ParseError::UnknownFlag => "this is not a flag: expected one of `imsxRUu`",
            ParseError::NonUnicodeUnsupported => "the flag `u` cannot be cleared",
            ParseError::InvalidBackref => "the number of a group is too large",
            ParseError::TargetNotRepeatable => "there is nothing to repeat before this quantifier",
            ParseError::InvalidGroupName => {
                "this is not a group name: expected a letter, `_` or a number, and then what closes it"
            }
            ParseError::InvalidGroupNameBackref => {
                "several groups have this name, so it cannot be called, or more than 100 have it, so it cannot be referred to"
            }
        }
    }
}

impl CompileError {
    fn of(outcome: &sys::FancyOutcome, message: &str) -> Option<CompileError> {
        Some(match outcome.code {
            sys::FANCY_INNER_ERROR => CompileError::InnerError(message.to_string()),
            sys::FANCY_CLASS_TOO_BIG => CompileError::ClassTooBig(message.to_string()),
            sys::FANCY_INVALID_BACKREF => CompileError::InvalidBackref(outcome.group),
            sys::FANCY_NAMED_BACKREF_ONLY => CompileError::NamedBackrefOnly,
            sys::FANCY_FEATURE_NOT_YET_SUPPORTED => CompileError::FeatureNotYetSupported,
            sys::FANCY_SUBROUTINE_CALL_TARGET_NOT_FOUND => {
                CompileError::SubroutineCallTargetNotFound
            }
            sys::FANCY_UNRESOLVED_AST_NODE => CompileError::UnresolvedAstNode,
            sys::FANCY_LEFT_RECURSIVE_SUBROUTINE_CALL => {
                CompileError::LeftRecursiveSubroutineCall(message.to_string())
            }
            sys::FANCY_NEVER_ENDING_RECURSION => CompileError::NeverEndingRecursion,
            sys::FANCY_VARIABLE_LOOK_BEHIND_REQUIRES_FEATURE => {
                CompileError::VariableLookBehindRequiresFeature
            }
            sys::FANCY_PATTERN_TOO_COMPLEX => CompileError::PatternTooComplex,
            sys::FANCY_NEST_LIMIT_EXCEEDED => CompileError::NestLimitExceeded,
            sys::FANCY_ANALYSIS_LIMIT_EXCEEDED => CompileError::AnalysisLimitExceeded,
            _ => return None,
        })
    }
}

impl RuntimeError {
    pub(crate) fn of(code: u32) -> Option<RuntimeError> {
        Some(match code {
            sys::FANCY_STACK_OVERFLOW => RuntimeError::StackOverflow,
            sys::FANCY_BACKTRACK_LIMIT_EXCEEDED => RuntimeError::BacktrackLimitExceeded,
            sys::FANCY_STEP_LIMIT_EXCEEDED => RuntimeError::StepLimitExceeded,
            sys::FANCY_VISIT_LIMIT_EXCEEDED => RuntimeError::VisitLimitExceeded,
            sys::FANCY_MEMORY_LIMIT_EXCEEDED => RuntimeError::MemoryLimitExceeded,
            _ => return None,
        })
    }
}

impl From<CompileError> for Error {
    fn from(kind: CompileError) -> Error {
        let message = kind.to_string();
        Error::CompileError(Refusal::new(kind, None, message))
    }
}

impl From<RuntimeError> for Error {
    fn from(limit: RuntimeError) -> Error {
        Error::RuntimeError(limit)
    }
}

impl fmt::Display for ParseError {
    fn fmt(&self, f: &mut fmt::Formatter<'_>) -> fmt::Result {
        f.write_str(self.text())
    }
}

impl fmt::Display for CompileError {
    fn fmt(&self, f: &mut fmt::Formatter<'_>) -> fmt::Result {
        let text = match self {
            CompileError::InnerError(message)
            | CompileError::ClassTooBig(message)
            | CompileError::LeftRecursiveSubroutineCall(message) => message,
            CompileError::InvalidBackref(group) => return write!(f, "there is no group {group}"),
            CompileError::InvalidGroupNameBackref(name) => {
                return write!(f, "there is no group named '{name}'")
            }
            CompileError::NamedBackrefOnly => {
                "groups have names here, and one is referred to by its number"
            }
            CompileError::FeatureNotYetSupported => "this feature is not supported",
            CompileError::SubroutineCallTargetNotFound => "a call names a group that is not there",
            CompileError::UnresolvedAstNode => "a reference has a name that no group has",
            CompileError::NeverEndingRecursion => "the calls never end",
            CompileError::VariableLookBehindRequiresFeature => {
                "a look-behind matches texts of several lengths"
            }
            CompileError::PatternTooComplex => {
                "the program of the pattern has more instructions than max_prog_size"
            }
            CompileError::NestLimitExceeded => {
                "the pattern, with calls written out, nests deeper than max_nesting"
            }
            CompileError::AnalysisLimitExceeded => {
                "the analysis of the pattern exceeds analysis_limit"
            }
        };
        f.write_str(text)
    }
}

impl fmt::Display for Refusal {
    fn fmt(&self, f: &mut fmt::Formatter<'_>) -> fmt::Result {
        if let Some(at) = self.0.at {
            write!(f, "at byte {at}: ")?;
        }
        f.write_str(&self.0.message)
    }
}

impl fmt::Display for RuntimeError {
    fn fmt(&self, f: &mut fmt::Formatter<'_>) -> fmt::Result {
        f.write_str(match self {
            RuntimeError::StackOverflow => "the search exceeds the limit of 1,000,000 branches",
            RuntimeError::BacktrackLimitExceeded => "the search exceeds the backtrack limit",
            RuntimeError::StepLimitExceeded => "the search exceeds the step limit",
            RuntimeError::VisitLimitExceeded => "the search exceeds the visit limit",
            RuntimeError::MemoryLimitExceeded => "the search exceeds the memory limit",
        })
    }
}

impl fmt::Display for Error {
    fn fmt(&self, f: &mut fmt::Formatter<'_>) -> fmt::Result {
        match self {
            Error::ParseError(at, kind) => write!(f, "at byte {at}: {kind}"),
            Error::CompileError(refusal) => refusal.fmt(f),
            Error::RuntimeError(limit) => limit.fmt(f),
            Error::Memory => f.write_str("out of memory"),
        }
    }
}

impl std::error::Error for Error {}
impl std::error::Error for ParseError {}
impl std::error::Error for CompileError {}
impl std::error::Error for RuntimeError {}
