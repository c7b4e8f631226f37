//! The calls of `fancy.h`, as they are; the header says what each does and what its caller owes.
//!
//! The crate `fancy` has safe calls over these. A pointer may not be null here, also where its length is 0.

#![no_std]
#![allow(missing_docs)]

use core::ffi::c_char;

/// What `fancy_program` holds: a compiled pattern or tree, or nothing. Its words are the library's affair.
#[repr(C)]
#[derive(Debug)]
pub struct FancyProgram {
    pub words: [usize; 3],
}

/// A program that holds nothing: each begins with it.
pub const FANCY_NOTHING: FancyProgram = FancyProgram { words: [0; 3] };

/// What `fancy_scanner` holds: patterns that are searched for together, or none. Its words are the library's affair.
#[repr(C)]
#[derive(Debug)]
pub struct FancyScanner {
    pub words: [usize; 3],
}

/// A scanner without patterns: each begins with it.
pub const FANCY_NO_PATTERNS: FancyScanner = FancyScanner { words: [0; 3] };

/// Where the numbers of a match are in its row.
pub const FANCY_ROW_PATTERN: usize = 0;
pub const FANCY_ROW_STOPPED: usize = 1;
pub const FANCY_ROW_LIMIT: usize = 2;
pub const FANCY_ROW_SPANS: usize = 3;

/// The options of the compiler and of a search; begin with [`fancy_default_options`].
#[repr(C)]
#[derive(Clone, Copy, Debug, PartialEq, Eq)]
pub struct FancyOptions {
    pub size: usize,
    pub pos: usize,
    pub max_prog_size: usize,
    pub max_nesting: usize,
    pub max_depth: usize,
    pub backtrack_limit: usize,
    pub step_limit: u64,
    pub compile_anchored: bool,
    pub anchored: bool,
    pub not_continued: bool,
    pub not_empty: bool,
    pub end_text: bool,
    pub ascii: bool,
    pub longest: bool,
    pub case_insensitive: bool,
    pub multi_line: bool,
    pub dot_matches_new_line: bool,
    pub ignore_whitespace: bool,
    pub crlf: bool,
    pub swap_greed: bool,
    pub oniguruma: bool,
    pub named_groups_only: bool,
    pub text_is_utf8: bool,
    pub visit_limit: u64,
    pub memory_limit: usize,
    pub analysis_limit: usize,
    pub reserved: [u64; 1],
}

/// What a call returns.
#[repr(C)]
#[derive(Clone, Copy, Debug, PartialEq, Eq)]
pub struct FancyOutcome {
    pub code: u32,
    pub byte: usize,
    pub group: usize,
    pub count: usize,
    pub next: usize,
}

/// How far a list of all matches has come.
#[repr(C)]
#[derive(Clone, Copy, Debug, PartialEq, Eq)]
pub struct FancyCursor {
    pub pos: usize,
    pub last: usize,
    pub has_last: bool,
}

/// The start of a list, at the start of the text.
pub const FANCY_FIRST: FancyCursor = FancyCursor {
    pos: 0,
    last: 0,
    has_last: false,
};

/// A group that is not set, a detail that an outcome does not have, and a limit of backtracks that is not given.
pub const FANCY_UNSET: usize = usize::MAX;

pub const FANCY_OK: u32 = 0;
pub const FANCY_NO_MATCH: u32 = 1;
pub const FANCY_NO_PROGRAM: u32 = 2;
pub const FANCY_NOT_UTF8: u32 = 3;
pub const FANCY_UNFIT: u32 = 4;
pub const FANCY_MEMORY: u32 = 5;
pub const FANCY_TREE_FAULT: u32 = 6;
pub const FANCY_BACKTRACK_LIMIT_EXCEEDED: u32 = 7;
pub const FANCY_STACK_OVERFLOW: u32 = 8;
pub const FANCY_STEP_LIMIT_EXCEEDED: u32 = 9;
pub const FANCY_NAMED_BACKREF_ONLY: u32 = 10;
pub const FANCY_FEATURE_NOT_YET_SUPPORTED: u32 = 11;
pub const FANCY_SUBROUTINE_CALL_TARGET_NOT_FOUND: u32 = 12;
pub const FANCY_UNRESOLVED_AST_NODE: u32 = 13;
pub const FANCY_INVALID_BACKREF: u32 = 14;
pub const FANCY_LEFT_RECURSIVE_SUBROUTINE_CALL: u32 = 15;
pub const FANCY_NEVER_ENDING_RECURSION: u32 = 16;
pub const FANCY_VARIABLE_LOOK_BEHIND_REQUIRES_FEATURE: u32 = 17;
pub const FANCY_INNER_ERROR: u32 = 18;
pub const FANCY_CLASS_TOO_BIG: u32 = 19;
pub const FANCY_PATTERN_TOO_COMPLEX: u32 = 20;
pub const FANCY_RECURSION_EXCEEDED: u32 = 21;
pub const FANCY_NEST_LIMIT_EXCEEDED: u32 = 22;
pub const FANCY_UNCLOSED_OPEN_PAREN: u32 = 23;
pub const FANCY_UNOPENED_CLOSE_PAREN: u32 = 24;
pub const FANCY_INVALID_REPEAT: u32 = 25;
pub const FANCY_TRAILING_BACKSLASH: u32 = 26;
pub const FANCY_INVALID_ESCAPE: u32 = 27;
pub const FANCY_UNCLOSED_UNICODE_NAME: u32 = 28;
pub const FANCY_INVALID_HEX: u32 = 29;
pub const FANCY_INVALID_CODEPOINT_VALUE: u32 = 30;
pub const FANCY_INVALID_CLASS: u32 = 31;
pub const FANCY_UNKNOWN_FLAG: u32 = 32;
pub const FANCY_NON_UNICODE_UNSUPPORTED: u32 = 33;
pub const FANCY_INVALID_GROUP_NAME: u32 = 34;
pub const FANCY_INVALID_GROUP_NAME_BACKREF: u32 = 35;
pub const FANCY_INVALID_BACKREF_NUMBER: u32 = 36;
pub const FANCY_TARGET_NOT_REPEATABLE: u32 = 37;
pub const FANCY_GENERAL_PARSE_ERROR: u32 = 38;
pub const FANCY_WRONG_SIZE: u32 = 39;
pub const FANCY_NO_ROOM: u32 = 40;
pub const FANCY_VISIT_LIMIT_EXCEEDED: u32 = 41;
pub const FANCY_MEMORY_LIMIT_EXCEEDED: u32 = 42;
pub const FANCY_ANALYSIS_LIMIT_EXCEEDED: u32 = 43;

extern "C" {
    pub fn fancy_default_options() -> FancyOptions;

    pub fn fancy_version(version: *mut c_char, room: usize) -> usize;

    pub fn fancy_compile_pattern(
        pattern: *const c_char,
        pattern_length: usize,
        options: *const FancyOptions,
        program: *mut FancyProgram,
    ) -> FancyOutcome;

    pub fn fancy_compile(
        tree: *const c_char,
        tree_length: usize,
        options: *const FancyOptions,
        program: *mut FancyProgram,
    ) -> FancyOutcome;

    pub fn fancy_clone(program: *mut FancyProgram, copy: *mut FancyProgram) -> FancyOutcome;

    pub fn fancy_free(program: *mut FancyProgram);

    pub fn fancy_group_count(program: *const FancyProgram) -> usize;

    pub fn fancy_group_name(
        program: *mut FancyProgram,
        group: usize,
        name: *mut c_char,
        room: usize,
    ) -> usize;

    pub fn fancy_groups_named(
        program: *mut FancyProgram,
        name: *const c_char,
        name_length: usize,
        groups: *mut usize,
        room: usize,
    ) -> usize;

    pub fn fancy_is_match(
        program: *mut FancyProgram,
        text: *const c_char,
        text_length: usize,
        options: *const FancyOptions,
    ) -> FancyOutcome;

    pub fn fancy_find(
        program: *mut FancyProgram,
        text: *const c_char,
        text_length: usize,
        options: *const FancyOptions,
        spans: *mut usize,
        spans_length: usize,
    ) -> FancyOutcome;

    pub fn fancy_find_all(
        program: *mut FancyProgram,
        text: *const c_char,
        text_length: usize,
        options: *const FancyOptions,
        cursor: *mut FancyCursor,
        spans: *mut usize,
        spans_length: usize,
    ) -> FancyOutcome;

    pub fn fancy_captures_all(
        program: *mut FancyProgram,
        text: *const c_char,
        text_length: usize,
        options: *const FancyOptions,
        cursor: *mut FancyCursor,
        spans: *mut usize,
        spans_length: usize,
    ) -> FancyOutcome;

    pub fn fancy_scanner_add(
        scanner: *mut FancyScanner,
        pattern: *const c_char,
        pattern_length: usize,
        options: *const FancyOptions,
    ) -> FancyOutcome;

    pub fn fancy_scan(
        scanner: *mut FancyScanner,
        text: *const c_char,
        text_length: usize,
        options: *const FancyOptions,
        pos: *mut usize,
        groups: usize,
        rows: *mut usize,
        rows_length: usize,
    ) -> FancyOutcome;

    pub fn fancy_scanner_free(scanner: *mut FancyScanner);

    pub fn fancy_replace(
        program: *mut FancyProgram,
        text: *const c_char,
        text_length: usize,
        options: *const FancyOptions,
        replacement: *const c_char,
        replacement_length: usize,
        is_literal: bool,
        limit: usize,
        into: *mut c_char,
        room: usize,
    ) -> FancyOutcome;

    pub fn fancy_error_name(code: u32, name: *mut c_char, room: usize) -> usize;

    pub fn fancy_error_message(
        outcome: *const FancyOutcome,
        message: *mut c_char,
        room: usize,
    ) -> usize;

    pub fn fancy_explain_pattern(
        pattern: *const c_char,
        pattern_length: usize,
        options: *const FancyOptions,
        message: *mut c_char,
        room: usize,
    ) -> usize;
}
