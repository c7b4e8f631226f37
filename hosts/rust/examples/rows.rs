//! Answers rows as `scripts/write_host_rows` writes them, and prints a line for each, as the library for C does; with a number, on a
//! thread with a stack of BYTES bytes, and with as many nodes in one another as it allows.

use fancy::{Captures, CompileError, Error, Match, Options, ParseError, Regex, Result};
use std::io::{stdin, Lines, StdinLock};

fn text_of(line: &str) -> String {
    let bytes = (0..line.len() / 2).map(|at| {
        u8::from_str_radix(&line[2 * at..2 * at + 2], 16).expect("two hexadecimal digits")
    });
    String::from_utf8(bytes.collect()).expect("a text")
}

/// For how many nodes in one another a stack is enough in these rows.
fn nodes_for(stack: usize) -> usize {
    match stack >> 20 {
        0 => 300,
        1..=3 => 1_000,
        _ => 4_000,
    }
}

/// A tree or a pattern, a text, and what is asked.
struct Row {
    source: String,
    text: String,
    is_pattern: bool,
    options: Options,
    pos: usize,
}

impl Row {
    fn of(source: &str, text: &str, words: &str, stack: usize) -> Row {
        let text = text_of(text);
        // the rows are answered with the limits of the call `search`
        let options = Options::default()
            .max_prog_size(usize::MAX)
            .analysis_limit(0)
            .backtrack_limit(1_000_001 + text.len())
            .step_limit(u64::MAX - 1)
            .max_nesting(nodes_for(stack));
        let mut row = Row {
            source: text_of(source),
            text,
            is_pattern: false,
            options,
            pos: 0,
        };
        row.read_words(words);
        row
    }

    fn read_words(&mut self, line: &str) {
        let mut words = line.split_whitespace();
        let number = |word: Option<&str>| {
            word.and_then(|word| word.parse::<u64>().ok())
                .expect("a number")
        };
        while let Some(word) = words.next() {
            let options = self.options;
            self.options = match word {
                "--compile-anchored" => options.compile_anchored(true),
                "--anchored" => options.anchored(true),
                "--not-continued" => options.not_continued(true),
                "--not-empty" => options.not_empty(true),
                "--end-text" => options.end_text(true),
                "--ascii" => options.ascii(true),
                "--longest" => options.longest(true),
                "--case-insensitive" => options.case_insensitive(true),
                "--multi-line" => options.multi_line(true),
                "--dot-matches-new-line" => options.dot_matches_new_line(true),
                "--ignore-whitespace" => options.ignore_whitespace(true),
                "--crlf" => options.crlf(true),
                "--swap-greed" => options.swap_greed(true),
                "--oniguruma" => options.oniguruma(true),
                "--named-groups-only" => options.named_groups_only(true),
                "--backtracks" => options.backtrack_limit(number(words.next()) as usize),
                "--steps" => options.step_limit(number(words.next())),
                "--max-prog" => options.max_prog_size(number(words.next()) as usize),
                "--pattern" => {
                    self.is_pattern = true;
                    options
                }
                start => {
                    self.pos = number(Some(start)) as usize;
                    options
                }
            };
        }
    }

    /// The first match of a tree, or all matches of a pattern.
    fn answer(&self) -> Result<String> {
        if self.is_pattern {
            let regex = Regex::with_options(&self.source, self.options)?;
            let matches = regex.captures_iter(&self.text);
            let lines = matches.map(|found| Ok(set_groups(&found?)));
            return Ok(lines.collect::<Result<Vec<_>>>()?.join(", "));
        }
        let regex = Regex::of_tree(&self.source, self.options)?;
        let captures = regex.captures_from_pos(&self.text, self.pos)?;
        Ok(captures.map_or("none".to_string(), |captures| all_groups(&captures)))
    }

    fn line(&self) -> String {
        self.answer()
            .unwrap_or_else(|error| name_of(error, self.is_pattern))
    }
}

/// Start and end of each group.
fn all_groups(captures: &Captures<'_>) -> String {
    let spans = captures.iter().map(|group| match group {
        Some(found) => format!("{} {}", found.start(), found.end()),
        None => "- -".to_string(),
    });
    spans.collect::<Vec<_>>().join(" ")
}

/// Start and end of a match, and of each group that is set, with its number.
fn set_groups(captures: &Captures<'_>) -> String {
    let span = |found: Match<'_>| format!("{}-{}", found.start(), found.end());
    let groups = captures.iter().enumerate();
    let spans = groups.filter_map(|(number, group)| match number {
        0 => group.map(span),
        _ => group.map(|group| format!("{number}:{}", span(group))),
    });
    spans.collect::<Vec<_>>().join(" ")
}

/// The name of an error with its detail.
fn name_of(error: Error, is_pattern: bool) -> String {
    match error {
        Error::ParseError(at, ParseError::GeneralParseError) if !is_pattern => {
            format!("TreeFault {at}")
        }
        Error::ParseError(_, kind) if !is_pattern => format!("{kind:?}"),
        Error::ParseError(at, ParseError::InvalidBackref) => format!("InvalidBackrefNumber {at}"),
        Error::ParseError(at, kind) => format!("{kind:?} {at}"),
        Error::RuntimeError(limit) => format!("{limit:?}"),
        Error::CompileError(refusal) => match &*refusal {
            CompileError::InvalidBackref(group) => format!("InvalidBackref {group}"),
            // what it carries is text
            refusal => {
                let name = format!("{refusal:?}");
                name.split('(').next().unwrap_or_default().to_string()
            }
        },
        error => format!("{error:?}"),
    }
}

fn print_rows(mut lines: Lines<StdinLock<'_>>, stack: usize) {
    let mut next = || lines.next().map(|line| line.expect("a line"));
    while let (Some(source), Some(text), Some(words)) = (next(), next(), next()) {
        println!("{}", Row::of(&source, &text, &words, stack).line());
    }
}

fn main() {
    let word = std::env::args().nth(1);
    let stack = word.and_then(|word| word.parse().ok()).unwrap_or(8 << 20);
    let thread = std::thread::Builder::new().stack_size(stack);
    let joined = thread
        .spawn(move || print_rows(stdin().lines(), stack))
        .expect("a thread")
        .join();
    joined.expect("every row answered");
}
