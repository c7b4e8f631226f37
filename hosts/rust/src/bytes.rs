//! Texts of bytes that need not be UTF-8.

use crate::captures::{Captures, Match};
use crate::error::Result;
use crate::regex::{Names, Regex};
use std::borrow::Cow;
use std::fmt;
use std::ops::{Index, Range};
use std::sync::Arc;

/// How bytes are read as a text.
#[derive(Clone, Copy, Debug, Default, PartialEq, Eq)]
pub enum BytesMode {
    /// As UTF-8. Bytes that are no UTF-8 are read as under `UnicodeBytes`.
    #[default]
    Unicode,
    /// As UTF-8. Each sequence that is none reads as one U+FFFD, as by [`String::from_utf8_lossy`].
    UnicodeBytes,
    /// Each byte is one character, with its number: the byte `E9` is matched by `é`, by `\xE9` and by `.`. Only ASCII letters
    /// are letters, digits and blanks; but under the flag `i` an `é` is an `É`.
    Ascii,
}

/// A word boundary among ASCII letters.
const BOUNDARY: &str = "(?:(?<=[0-9A-Za-z_])(?![0-9A-Za-z_])|(?<![0-9A-Za-z_])(?=[0-9A-Za-z_]))";

/// A pattern in which `\w`, `\d`, `\s`, `\b` and those in capitals are of ASCII letters.
pub(crate) fn over_ascii(pattern: &str) -> String {
    let mut written = String::with_capacity(pattern.len());
    let mut rest = pattern;
    // how many classes are open
    let mut depth = 0usize;
    while let Some(first) = rest.chars().next() {
        let length = match first {
            '(' if depth == 0 && rest.starts_with("(?#") => end_of_comment(rest),
            '\\' => 1 + rest[1..].chars().next().map_or(0, char::len_utf8),
            _ => first.len_utf8(),
        };
        let (token, after) = rest.split_at(length);
        match token {
            "[" => depth += 1,
            "]" => depth = depth.saturating_sub(1),
            _ => {}
        }
        match token {
            "\\w" => written.push_str("[0-9A-Za-z_]"),
            "\\W" => written.push_str("[^0-9A-Za-z_]"),
            "\\d" => written.push_str("[0-9]"),
            "\\D" => written.push_str("[^0-9]"),
            "\\s" => written.push_str(r"[\x09-\x0D\x20]"),
            "\\S" => written.push_str(r"[^\x09-\x0D\x20]"),
            "\\b" if depth == 0 && !after.starts_with('{') => written.push_str(BOUNDARY),
            "\\B" if depth == 0 && !after.starts_with('{') => {
                written.push_str("(?!");
                written.push_str(BOUNDARY);
                written.push(')');
            }
            _ => written.push_str(token),
        }
        rest = after;
        // what comes first in a class is itself
        if token == "[" {
            for itself in ["^", "]"] {
                if let Some(after) = rest.strip_prefix(itself) {
                    written.push_str(itself);
                    rest = after;
                }
            }
        }
    }
    written
}

/// How long the comment is with which a text begins.
fn end_of_comment(text: &str) -> usize {
    let mut is_escaped = false;
    let end = text.bytes().position(|byte| {
        let ends = byte == b')' && !is_escaped;
        is_escaped = byte == b'\\' && !is_escaped;
        ends
    });
    end.map_or(text.len(), |end| end + 1)
}

/// Bytes that can be searched as a text; bytes that are such a text already are not copied.
///
/// ```
/// # fn main() -> fancy::Result<()> {
/// use fancy::{ByteText, Regex};
///
/// let text = ByteText::new(b"caf\xE9 42");
/// let found = text.find(&Regex::new("[0-9]+")?)?.unwrap();
/// assert_eq!((found.range(), found.as_bytes()), (5..7, &b"42"[..]));
/// # Ok(())
/// # }
/// ```
#[derive(Clone, Debug)]
pub struct ByteText<'b> {
    bytes: &'b [u8],
    text: Cow<'b, str>,
    places: Places,
}

/// How many bytes are between two marks.
const STEP: usize = 128;

/// Where places of the text are in the bytes.
#[derive(Clone, Debug)]
enum Places {
    /// Where each U+FFFD ends that stands for bytes: in the text, and in the bytes.
    Ends(Vec<(usize, usize)>),
    /// Each character is a byte: where each 128th one begins in the text.
    Marks(Vec<usize>),
}

impl<'b> ByteText<'b> {
    /// Reads the bytes as UTF-8, with U+FFFD for what is none.
    pub fn new(bytes: &'b [u8]) -> ByteText<'b> {
        ByteText::with_mode(bytes, BytesMode::UnicodeBytes)
    }

    /// Reads the bytes so.
    pub fn with_mode(bytes: &'b [u8], mode: BytesMode) -> ByteText<'b> {
        match mode {
            BytesMode::Ascii if !bytes.is_ascii() => ByteText::of_characters(bytes),
            _ => ByteText::of_utf8(bytes),
        }
    }

    fn of_characters(bytes: &'b [u8]) -> ByteText<'b> {
        let mut text = String::with_capacity(bytes.len());
        let mut marks = Vec::with_capacity(bytes.len() / STEP + 1);
        for (number, &byte) in bytes.iter().enumerate() {
            if number % STEP == 0 {
                marks.push(text.len());
            }
            text.push(char::from(byte));
        }
        ByteText {
            bytes,
            text: Cow::Owned(text),
            places: Places::Marks(marks),
        }
    }

    fn of_utf8(bytes: &'b [u8]) -> ByteText<'b> {
        let mut ends = Vec::new();
        let mut text = Cow::Borrowed("");
        let mut rest = bytes;
        loop {
            match std::str::from_utf8(rest) {
                Ok(last) => {
                    text += last;
                    break;
                }
                Err(error) => {
                    let start = error.valid_up_to();
                    let length = error.error_len().unwrap_or(rest.len() - start);
                    text += String::from_utf8_lossy(&rest[..start]);
                    text += "\u{FFFD}";
                    rest = &rest[start + length..];
                    ends.push((text.len(), bytes.len() - rest.len()));
                }
            }
        }
        ByteText {
            bytes,
            text,
            places: Places::Ends(ends),
        }
    }

    /// The text to search.
    pub fn as_str(&self) -> &str {
        &self.text
    }

    /// Where a byte of the text is in the bytes, if a character of the text begins or ends there.
    pub fn offset(&self, at: usize) -> usize {
        match &self.places {
            Places::Ends(ends) => match ends.partition_point(|&(end, _)| end <= at) {
                0 => at,
                before => ends[before - 1].1 + (at - ends[before - 1].0),
            },
            Places::Marks(marks) => {
                let mark = marks.partition_point(|&mark| mark <= at).saturating_sub(1);
                let inner = &self.text.as_bytes()[marks[mark]..at];
                mark * STEP + inner.iter().filter(|&&byte| byte & 0xC0 != 0x80).count()
            }
        }
    }

    /// Where a byte of the bytes is in the text; of one inside a character, where the next character is, and of one past the
    /// end, the end.
    pub fn place(&self, at: usize) -> usize {
        let place = match &self.places {
            Places::Ends(ends) => match ends.partition_point(|&(_, end)| end <= at) {
                0 => at,
                before => ends[before - 1].0 + (at - ends[before - 1].1),
            },
            Places::Marks(marks) => match marks.get(at / STEP) {
                Some(mark) => {
                    let rest = self.text[*mark..].char_indices();
                    let found = { rest }.nth(at % STEP);
                    found.map_or(self.text.len(), |(inner, _)| mark + inner)
                }
                None => self.text.len(),
            },
        };
        let end = self.text.len();
        (place.min(end)..end)
            .find(|&it| self.text.is_char_boundary(it))
            .unwrap_or(end)
    }

    /// Where a match of the text is in the bytes.
    pub fn range(&self, found: &Match<'_>) -> Range<usize> {
        self.offset(found.start())..self.offset(found.end())
    }

    /// The bytes of a match of the text.
    pub fn bytes(&self, found: &Match<'_>) -> &'b [u8] {
        &self.bytes[self.range(found)]
    }

    fn match_of(&self, found: &Match<'_>) -> ByteMatch<'b> {
        ByteMatch {
            bytes: self.bytes,
            range: self.range(found),
        }
    }

    fn captures_of(&self, found: &Captures<'_>) -> ByteCaptures<'b> {
        ByteCaptures {
            groups: found
                .iter()
                .map(|it| it.map(|it| self.match_of(&it)))
                .collect(),
            names: found.names(),
        }
    }

    // ---- Searches

    /// Finds the first match, as [`Regex::find`] does.
    ///
    /// # Errors
    ///
    /// Of this and of each other search: those of [`Regex::is_match`].
    pub fn find(&self, regex: &Regex) -> Result<Option<ByteMatch<'b>>> {
        Ok(regex.find(&self.text)?.map(|it| self.match_of(&it)))
    }

    /// Finds the first match that starts at byte `pos` of the bytes or later; a position inside a character is that of the next
    /// one.
    ///
    /// # Errors
    ///
    /// Those of [`Regex::is_match`].
    pub fn find_from_pos(&self, regex: &Regex, pos: usize) -> Result<Option<ByteMatch<'b>>> {
        let found = regex.find_from_pos(&self.text, self.place(pos))?;
        Ok(found.map(|it| self.match_of(&it)))
    }

    /// Finds the first match that starts at byte `pos` of the bytes or later, with its groups.
    ///
    /// # Errors
    ///
    /// Those of [`Regex::is_match`].
    pub fn captures_from_pos(&self, regex: &Regex, pos: usize) -> Result<Option<ByteCaptures<'b>>> {
        let found = regex.captures_from_pos(&self.text, self.place(pos))?;
        Ok(found.map(|it| self.captures_of(&it)))
    }

    /// The matches from left to right, as [`Regex::find_iter`] gives them.
    pub fn find_iter<'r>(
        &'r self,
        regex: &'r Regex,
    ) -> impl Iterator<Item = Result<ByteMatch<'b>>> + 'r {
        let matches = regex.find_iter(&self.text);
        matches.map(|it| it.map(|it| self.match_of(&it)))
    }

    /// The matches of [`find_iter`](ByteText::find_iter), each with its groups.
    pub fn captures_iter<'r>(
        &'r self,
        regex: &'r Regex,
    ) -> impl Iterator<Item = Result<ByteCaptures<'b>>> + 'r {
        let matches = regex.captures_iter(&self.text);
        matches.map(|it| it.map(|it| self.captures_of(&it)))
    }

    /// The bytes with each match replaced by what a closure returns for it.
    ///
    /// # Errors
    ///
    /// Those of [`Regex::is_match`].
    ///
    /// ```
    /// # fn main() -> fancy::Result<()> {
    /// use fancy::{ByteText, Regex};
    ///
    /// let text = ByteText::new(b"\xFF 4 2");
    /// assert_eq!(text.replace_all(&Regex::new("[0-9]")?, |it| [it[0].as_bytes(), b"!"].concat())?, b"\xFF 4! 2!");
    /// # Ok(())
    /// # }
    /// ```
    pub fn replace_all<R: AsRef<[u8]>>(
        &self,
        regex: &Regex,
        mut replace: impl FnMut(&ByteCaptures<'b>) -> R,
    ) -> Result<Vec<u8>> {
        let mut new = Vec::with_capacity(self.bytes.len());
        let mut end = 0;
        for captures in self.captures_iter(regex) {
            let captures = captures?;
            new.extend_from_slice(&self.bytes[end..captures[0].start()]);
            new.extend_from_slice(replace(&captures).as_ref());
            end = captures[0].end();
        }
        new.extend_from_slice(&self.bytes[end..]);
        Ok(new)
    }
}

/// A match in bytes, or what a group captured there. Positions are in bytes, from 0.
#[derive(Clone, PartialEq, Eq)]
pub struct ByteMatch<'b> {
    bytes: &'b [u8],
    range: Range<usize>,
}

impl<'b> ByteMatch<'b> {
    /// The byte where the match begins.
    pub fn start(&self) -> usize {
        self.range.start
    }

    /// The byte where the match ends: the first one after it.
    pub fn end(&self) -> usize {
        self.range.end
    }

    /// The bytes of the match, by their numbers.
    pub fn range(&self) -> Range<usize> {
        self.range.clone()
    }

    /// The bytes of the match.
    pub fn as_bytes(&self) -> &'b [u8] {
        &self.bytes[self.range()]
    }
}

impl fmt::Debug for ByteMatch<'_> {
    fn fmt(&self, f: &mut fmt::Formatter<'_>) -> fmt::Result {
        f.debug_struct("ByteMatch")
            .field("start", &self.start())
            .field("end", &self.end())
            .field("bytes", &self.as_bytes())
            .finish()
    }
}

/// A match in bytes with its groups. Group 0 is the match itself.
#[derive(Clone)]
pub struct ByteCaptures<'b> {
    groups: Vec<Option<ByteMatch<'b>>>,
    names: Arc<Names>,
}

#[allow(clippy::len_without_is_empty)] // there is always group 0
impl<'b> ByteCaptures<'b> {
    /// What the group with this number captured. `None` if the group is not set, or if there is no such group.
    pub fn get(&self, i: usize) -> Option<&ByteMatch<'b>> {
        self.groups.get(i)?.as_ref()
    }

    /// What the group with this name captured; of several groups with the name, the first that is set.
    pub fn name(&self, name: &str) -> Option<&ByteMatch<'b>> {
        self.names.numbers(name).find_map(|number| self.get(number))
    }

    /// What the groups captured, from group 0 on.
    pub fn iter(&self) -> impl Iterator<Item = Option<&ByteMatch<'b>>> + '_ {
        self.groups.iter().map(Option::as_ref)
    }

    /// How many groups the pattern has, set or not, with group 0.
    pub fn len(&self) -> usize {
        self.groups.len()
    }
}

impl fmt::Debug for ByteCaptures<'_> {
    fn fmt(&self, f: &mut fmt::Formatter<'_>) -> fmt::Result {
        f.debug_list().entries(self.iter()).finish()
    }
}

/// What a group captured, by its number.
///
/// # Panics
///
/// If the group is not set, or not there.
impl<'b> Index<usize> for ByteCaptures<'b> {
    type Output = ByteMatch<'b>;

    fn index(&self, i: usize) -> &ByteMatch<'b> {
        match self.get(i) {
            Some(group) => group,
            None => panic!("no group at index '{i}'"),
        }
    }
}

/// Bytes, or a `str`, with the byte where a search begins.
///
/// ```
/// # fn main() -> fancy::Result<()> {
/// use fancy::{BytesMode, RegexBuilder, RegexInput};
///
/// let number = RegexBuilder::new(r"\xFF(?<number>\d+)").bytes_mode(BytesMode::Ascii).build()?;
/// let found = number.captures_input(&RegexInput::new(b"\xFF1 \xFF22").from_pos(1))?.unwrap();
/// assert_eq!(found.name("number").unwrap().range(), 4..6);
/// # Ok(())
/// # }
/// ```
#[derive(Clone, Copy, Debug)]
pub struct RegexInput<'h> {
    haystack: &'h [u8],
    pos: usize,
}

impl<'h> RegexInput<'h> {
    /// All of the bytes.
    pub fn new<H: AsRef<[u8]> + ?Sized>(haystack: &'h H) -> RegexInput<'h> {
        RegexInput {
            haystack: haystack.as_ref(),
            pos: 0,
        }
    }

    /// The same bytes, of which a search begins at this one. Look-behind, `\b` and `^` see what is before.
    #[must_use]
    pub fn from_pos(self, pos: usize) -> RegexInput<'h> {
        RegexInput { pos, ..self }
    }

    /// The bytes.
    pub fn haystack(&self) -> &'h [u8] {
        self.haystack
    }

    /// The byte where a search begins.
    pub fn pos(&self) -> usize {
        self.pos
    }
}

/// Searches in bytes, which [`RegexBuilder::bytes_mode`](crate::RegexBuilder::bytes_mode) says how to read. Each reads all of the
/// bytes, in linear time: for several searches in the same bytes make a [`ByteText`] of them. There is no match from a byte past
/// the end.
impl Regex {
    fn in_input<'h, T>(
        &self,
        input: &RegexInput<'h>,
        search: impl FnOnce(&ByteText<'h>) -> Result<Option<T>>,
    ) -> Result<Option<T>> {
        if input.pos > input.haystack.len() {
            return Ok(None);
        }
        search(&ByteText::with_mode(input.haystack, self.bytes_mode()))
    }

    /// Whether there is a match.
    ///
    /// # Errors
    ///
    /// Those of [`Regex::is_match`].
    pub fn is_match_input(&self, input: &RegexInput<'_>) -> Result<bool> {
        Ok(self.find_input(input)?.is_some())
    }

    /// Finds the first match.
    ///
    /// # Errors
    ///
    /// Those of [`Regex::is_match`].
    pub fn find_input<'h>(&self, input: &RegexInput<'h>) -> Result<Option<ByteMatch<'h>>> {
        self.in_input(input, |text| text.find_from_pos(self, input.pos))
    }

    /// Finds the first match, with its groups.
    ///
    /// # Errors
    ///
    /// Those of [`Regex::is_match`].
    pub fn captures_input<'h>(&self, input: &RegexInput<'h>) -> Result<Option<ByteCaptures<'h>>> {
        self.in_input(input, |text| text.captures_from_pos(self, input.pos))
    }
}

#[cfg(test)]
mod tests {
    use super::*;

    /// Each character of the text, with the bytes that it stands for.
    fn pieces(bytes: &[u8]) -> Vec<(char, &[u8])> {
        let text = ByteText::new(bytes);
        assert_eq!(text.as_str(), String::from_utf8_lossy(bytes));
        let chars = text.as_str().char_indices();
        chars
            .map(|(at, it)| (it, &bytes[text.offset(at)..text.offset(at + it.len_utf8())]))
            .collect()
    }

    #[test]
    fn bytes_that_are_no_utf8_read_as_one_character() {
        assert_eq!(pieces(b""), []);
        assert_eq!(
            pieces("a\u{e9}".as_bytes()),
            [('a', &b"a"[..]), ('\u{e9}', b"\xC3\xA9")]
        );
        assert_eq!(
            pieces(b"\xFFa\x80"),
            [
                ('\u{FFFD}', &b"\xFF"[..]),
                ('a', b"a"),
                ('\u{FFFD}', b"\x80")
            ]
        );
        // the first two bytes of a character of three, before another and at the end
        assert_eq!(
            pieces(b"\xE2\x82x\xE2\x82"),
            [
                ('\u{FFFD}', &b"\xE2\x82"[..]),
                ('x', b"x"),
                ('\u{FFFD}', b"\xE2\x82")
            ]
        );
        assert_eq!(
            pieces(b"\xEF\xBF\xBDx"),
            [('\u{FFFD}', &b"\xEF\xBF\xBD"[..]), ('x', b"x")]
        );
    }

    /// Each character of bytes that are read one by one, and each place of theirs.
    #[test]
    fn bytes_are_characters() {
        for length in [0, 1, 127, 128, 129, 1000] {
            let bytes: Vec<u8> = (0..length).map(|it| (it * 37 % 256) as u8).collect();
            let text = ByteText::with_mode(&bytes, BytesMode::Ascii);
            let wanted: String = bytes.iter().map(|&it| char::from(it)).collect();
            assert_eq!(text.as_str(), wanted);
            for (number, (at, _)) in wanted.char_indices().enumerate() {
                assert_eq!((text.offset(at), text.place(number)), (number, at));
            }
            assert_eq!(text.offset(wanted.len()), length);
            assert_eq!(
                (text.place(length), text.place(length + 9)),
                (wanted.len(), wanted.len())
            );
        }
    }

    #[test]
    fn a_place_inside_a_character_is_the_next_one() {
        let text = ByteText::new(b"a\xC3\xA9\xE2\x82b\xFF");
        let places: Vec<_> = (0..9).map(|at| text.place(at)).collect();
        assert_eq!(places, [0, 1, 3, 3, 6, 6, 7, 10, 10]);
    }

    #[test]
    fn escapes_are_of_ascii() {
        let word = "[0-9A-Za-z_]";
        assert_eq!(over_ascii(r"\w\\w[\d]é"), format!(r"{word}\\w[[0-9]]é"));
        assert_eq!(over_ascii(r"[]\b]\b"), format!(r"[]\b]{BOUNDARY}"));
        assert_eq!(
            over_ascii(r"(?#\))\B[^][a]]\b{start}\"),
            format!(r"(?#\))(?!{BOUNDARY})[^][a]]\b{{start}}\")
        );
    }

    #[test]
    fn bytes_that_are_utf8_are_not_copied() {
        assert!(matches!(ByteText::new(b"abc").text, Cow::Borrowed("abc")));
    }
}
