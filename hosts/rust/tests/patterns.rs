//! The names of fancy-regex over the library. Expected values are by the syntax of patterns, and by hand.

use fancy::{
    escape, ByteText, BytesMode, Captures, CompileError, Error, Expander, NoExpand, Options,
    ParseError, Regex, RegexBuilder, RegexInput, Replacer, Result, RuntimeError, Scanner, Stopped,
};
use std::borrow::Cow;
use std::fmt::Debug;
use std::thread;

fn spans(pattern: &str, text: &str) -> Vec<(usize, usize)> {
    let regex = Regex::new(pattern).unwrap();
    let alone: Vec<_> = regex
        .find_iter(text)
        .map(|it| it.unwrap())
        .map(|it| (it.start(), it.end()))
        .collect();
    let with_group = Regex::new(&format!("(?:{pattern})()")).unwrap();
    let with_groups = with_group
        .captures_iter(text)
        .map(|it| it.unwrap().get(0).unwrap().range());
    assert_eq!(
        alone,
        with_groups.map(|it| (it.start, it.end)).collect::<Vec<_>>(),
        "{pattern} {text}"
    );
    alone
}

#[test]
fn a_regex_goes_to_threads() {
    fn is_shared<T: Send + Sync + Clone + Debug>() {}
    is_shared::<Regex>();
    let regex = Regex::new(r"(\d+)-(\d+)").unwrap();
    thread::scope(|scope| {
        for number in 0..8 {
            let regex = &regex;
            scope.spawn(move || {
                for step in 0..300 {
                    let text = format!("a {number}-{step} b");
                    let captures = regex.captures(&text).unwrap().unwrap();
                    assert_eq!(captures[1], number.to_string());
                    assert_eq!(captures[2], step.to_string());
                }
            });
        }
    });
    assert_eq!(
        format!("{:?} {}", regex.clone(), regex),
        r"(\d+)-(\d+) (\d+)-(\d+)"
    );
}

#[test]
fn matches_of_patterns() {
    for (pattern, text, start, end) in [
        (r"a(b|bc)d", "xabcd", 1, 5),
        (r"\b([a-z]+) \1\b", "it was was so", 3, 10),
        (r"(?<=\$)[0-9]+", "cost $42", 6, 8),
        (r"(\((?:[^()]|\g<1>)*\))", "f(a(b)c)+1", 1, 8),
        (r"(<)?b(?(1)>)", "<b b", 1, 2),
    ] {
        let found = Regex::new(pattern).unwrap().find(text).unwrap().unwrap();
        assert_eq!(
            (found.range(), found.as_str()),
            (start..end, &text[start..end]),
            "{pattern}"
        );
    }
}

#[test]
fn all_matches() {
    assert_eq!(spans("a*", "aab"), [(0, 2), (3, 3)]);
    assert_eq!(spans("", "é"), [(0, 0), (2, 2)]);
    assert_eq!(spans(r"\Ga", "aab a"), [(0, 1), (1, 2)]);
    assert_eq!(spans(r"\d|", "1é2"), [(0, 1), (3, 4)]);
    assert_eq!(spans(r"a\K", "aaa"), [(1, 1), (3, 3)]);
    assert_eq!(spans("x", &"x ".repeat(1000)).len(), 1000);
    assert!(spans("x", "").is_empty());
}

#[test]
fn all_matches_with_groups() {
    let text = "é1 ".repeat(50_000);
    let regex = Regex::new(r"(é)|(\d)").unwrap();
    let mut count = 0;
    for captures in regex.captures_iter(&text) {
        let captures = captures.unwrap();
        let (set, unset) = (1 + count % 2, 2 - count % 2);
        let start = 4 * (count / 2) + 2 * (count % 2);
        assert_eq!(captures.get(set).unwrap().start(), start);
        assert!(captures.get(unset).is_none());
        count += 1;
    }
    assert_eq!(count, 100_000);
}

#[test]
fn searches_from_a_byte() {
    let regex = Regex::new(r"\b(\w)").unwrap();
    assert!(regex.captures_from_pos("ax", 1).unwrap().is_none());
    assert_eq!(regex.find_from_pos(".x", 1).unwrap().unwrap().range(), 1..2);
    assert!(regex.find_from_pos(".x", 2).unwrap().is_none());
    assert!(thread::spawn(move || regex.find_from_pos("é", 1))
        .join()
        .is_err());
}

#[test]
fn groups() {
    let regex = Regex::new(r"(?<key>\w+)=(\d+)?(?<key>;)?").unwrap();
    let names: Vec<_> = regex.capture_names().collect();
    assert_eq!(names, [None, Some("key"), None, Some("key")]);
    assert_eq!(regex.captures_len(), 4);
    let captures = regex.captures("a=;").unwrap().unwrap();
    assert_eq!(captures.len(), 4);
    assert_eq!(captures.name("key").unwrap().as_str(), "a");
    assert!(
        captures.name("other").is_none() && captures.get(2).is_none() && captures.get(9).is_none()
    );
    assert!(captures.get(usize::MAX).is_none());
    let ranges: Vec<_> = captures.iter().map(|it| it.map(|it| it.range())).collect();
    assert_eq!(ranges, [Some(0..3), Some(0..1), None, Some(2..3)]);
    assert_eq!((&captures[0], &captures["key"]), ("a=;", "a"));
    let text: &str = captures.get(1).unwrap().into();
    assert_eq!(text, "a");
}

#[test]
fn splits() {
    let pieces = |pattern: &str, text: &'static str| -> Vec<&str> {
        Regex::new(pattern)
            .unwrap()
            .split(text)
            .collect::<Result<_>>()
            .unwrap()
    };
    assert_eq!(pieces(", *", "a, b,c"), ["a", "b", "c"]);
    assert_eq!(pieces(",", ",a,"), ["", "a", ""]);
    assert_eq!(pieces(",", ""), [""]);
    assert_eq!(pieces("", "ab"), ["", "a", "b", ""]);
    let regex = Regex::new(",").unwrap();
    let some = |limit| {
        regex
            .splitn("a,b,c", limit)
            .collect::<Result<Vec<_>>>()
            .unwrap()
    };
    assert_eq!(some(0), [""; 0]);
    assert_eq!(some(1), ["a,b,c"]);
    assert_eq!(some(2), ["a", "b,c"]);
    assert_eq!(some(9), ["a", "b", "c"]);
}

#[test]
fn replacements() {
    let regex = Regex::new(r"(?<y>\d+)-(\d+)").unwrap();
    let text = "1-2 3-4 5-6";
    assert_eq!(regex.replace(text, "$2/$y"), "2/1 3-4 5-6");
    assert_eq!(regex.replacen(text, 2, "${2}$$"), "2$ 4$ 5-6");
    assert_eq!(regex.replace_all(text, NoExpand("$1")), "$1 $1 $1");
    assert_eq!(regex.replace_all(text, String::from("x")), "x x x");
    assert_eq!(regex.replace_all(text, &Cow::from("$1")), "1 3 5");
    assert_eq!(
        regex.replace_all(text, |it: &Captures<'_>| it[2].repeat(2)),
        "22 44 66"
    );
    assert!(matches!(
        regex.replace_all("none", "x"),
        Cow::Borrowed("none")
    ));

    let mut count = 0;
    let mut number = |_: &Captures<'_>| {
        count += 1;
        count.to_string()
    };
    assert_eq!(regex.replace_all(text, number.by_ref()), "1 2 3");
    assert_eq!(regex.replace_all(text, number.by_ref()), "4 5 6");
}

#[test]
fn templates_write_what_they_expand_to() {
    let text = "a1 b2é c3 a";
    for pattern in [r"(?<x>a)?(\d)", r"(?<x>a)|(?<x>b)|(?<π>c)", "a*", "()"] {
        let regex = Regex::new(pattern).unwrap();
        for template in [
            "$x", "${x}1", "<$1>", "$2$2", "$$", "$", "$9", "${9}", "$1a", "${1}a", "$π", "${π}$",
            "é$xé", "${x", "$0$0$0$0",
        ] {
            for limit in [0, 1, 2] {
                let expand = |it: &Captures<'_>| Expander::default().expansion(template, it);
                let expected = regex.try_replacen(text, limit, expand).unwrap();
                assert_eq!(
                    regex.try_replacen(text, limit, template).unwrap(),
                    expected,
                    "{pattern} {template} {limit}"
                );
            }
        }
    }
    let named = Regex::new("(?<x>a)|(?<x>b)|(?<π>c)").unwrap();
    assert_eq!(named.replace_all("abc", "<$x,$π>"), "<a,><b,><,c>");
    assert_eq!(named.replacen("abc", 2, "$0$0"), "aabbc");
    let long = "é=1 ".repeat(5_000);
    let doubled = Regex::new("(é)=").unwrap().replace_all(&long, "$1$1$1$1:");
    assert_eq!(doubled, "éééé:1 ".repeat(5_000));
}

#[test]
fn expanders() {
    let regex = Regex::new("(?<x>a)(b)?").unwrap();
    let captures = regex.captures("a").unwrap().unwrap();
    let expand = |template: &str| Expander::default().expansion(template, &captures);
    assert_eq!(
        expand("$x ${x}y $xy $1 ${1}0 $10 $2 $$ $ ${x $."),
        "a ay  a a0   $ $ ${x $."
    );
    let expand = |template: &str| Expander::python().expansion(template, &captures);
    assert_eq!(expand(r"\1 \g<x> \g<1>0 \\ \q \g<x"), r"a a a0 \ \q \g<x");
    assert_eq!(Expander::python().escape(r"a\b"), r"a\\b");
    let mut written = Vec::new();
    Expander::default()
        .write_expansion(&mut written, "<$x>", &captures)
        .unwrap();
    assert_eq!(written, b"<a>");

    let check = |template: &str, pattern: &str| {
        Expander::default().check(template, &Regex::new(pattern).unwrap())
    };
    assert_eq!(check("$0 $$ ${x}", "(?<x>a)"), Ok(()));
    assert_eq!(check("$1", "(a)"), Ok(()));
    assert_eq!(
        check("é $.", "(a)"),
        Err(Error::ParseError(3, ParseError::GeneralParseError))
    );
    assert_eq!(
        check("$1", "(?<x>a)"),
        Err(CompileError::NamedBackrefOnly.into())
    );
    assert_eq!(
        check("${2}", "(a)"),
        Err(CompileError::InvalidBackref(2).into())
    );
    assert_eq!(
        check("$y", "(a)"),
        Err(CompileError::InvalidGroupNameBackref("y".to_string()).into())
    );
}

#[test]
fn errors() {
    let error = |pattern: &str| Regex::new(pattern).unwrap_err();
    assert_eq!(
        error("é(a"),
        Error::ParseError(4, ParseError::UnclosedOpenParen)
    );
    assert_eq!(
        error("a)"),
        Error::ParseError(1, ParseError::UnopenedCloseParen)
    );
    assert_eq!(
        error("a**"),
        Error::ParseError(2, ParseError::TargetNotRepeatable)
    );
    assert_eq!(
        error(r"\q"),
        Error::ParseError(1, ParseError::InvalidEscape)
    );
    assert_eq!(error(r"(a)\2"), CompileError::InvalidBackref(2).into());
    let named = RegexBuilder::new(r"(?<a>b)\1")
        .ignore_numbered_groups_when_named_groups_exist(true)
        .build();
    assert_eq!(named.unwrap_err(), CompileError::NamedBackrefOnly.into());
    assert_eq!(error(r"\k<a>"), CompileError::UnresolvedAstNode.into());
    assert_eq!(
        error(r"\g<a>"),
        CompileError::SubroutineCallTargetNotFound.into()
    );
    assert_eq!(
        error(r"(a\g<1>)"),
        CompileError::NeverEndingRecursion.into()
    );
    match error("x[b-a]") {
        Error::CompileError(refusal) => match &*refusal {
            CompileError::InnerError(message) => assert!(message.contains("[b-a]"), "{message}"),
            other => panic!("{other:?}"),
        },
        other => panic!("{other:?}"),
    }
    assert!(
        error("(a").to_string().starts_with("at byte 2: "),
        "{}",
        error("(a")
    );
    for (pattern, at, message) in [
        (r"(?<y>a)\k<x>", 7, "there is no group named 'x'"),
        (r"é\g<x>", 2, "there is no group named 'x'"),
        (r"(a)b\2", 4, "there is no group 2"),
        (
            "(?<=ab|c)(?<!xa+)b",
            13,
            "the body of a look-behind has no fixed length",
        ),
    ] {
        assert_eq!(error(pattern).offset(), Some(at), "{pattern}");
        assert_eq!(
            error(pattern).to_string(),
            format!("at byte {at}: {message}")
        );
    }
    assert_eq!(error("(a").offset(), Some(2));
    assert_eq!("(a".parse::<Regex>().unwrap_err(), error("(a"));
    assert_eq!(Regex::try_from("(a").unwrap_err(), error("(a"));
}

#[test]
fn limits() {
    let regex = RegexBuilder::new(r"(a|b|ab)*(?=c)c\1")
        .backtrack_limit(1000)
        .build()
        .unwrap();
    let text = "ab".repeat(30) + "dc";
    let passed = Error::RuntimeError(RuntimeError::BacktrackLimitExceeded);
    assert_eq!(regex.is_match(&text).unwrap_err(), passed);
    assert_eq!(
        regex.find_iter(&text).collect::<Vec<_>>(),
        [Err(passed.clone())]
    );
    assert_eq!(
        regex
            .captures_iter(&text)
            .map(|it| it.unwrap_err())
            .collect::<Vec<_>>(),
        std::slice::from_ref(&passed)
    );
    assert_eq!(
        regex.split(&text).collect::<Vec<_>>(),
        [Err(passed.clone())]
    );
    assert_eq!(regex.try_replacen(&text, 0, "").unwrap_err(), passed);
    // afterwards it searches as before
    assert_eq!(regex.find("aca").unwrap().unwrap().range(), 0..3);
    assert!(thread::spawn(move || regex.replace(&text, "").into_owned())
        .join()
        .is_err());
    let steps = RegexBuilder::new("a+(?=b)").step_limit(1).build().unwrap();
    assert_eq!(
        steps.find("aaaab").unwrap_err(),
        RuntimeError::StepLimitExceeded.into()
    );
}

/// An a or an ab, and then a c or a bcd: a search has to choose, keeps its choice, and takes up more than one state.
const CHOICES: &str = "(?:a|ab)(?:c|bcd)";

#[test]
fn limits_of_visits_and_memory() {
    let visits = RegexBuilder::new(CHOICES).visit_limit(1).build().unwrap();
    let passed = Error::RuntimeError(RuntimeError::VisitLimitExceeded);
    assert_eq!(passed.to_string(), "the search exceeds the visit limit");
    assert_eq!(visits.is_match("xabcd").unwrap_err(), passed);
    assert_eq!(visits.find("xabcd").unwrap_err(), passed);
    assert_eq!(
        visits.find_iter("xabcd").collect::<Vec<_>>(),
        [Err(passed.clone())]
    );
    assert_eq!(visits.try_replacen("xabcd", 0, "").unwrap_err(), passed);
    let memory = RegexBuilder::new(CHOICES).memory_limit(1).build().unwrap();
    let passed = Error::RuntimeError(RuntimeError::MemoryLimitExceeded);
    assert_eq!(passed.to_string(), "the search exceeds the memory limit");
    assert_eq!(memory.find("xabcd").unwrap_err(), passed);
    // 0 is no limit, and the defaults are not passed
    let unlimited = RegexBuilder::new(CHOICES)
        .visit_limit(0)
        .memory_limit(0)
        .build()
        .unwrap();
    for regex in [unlimited, Regex::new(CHOICES).unwrap()] {
        assert_eq!(regex.find("xabcd").unwrap().unwrap().range(), 1..5);
    }
}

/// Eight nodes, in four rounds that change something: in two the sizes of the groups, and then that of the whole, and in
/// two what is known to end, since there is a call.
const LOOKED_AT: &str = r"(a)(b)\1\2\g<1>";

#[test]
fn limits_of_analysis() {
    let build = |limit| RegexBuilder::new(LOOKED_AT).analysis_limit(limit).build();
    let passed = Error::from(CompileError::AnalysisLimitExceeded);
    assert_eq!(build(31).unwrap_err(), passed);
    assert_eq!(
        passed.to_string(),
        "the analysis of the pattern exceeds analysis_limit"
    );
    // at the limit, without one, and by default
    for regex in [
        build(32),
        build(0),
        build(usize::MAX),
        Regex::new(LOOKED_AT),
    ] {
        assert_eq!(
            regex.unwrap().find("xababa").unwrap().unwrap().range(),
            1..6
        );
    }
    // what has no references exceeds no limit, and a limit comes before other refusals
    let build = |pattern: &str| RegexBuilder::new(pattern).analysis_limit(3).build();
    assert!(build("(a)(b)").is_ok());
    assert_eq!(build(r"(a)\2").unwrap_err(), passed);
    assert_eq!(
        build(r"(a)\1(").unwrap_err(),
        Error::ParseError(6, ParseError::UnclosedOpenParen)
    );
    // the same of trees and of scanners
    let options = Options::default();
    let tree = r#"(cat (grp "a") (grp "b") (ref 1) (ref 2) (call 1))"#;
    assert_eq!(
        Regex::of_tree(tree, options.analysis_limit(31)).unwrap_err(),
        passed
    );
    assert!(Regex::of_tree(tree, options.analysis_limit(32)).is_ok());
    let mut scanner = Scanner::new();
    let refused = scanner.add_with_options(LOOKED_AT, options.analysis_limit(31));
    assert_eq!(refused.unwrap_err(), passed);
    scanner
        .add_with_options(LOOKED_AT, options.analysis_limit(32))
        .unwrap();
    assert_eq!(scanned(&mut scanner, "xababa"), [(0, 1, 6, None)]);
}

#[test]
fn options() {
    let find = |builder: &mut RegexBuilder, text: &str| {
        builder
            .build()
            .unwrap()
            .find(text)
            .unwrap()
            .map(|it| it.range())
    };
    assert_eq!(
        find(RegexBuilder::new("é").case_insensitive(true), "É"),
        Some(0..2)
    );
    assert_eq!(
        find(RegexBuilder::new("^b").multi_line(true), "a\nb"),
        Some(2..3)
    );
    assert_eq!(
        find(RegexBuilder::new("a.").dot_matches_new_line(true), "a\n"),
        Some(0..2)
    );
    assert_eq!(
        find(RegexBuilder::new("a b # c").ignore_whitespace(true), "ab"),
        Some(0..2)
    );
    assert_eq!(
        find(RegexBuilder::new("a b").verbose_mode(true), "ab"),
        Some(0..2)
    );
    assert_eq!(
        find(RegexBuilder::new("a$").multi_line(true).crlf(true), "a\r\n"),
        Some(0..1)
    );
    assert_eq!(
        find(RegexBuilder::new("a+").swap_greed(true), "aa"),
        Some(0..1)
    );
    assert_eq!(
        find(RegexBuilder::new(r"\w").unicode_mode(false), "éa"),
        Some(2..3)
    );
    assert_eq!(
        find(RegexBuilder::new("a*").find_not_empty(true), "ba"),
        Some(1..2)
    );
    assert_eq!(
        find(RegexBuilder::new("a|ab").leftmost_longest(true), "ab"),
        Some(0..2)
    );
    let named = RegexBuilder::new("(?<n>a)(b)")
        .ignore_numbered_groups_when_named_groups_exist(true)
        .build();
    assert_eq!(named.unwrap().captures_len(), 2);
    let small = RegexBuilder::new("(?:a(?=b)b*){9}")
        .max_prog_size(5)
        .build();
    assert_eq!(small.unwrap_err(), CompileError::PatternTooComplex.into());
}

#[test]
fn trees() {
    let regex = Regex::of_tree(
        r#"(cat (grp (set "[a-z]")) (rep 0 1 (set "[0-9]")))"#,
        Options::default(),
    )
    .unwrap();
    let captures = regex.captures("  b7").unwrap().unwrap();
    assert_eq!(
        (captures.get(0).unwrap().range(), &captures[1]),
        (2..4, "b")
    );
    let fault = Regex::of_tree(r#"(cat "a""#, Options::default()).unwrap_err();
    assert_eq!(fault, Error::ParseError(8, ParseError::GeneralParseError));
    let anchored = Regex::of_tree(r#""a""#, Options::default().anchored(true)).unwrap();
    assert!(!anchored.is_match("ba").unwrap());
}

#[test]
fn escaped_texts() {
    let text: String = (1..300).filter_map(char::from_u32).collect();
    for flags in ["", "(?x)", "(?i)"] {
        let found = Regex::new(&format!("{flags}^{}$", escape(&text)))
            .unwrap()
            .find(&text)
            .unwrap()
            .unwrap();
        assert_eq!(found.as_str(), text);
    }
    assert!(matches!(escape("abc"), Cow::Borrowed("abc")));
}

/// Each match of a scan: its pattern, where it is, and which pattern exceeded a limit.
fn scanned(scanner: &mut Scanner, text: &str) -> Vec<(usize, usize, usize, Option<usize>)> {
    let all = scanner.scan(text).map(|it| {
        let it = it.unwrap();
        let whole = it.captures.get(0).unwrap();
        (
            it.index,
            whole.start(),
            whole.end(),
            it.stopped.map(|it| it.index),
        )
    });
    all.collect()
}

#[test]
fn scans() {
    let mut scanner = Scanner::new();
    assert!(scanner.is_empty() && scanner.scan("a").next().is_none());
    scanner.add("\"[^\"]*\"").unwrap();
    scanner.add("(?<word>[a-zé]+)(?<digit>[0-9])?").unwrap();
    let fault = scanner.add("(").unwrap_err();
    assert_eq!(fault, Error::ParseError(1, ParseError::UnclosedOpenParen));
    scanner.add("[a-z]").unwrap();
    assert_eq!(scanner.len(), 3);
    assert_eq!(
        scanned(&mut scanner, "é1 \"b c\" d"),
        [(1, 0, 3, None), (0, 4, 9, None), (1, 10, 11, None)]
    );
    let found = scanner.find_from_pos("é1 b", 3).unwrap().unwrap();
    assert_eq!((found.index, &found.captures["word"]), (1, "b"));
    assert_eq!(
        (found.captures.len(), found.captures.name("digit")),
        (3, None)
    );
    let found = scanner.find_from_pos("ab", 0).unwrap().unwrap();
    assert_eq!(found.captures.len(), 3);
    assert!(scanner.find_from_pos("1", 0).unwrap().is_none());
    assert_eq!(scanned(&mut scanner, &"a ".repeat(1000)).len(), 1000);
}

#[test]
fn scans_with_limits_of_visits_and_memory() {
    let mut scanner = Scanner::new();
    let options = Options::default();
    scanner
        .add_with_options(CHOICES, options.memory_limit(1))
        .unwrap();
    scanner
        .add_with_options(CHOICES, options.visit_limit(1))
        .unwrap();
    scanner.add("x").unwrap();
    let mut scan = scanner.scan("xabcd");
    let first = scan.next().unwrap().unwrap();
    assert_eq!(first.captures.get(0).unwrap().range(), 0..1);
    let limit = RuntimeError::MemoryLimitExceeded;
    assert_eq!(first.stopped, Some(Stopped { index: 0, limit }));
    assert_eq!(
        scan.next().unwrap().unwrap_err(),
        Error::RuntimeError(limit)
    );
}

#[test]
fn scans_with_limits() {
    let mut scanner = Scanner::new();
    scanner
        .add_with_options("c", Options::default().step_limit(0))
        .unwrap();
    scanner.add("a|(?=b)").unwrap();
    let limit = RuntimeError::StepLimitExceeded;
    let mut scan = scanner.scan("abc");
    let first = scan.next().unwrap().unwrap();
    assert_eq!(first.captures.get(0).unwrap().range(), 0..1);
    assert_eq!(first.stopped, Some(Stopped { index: 0, limit }));
    assert_eq!(
        scan.next()
            .unwrap()
            .unwrap()
            .captures
            .get(0)
            .unwrap()
            .range(),
        1..1
    );
    assert_eq!(
        scan.next().unwrap().unwrap_err(),
        Error::RuntimeError(limit)
    );
    assert!(scan.next().is_none());
}

#[test]
fn the_version() {
    assert_eq!(fancy::version(), env!("CARGO_PKG_VERSION"));
}

#[test]
fn searches_in_bytes() {
    let word = Regex::new(r"(?<first>\w)(\d)?").unwrap();
    let text = ByteText::new(b"\xFF \xC3\xA9\xE2\x82a1");
    let found: Vec<_> = text
        .find_iter(&word)
        .map(|it| it.unwrap().range())
        .collect();
    assert_eq!(found, [2..4, 6..8]);
    let groups: Vec<_> = text
        .captures_iter(&word)
        .map(|it| it.unwrap())
        .map(|it| {
            (
                it.name("first").unwrap().range(),
                it.get(2).map(|it| it.as_bytes()),
            )
        })
        .collect();
    assert_eq!(groups, [(2..4, None), (6..7, Some(&b"1"[..]))]);
    assert_eq!(text.find_from_pos(&word, 3).unwrap().unwrap().range(), 6..8);
    let replaced = text
        .replace_all(&word, |it| it[0].as_bytes().repeat(2))
        .unwrap();
    assert_eq!(replaced, b"\xFF \xC3\xA9\xC3\xA9\xE2\x82a1a1");
    assert_eq!(ByteText::new(b"").find(&word).unwrap(), None);
}

#[test]
fn inputs() {
    for (mode, pattern, haystack, ranges) in [
        (
            BytesMode::Ascii,
            r"\xFF\xD8[^\x00]",
            &b"\x00\xFF\xD8\xFF\xE0"[..],
            Some((1, 4)),
        ),
        (BytesMode::Ascii, "\u{e9}.", b"\xE9\xFF", Some((0, 2))),
        (
            BytesMode::Ascii,
            r"\w+\W[^\W\d]\b",
            b"\xE9a\xE9b\xB5",
            Some((1, 4)),
        ),
        (
            BytesMode::UnicodeBytes,
            "\u{e9}",
            b"\xFF\xC3\xA9",
            Some((1, 3)),
        ),
        (
            BytesMode::Unicode,
            r"\x{FFFD}b",
            b"a\xE2\x82b",
            Some((1, 4)),
        ),
        (BytesMode::UnicodeBytes, r"\xE9", b"\xE9", None),
    ] {
        let regex = RegexBuilder::new(pattern).bytes_mode(mode).build().unwrap();
        let found = regex.find_input(&RegexInput::new(haystack)).unwrap();
        assert_eq!(found.map(|it| (it.start(), it.end())), ranges, "{pattern}");
        assert_eq!(
            regex.is_match_input(&RegexInput::new(haystack)),
            Ok(ranges.is_some())
        );
    }
    let mut ascii = RegexBuilder::new(r"\w(");
    assert_eq!(
        ascii.bytes_mode(BytesMode::Ascii).build().err(),
        Some(Error::ParseError(3, ParseError::UnclosedOpenParen))
    );
    let word = RegexBuilder::new(r"\w")
        .bytes_mode(BytesMode::Ascii)
        .build()
        .unwrap();
    assert_eq!(
        (
            word.as_str(),
            word.find("\u{e9}a").unwrap().unwrap().start()
        ),
        (r"\w", 2)
    );
    let letter = Regex::new("(?<=a)b|^c").unwrap();
    let input = RegexInput::new("abc");
    assert_eq!(
        letter
            .find_input(&input.from_pos(1))
            .unwrap()
            .unwrap()
            .range(),
        1..2
    );
    assert_eq!(letter.find_input(&input.from_pos(2)), Ok(None));
    assert_eq!(letter.find_input(&input.from_pos(4)), Ok(None));
    assert_eq!(
        (input.from_pos(2).haystack(), input.from_pos(2).pos()),
        (&b"abc"[..], 2)
    );
}
