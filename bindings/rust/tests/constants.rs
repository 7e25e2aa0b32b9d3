//! Every constant of include/hopsickle.h is one of the crates layout, rt_services or set_store, or the
//! number of a reason of rt_services, and one of `sys` or `Refusal`, with the same value, and every
//! integer constant of these is one of the header's. The sources are read, and their expressions worked
//! out.

use hopsickle::{sys, Refusal};
use std::collections::BTreeMap;

// ---- expressions

/// The words of an expression: numbers, names and paths, and signs of one character.
type Words = Vec<String>;

fn words(expression: &str) -> Words {
    let mut words = Words::new();
    let mut inside = false;
    for c in expression.chars() {
        let belongs = c.is_ascii_alphanumeric() || c == '_' || c == ':';
        match words.last_mut() {
            Some(word) if inside && belongs => word.push(c),
            _ if c.is_whitespace() => (),
            _ => words.push(c.to_string()),
        }
        inside = belongs;
    }
    words
}

/// Constants by their names, each with the words that stand in its name's place.
type Constants = BTreeMap<String, Words>;

/// The words, with those of the constants in place of their names, and so on, at most so deep.
fn replaced<'a>(
    constants: &'a Constants,
    words: &'a [String],
    deep: usize,
) -> Option<Vec<&'a str>> {
    let mut all = vec![];
    for word in words {
        match constants.get(word) {
            Some(words) => all.extend(replaced(constants, words, deep.checked_sub(1)?)?),
            None => all.push(word.as_str()),
        }
    }
    Some(all)
}

/// A number, decimal or hexadecimal. One with a 0 in front is octal in C, and not read.
fn number(word: &str) -> Option<i64> {
    let digits = word.replace('_', "");
    match digits.strip_prefix('0') {
        None => digits.parse().ok(),
        Some("") => Some(0),
        Some(rest) => i64::from_str_radix(rest.strip_prefix('x')?, 16).ok(),
    }
}

/// The value of the number, or of the sum in parentheses, with which the words start; it is taken off.
fn factor(words: &mut &[&str]) -> Option<i64> {
    let (first, rest) = words.split_first()?;
    *words = rest;
    if *first != "(" {
        return number(first);
    }
    let value = sum(words)?;
    let [")", rest @ ..] = *words else {
        return None;
    };
    *words = rest;
    Some(value)
}

fn product(words: &mut &[&str]) -> Option<i64> {
    let mut value = factor(words)?;
    while let ["*", rest @ ..] = *words {
        *words = rest;
        value = value.checked_mul(factor(words)?)?;
    }
    Some(value)
}

fn sum(words: &mut &[&str]) -> Option<i64> {
    let mut value = product(words)?;
    while let [sign @ ("+" | "-"), rest @ ..] = *words {
        *words = rest;
        let other = product(words)?;
        value = if *sign == "+" { value.checked_add(other)? } else { value.checked_sub(other)? };
    }
    Some(value)
}

/// The value of an expression; `None` where it isn't one.
fn value(constants: &Constants, expression: &str) -> Option<i64> {
    let expression = words(expression);
    let words = replaced(constants, &expression, 16)?;
    let mut rest = &words[..];
    sum(&mut rest).filter(|_| rest.is_empty())
}

#[test]
fn expressions() {
    let bare = [("A", "1 + 2"), ("B", "(A)"), ("T::C", "0x1_0 * B"), ("D", "E"), ("E", "(D)")];
    let bare = bare.map(|(name, expression)| (name.to_string(), words(expression))).into();
    let value = |expression: &str| value(&bare, expression);
    assert_eq!(value("26 + 1_492"), Some(1518));
    assert_eq!(value("2 + 3 * (4 - 1)- 1 -1"), Some(9));
    assert_eq!(value("((2)+(3))*(4)"), Some(20));
    assert_eq!((value("0"), value("0x1fFf"), value("1-2")), (Some(0), Some(8191), Some(-1)));
    // The words of a constant stand in its name's place as they are.
    assert_eq!((value("A"), value("2 * A"), value("2 * B")), (Some(3), Some(4), Some(6)));
    assert_eq!((value("T::C"), value("T::C*2+A")), (Some(48), Some(99)));
    for other in
        ["", "()", "1 +", "+ 1", "1 2", "(1", "1)", "C", "T::A", "D", "1 / 1", "010", "1u32"]
    {
        assert_eq!(value(other), None, "{other}");
    }
}

// ---- what the sources say

fn text(path: &str) -> String {
    let path = format!("{}/{path}", env!("CARGO_MANIFEST_DIR"));
    std::fs::read_to_string(&path).unwrap_or_else(|error| panic!("{path}: {error}"))
}

/// A text without its comments.
fn without_comments(text: &str, start: &str, end: &str) -> String {
    let mut pieces = text.split(start);
    let first = pieces.next().unwrap_or_default();
    let others = pieces.map(|piece| piece.split_once(end).map_or("", |(_, rest)| rest));
    std::iter::once(first).chain(others).collect::<Vec<_>>().join(" ")
}

/// The header's name for a constant of Rust or Rattle, which can stand in a type, and its crate before it.
fn name_in_header(path: &str) -> String {
    let parts = path.split("::").skip_while(|part| part.starts_with(|c: char| c.is_lowercase()));
    let name = match parts.collect::<Vec<_>>()[..] {
        ["SavPdu", "MAX_OCTETS"] => "MAX_PDU",
        ["DataSets", "NUMBERS"] => "SET_NUMBERS",
        ["DataSets", "SCALES"] => "SET_SCALES",
        [name] | [_, name] => name,
        _ => panic!("{path}"),
    };
    format!("HOPSICKLE_{name}")
}

/// The integers among the constants of Rust or Rattle, at top level and in `impl`s, under the header's
/// names. Their names stand for values, and so in parentheses.
fn of_rust(text: &str) -> Constants {
    let mut constants = Constants::new();
    let (mut depth, mut path) = (0, String::new());
    let text = without_comments(text, "//", "\n");
    for piece in text.split_inclusive(['{', '}', ';']) {
        if let Some(before) = piece.strip_suffix('{') {
            if let (0, Some(of)) = (depth, before.trim().strip_prefix("impl ")) {
                path = format!("{}::", of.trim());
            }
            depth += 1;
        } else if piece.ends_with('}') {
            depth -= 1;
            if depth == 0 {
                path.clear();
            }
        } else if depth == usize::from(!path.is_empty()) {
            let constant = piece.trim_end_matches(';').split_once("const ");
            let Some((typed, expression)) = constant.and_then(|(_, rest)| rest.split_once('='))
            else {
                continue;
            };
            let (name, of) = typed.split_once(':').unwrap_or_else(|| panic!("{piece}"));
            if !["usize", "u64", "u32", "u16", "u8"].contains(&of.trim()) {
                continue;
            }
            let in_header = |word: String| {
                let is_name = word.starts_with(|c: char| c.is_alphabetic() || c == '_');
                if is_name {
                    name_in_header(&word)
                } else {
                    word
                }
            };
            let expression = format!("({})", expression.replace("Self::", &path));
            let expression = words(&expression).into_iter().map(in_header).collect();
            let name = name_in_header(&format!("{path}{}", name.trim()));
            assert_eq!(constants.insert(name.clone(), expression), None, "{name} twice");
        }
    }
    assert_eq!(depth, 0);
    constants
}

/// The constants of several sources.
fn of_all(paths: &[&str]) -> Constants {
    let mut all = Constants::new();
    for (name, expression) in paths.iter().flat_map(|path| of_rust(&text(path))) {
        assert_eq!(all.insert(name.clone(), expression), None, "{name} twice");
    }
    all
}

/// A name in capitals, with a line before each word: `NoRoom` is `_NO_ROOM`.
fn in_capitals(name: &str) -> String {
    let line = |c: char| c.is_uppercase().then_some('_');
    name.chars().flat_map(|c| line(c).into_iter().chain(c.to_uppercase())).collect()
}

/// The numbers of the reasons of a refusal, which the enum `Reason` has.
fn of_reasons() -> Constants {
    let text = without_comments(&text("../../crates/rt_services/src/lib.rt"), "//", "\n");
    let variants = text.split_once("pub enum Reason {").and_then(|(_, rest)| rest.split_once('}'));
    let (variants, _) = variants.expect("the enum of reasons");
    let named = variants.split(',').map(str::trim).filter(|variant| !variant.is_empty());
    named
        .map(|variant| {
            let (name, number) = variant.split_once('=').unwrap_or_else(|| panic!("{variant}"));
            (format!("HOPSICKLE{}", in_capitals(name.trim())), words(number))
        })
        .collect()
}

fn of_crates() -> Constants {
    let path = |name| format!("../../crates/{name}/src/lib.rt");
    let [layout, services, store] = ["layout", "rt_services", "set_store"].map(path);
    let mut all = of_all(&[&layout, &services, &store]);
    for (name, number) in of_reasons() {
        assert_eq!(all.insert(name.clone(), number), None, "{name} twice");
    }
    all
}

fn of_bindings() -> Constants {
    of_all(&["src/sys.rs", "src/refusal.rs"])
}

/// The names of a macro's parameters, and its expression.
type Macro = (Vec<String>, String);

/// What a line of C defines.
fn defined(line: &str) -> Option<&str> {
    let after = line.trim().strip_prefix('#')?.trim_start().strip_prefix("define")?;
    after.starts_with(char::is_whitespace).then_some(after.trim_start())
}

/// The constants of the header, and its macros with parameters. Of its definitions the include guard
/// alone is neither.
fn of_header() -> (Constants, BTreeMap<String, Macro>) {
    let (mut constants, mut macros) = (Constants::new(), BTreeMap::new());
    let text = without_comments(&text("../../include/hopsickle.h"), "/*", "*/");
    for line in text.replace("\\\n", " ").lines().filter_map(defined) {
        let is_name = |c: char| c.is_alphanumeric() || c == '_';
        let end = line.find(|c| !is_name(c)).unwrap_or(line.len());
        // A cast to size_t changes no value.
        let (name, rest) = (&line[..end], line[end..].replace("(size_t)", ""));
        let is_first = match rest.strip_prefix('(').and_then(|rest| rest.split_once(')')) {
            _ if name == "HOPSICKLE_H" => rest.is_empty(),
            Some((names, expression)) => {
                let names = names.split(',').map(|name| name.trim().to_string()).collect();
                macros.insert(name.to_string(), (names, expression.to_string())).is_none()
            }
            None => constants.insert(name.to_string(), words(&rest)).is_none(),
        };
        assert!(is_first, "{line}: defined twice");
    }
    (constants, macros)
}

// ---- what they are held to

fn value_of(constants: &Constants, name: &str) -> i64 {
    value(constants, name).unwrap_or_else(|| panic!("{name}: {:?}", constants.get(name)))
}

/// Each of the constants is one of the header, with its value; and of the header's constants these alone
/// aren't among them.
fn held(constants: &Constants, header: &Constants, alone: &[&str]) {
    let in_header = |name| header.contains_key(name).then(|| value_of(header, name));
    let values = constants.keys().map(|name| (name, value_of(constants, name), in_header(name)));
    let differ: Vec<_> = values.filter(|(_, one, other)| Some(*one) != *other).collect();
    assert!(differ.is_empty(), "constants with their values, here and in the header: {differ:?}");
    let others = header.keys().filter(|name| !constants.contains_key(*name));
    assert_eq!(others.collect::<Vec<_>>(), alone, "constants that the header alone has");
}

/// What no crate has a constant for: the answer of a call that accepts, and the place of a store's first
/// number.
const IN_NO_CRATE: [&str; 2] = ["HOPSICKLE_ACCEPTED", "HOPSICKLE_SETS_HELD"];

#[test]
fn header_and_crates() {
    held(&of_crates(), &of_header().0, &IN_NO_CRATE);
}

#[test]
fn header_and_bindings() {
    let bindings = of_bindings();
    held(&bindings, &of_header().0, &[]);
    let compiled = [
        ("HOPSICKLE_QUALITY_LIMIT", sys::QUALITY_LIMIT as usize),
        ("HOPSICKLE_MAX_FRAME", sys::MAX_FRAME),
        ("HOPSICKLE_MAX_OCTETS", sys::MAX_OCTETS),
        ("HOPSICKLE_OTHER_CONF_REV", Refusal::OTHER_CONF_REV),
    ];
    for (name, compiled) in compiled {
        assert_eq!(value_of(&bindings, name), compiled as i64, "{name}");
    }
}

/// The limits, of which each stands once in each language.
const LIMITS: [&str; 7] = [
    "MAX_ASDUS",
    "MAX_CHANNELS",
    "MAX_TEXT",
    "MAX_SECURITY",
    "MAX_PDU",
    "QUALITY_LIMIT",
    "MAX_SETS",
];

/// With another number for a limit, what follows from it is the same again.
#[test]
fn other_limits() {
    let header = of_header().0;
    for limit in LIMITS.map(|name| format!("HOPSICKLE_{name}")) {
        let other = value_of(&header, &limit) + 2;
        let with = |mut constants: Constants| {
            assert!(constants.insert(limit.clone(), vec![other.to_string()]).is_some(), "{limit}");
            constants
        };
        held(&with(of_bindings()), &with(header.clone()), &[]);
        held(&with(of_crates()), &with(header.clone()), &IN_NO_CRATE);
    }
}

/// What stands in the place of a name of the header can stand in any expression: it is one word, or all of
/// it is in parentheses; and so is each parameter of a macro.
#[test]
fn parentheses() {
    let (constants, macros) = of_header();
    let is_closed = |constants: &Constants, words: &[String]| match words {
        [_] => true,
        [open, inner @ .., close] => {
            open == "(" && close == ")" && value(constants, &inner.join(" ")).is_some()
        }
        [] => false,
    };
    for (name, words) in &constants {
        assert!(is_closed(&constants, words), "{name}: {words:?}");
    }
    for (name, (parameters, expression)) in &macros {
        let given = parameters.iter().map(|name| (name.clone(), words("1")));
        let constants = constants.clone().into_iter().chain(given).collect();
        let words = words(expression);
        assert!(is_closed(&constants, &words), "{name}: {expression}");
        for near in words.windows(3).filter(|near| parameters.contains(&near[1])) {
            assert!(near[0] == "(" && near[2] == ")", "{name}: {expression}");
        }
    }
}

type Function = fn(usize, usize) -> usize;

/// The header's macros with parameters are functions in `sys`.
#[test]
fn macros() {
    let functions: [(&str, Function); 5] = [
        ("HOPSICKLE_NUMBER", sys::number),
        ("HOPSICKLE_OCTET", sys::octet),
        ("HOPSICKLE_SET_CHANNELS", |i, _| sys::set_channels(i)),
        ("HOPSICKLE_SET_CONF_REV", |i, _| sys::set_conf_rev(i)),
        ("HOPSICKLE_SET_SCALE", sys::set_scale),
    ];
    let (constants, macros) = of_header();
    assert!(macros.keys().eq(functions.iter().map(|(name, _)| name)), "{macros:?}");
    for ((name, function), (parameters, expression)) in functions.iter().zip(macros.values()) {
        for (i, j) in (0..40).flat_map(|i| (0..30).map(move |j| (i, j))) {
            let arguments = [i, j].map(|argument| vec![argument.to_string()]);
            let mut given = constants.clone();
            given.extend(parameters.iter().cloned().zip(arguments));
            assert_eq!(value(&given, expression), Some(function(i, j) as i64), "{name} {i} {j}");
        }
    }
}
