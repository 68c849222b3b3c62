//! The C header says the same numbers as this crate.
use ushnazar::*;

const HEADER: &str = include_str!("../../c/ushnazar.h");

fn defined(name: &str) -> &'static str {
    let line = HEADER.lines().find_map(|line| line.strip_prefix("#define ")?.strip_prefix(name)?.strip_prefix(' '));
    line.unwrap_or_else(|| panic!("the header has no {name}"))
}

#[test]
fn limits() {
    let limits = [
        ("USHNAZAR_MOST_ROWS", MOST_ROWS),
        ("USHNAZAR_MOST_STRUCTURALS", MOST_STRUCTURALS),
        ("USHNAZAR_MOST_ENTRIES", MOST_ENTRIES),
        ("USHNAZAR_MOST_TEXT", MOST_TEXT),
        ("USHNAZAR_MOST_ANSWER", MOST_ANSWER),
    ];
    for (name, limit) in limits {
        assert_eq!(defined(name), limit.to_string(), "{name}");
    }
}

/// `RowStarts` as `USHNAZAR_ROW_STARTS`.
fn in_c(refusal: Refusal) -> String {
    let mut name = "USHNAZAR".to_string();
    for letter in format!("{refusal:?}").chars() {
        if letter.is_uppercase() {
            name.push('_');
        }
        name.push(letter.to_ascii_uppercase());
    }
    name
}

#[test]
fn refusals() {
    for refusal in Refusal::ALL {
        let line = format!("    {} = {}", in_c(refusal), refusal.number());
        assert!(HEADER.lines().any(|said| said.trim_end_matches(',') == line), "{line}");
    }
}

/// What stands between two words, or to the end.
fn between<'a>(text: &'a str, from: &str, to: &str) -> Option<&'a str> {
    let rest = &text[text.find(from)? + from.len()..];
    Some(&rest[..rest.find(to).unwrap_or(rest.len())])
}

/// The header without its comments.
fn header_code() -> String {
    let mut parts = HEADER.split("/*");
    let before = parts.next().unwrap_or_default().to_string();
    before + &parts.map(|part| part.split_once("*/").expect("the comment's end").1).collect::<String>()
}

const TYPES: [(&str, &str); 6] = [
    ("size_t", "usize"),
    ("uint8_t", "u8"),
    ("uint32_t", "u32"),
    ("double", "f64"),
    ("struct ushnazar_widened", "Widened"),
    ("struct ushnazar_cdouble", "CDouble"),
];

/// `const size_t *starts` as `starts: *const usize`.
fn in_rust(declared: &str) -> String {
    let (rest, constant) = declared.strip_prefix("const ").map_or((declared, false), |rest| (rest, true));
    let (kind, name) = rest.split_at(rest.rfind([' ', '*']).expect("a type and a name") + 1);
    let pointer = match (kind.contains('*'), constant) {
        (true, true) => "*const ",
        (true, false) => "*mut ",
        (false, _) => "",
    };
    let kind = kind.trim_end_matches('*').trim_end();
    let (_, kind) = TYPES.into_iter().find(|(c, _)| *c == kind).expect("a type that is known");
    format!("{name}: {pointer}{kind}")
}

fn items(list: &str) -> Vec<String> {
    let words = |item: &str| item.split_whitespace().collect::<Vec<_>>().join(" ");
    list.split(',').map(words).filter(|item| !item.is_empty()).collect()
}

#[test]
fn arguments() {
    const RAW: &str = include_str!("../src/raw.rs");
    let header = header_code();
    for (name, count) in [("sheet_verdict", 51), ("weigh_text", 4), ("cdouble_add", 2), ("cdouble_add_scaled", 3)] {
        let in_header = items(between(&header, &format!(" {name}("), ");").expect("a declaration in the header"));
        let here = items(between(RAW, &format!("    fn {name}("), ")").expect("a declaration in raw.rs"));
        assert_eq!(in_header.iter().map(|item| in_rust(item)).collect::<Vec<_>>(), here, "{name}");
        assert_eq!(here.len(), count, "{name}");
    }
}
