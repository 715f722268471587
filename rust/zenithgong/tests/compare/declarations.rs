//! Nothing else holds the declarations to the Rattle source: its exported functions (crate exports_c) and the structs that
//! they answer with (crate exports) are read here, and must be what `declarations.rs` has, in the same order.
use std::mem::size_of;
use zenithgong::declarations::{BlankingReply, MappedReply, RunReply, TextReply};

const ANSWERS: &str = include_str!("../../../../crates/exports/src/lib.rt");
const EXPORTS: &str = include_str!("../../../../crates/exports_c/src/lib.rt");
const RUST: &str = include_str!("../../src/declarations.rs");

/// The text without comments and attributes' line ends, each run of blanks one space.
fn plain(source: &str) -> String {
    let code = source.lines().map(|line| line.split("//").next().unwrap());
    code.flat_map(str::split_whitespace)
        .collect::<Vec<_>>()
        .join(" ")
}

/// What stands between each `start` and the next `end` after it.
fn between<'a>(text: &'a str, start: &str, end: &str) -> Vec<&'a str> {
    text.split(start)
        .skip(1)
        .map(|rest| rest.split(end).next().unwrap())
        .collect()
}

/// The parts of a list in brackets or braces, trimmed; an array's type has no comma.
fn parts(list: &str) -> Vec<String> {
    list.split(',')
        .map(|part| part.trim().to_string())
        .filter(|part| !part.is_empty())
        .collect()
}

/// Each struct that begins so, in `repr(C)`, as its name and its fields.
fn structs(text: &str, start: &str) -> Vec<(String, Vec<String>)> {
    let declared = between(text, start, "}");
    declared
        .iter()
        .map(|one| one.split_once(" {").unwrap())
        .map(|(name, fields)| (name.to_string(), parts(fields)))
        .collect()
}

/// A parameter as C has it: a slice is a pointer and a length.
fn in_c(parameter: String) -> Vec<String> {
    let (name, kind) = parameter.split_once(": ").unwrap();
    let slice = |kind: &str, pointer: &str| {
        let element = kind.strip_suffix(']').unwrap();
        vec![
            format!("{}: *{} {}", name, pointer, element),
            format!("{}_length: usize", name),
        ]
    };
    match (kind.strip_prefix("&mut ["), kind.strip_prefix("&[")) {
        (Some(rest), _) => slice(rest, "mut"),
        (_, Some(rest)) => slice(rest, "const"),
        _ => vec![parameter],
    }
}

/// Each function as its name, its parameters and its answer.
fn functions(text: &str, start: &str, end: &str) -> Vec<(String, Vec<String>, String)> {
    let mut found = Vec::new();
    for one in between(text, start, end) {
        let (name, rest) = one.split_once('(').unwrap();
        let (parameters, answer) = rest.split_once(')').unwrap();
        let parameters = parts(parameters).into_iter().flat_map(in_c).collect();
        let answer = answer.trim().strip_prefix("-> ").unwrap().to_string();
        found.push((name.to_string(), parameters, answer));
    }
    found
}

#[test]
fn declarations_are_the_exports() {
    let (told, rattle, rust) = (plain(ANSWERS), plain(EXPORTS), plain(RUST));
    let answers = structs(&told, "#[repr(C)] #[derive(Clone, Copy)] pub struct ");
    assert_eq!(structs(&rust, "#[repr(C)] pub struct "), answers);
    assert_eq!(answers.len(), told.matches("struct ").count());
    assert_eq!(0, rattle.matches("struct ").count());
    assert_eq!(answers.len(), rust.matches("struct ").count());
    assert!(answers.iter().all(|(_, fields)| fields.len() >= 2));
    let exported = functions(
        &rattle,
        "#[unsafe(no_mangle)] pub extern \"C\" fn ",
        " ensures",
    );
    assert_eq!(functions(&rust, "pub fn ", ";"), exported);
    assert_eq!(exported.len(), rattle.matches("no_mangle").count());
    assert!(exported.len() >= 9);
    for (name, _, answer) in &exported {
        let known = answers.iter().any(|(struct_name, _)| struct_name == answer);
        assert!(known || answer == "u8", "{} answers with {}", name, answer);
    }
}

/// The blanking list's answer has 16 bytes, which come in two registers.
#[test]
fn answer_with_a_count_has_its_size() {
    assert_eq!(size_of::<BlankingReply>(), 16);
}

/// The answers that carry a place: 16 bytes, which come in two registers, and a text's 24 with its run, 8, 8, and the lists.
#[test]
fn answers_with_a_place_have_their_sizes() {
    assert_eq!(size_of::<MappedReply>(), 16);
    assert_eq!(size_of::<RunReply>(), 20);
    assert_eq!(size_of::<TextReply>(), 24 + 8 + 8 + 3 * 64 * 4);
}
