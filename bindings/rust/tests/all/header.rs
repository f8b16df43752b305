//! The declarations have the types that `zugmeled.h` tells, and its constants the same numbers.

use std::fs;
use std::path::PathBuf;
use zugmeled::Status;

#[test]
fn functions_have_the_types_of_the_header() {
    let declared = statements(&source("src/ffi.rs"), "fn zug_");
    let told = statements(&declarations(&source("../../include/zugmeled.h")), "zug_");
    let told: Vec<String> = told
        .iter()
        .filter(|it| it.contains('('))
        .map(|it| function_in_rust(it))
        .collect();
    assert_eq!(told.len(), 29);
    assert_eq!(declared, told);
}

#[test]
fn constants_have_the_numbers_of_the_header() {
    let header = source("../../include/zugmeled.h");
    let declared = source("src/ffi.rs").replace('_', "");
    let told: Vec<(&str, u64)> = header.lines().filter_map(constant).collect();
    assert!(told.len() > 70);
    for (name, number) in told {
        let name = name.replace('_', "");
        let lines = [
            format!("pub const {name}: u32 = {number};"),
            format!("pub const {name}: u32 = 0x{number:X};"),
        ];
        assert!(
            lines.iter().any(|line| declared.contains(line)),
            "{name} is {number}"
        );
    }
}

#[test]
fn statuses_of_the_header_have_words() {
    let header = source("../../include/zugmeled.h");
    let told = between(&header, "/* Statuses. */", "/* Rights");
    let numbers: Vec<u64> = told
        .lines()
        .filter_map(constant)
        .map(|(_, number)| number)
        .filter(|&number| number != 0)
        .collect();
    assert_eq!(numbers.len(), 13);
    for number in numbers {
        let words = Status(number as u32).to_string();
        assert!(!words.starts_with("the call was refused"), "{words}");
    }
}

#[test]
fn info_has_the_fields_of_the_header() {
    check_fields("zug_info", "Info");
}

#[test]
fn rows_have_the_fields_of_the_header() {
    check_fields("zug_subkey", "Subkey");
    check_fields("zug_value", "Value");
}

fn check_fields(name: &str, name_in_rust: &str) {
    let header = without_comments(&source("../../include/zugmeled.h"));
    let told = between(&header, &format!("typedef struct {name} {{"), "}");
    let told: Vec<String> = told
        .split(';')
        .map(str::trim)
        .filter(|it| !it.is_empty())
        .map(parameter_in_rust)
        .collect();
    let ffi = source("src/ffi.rs");
    let declared = between(&ffi, &format!("pub struct {name_in_rust} {{"), "}");
    let declared: Vec<String> = declared
        .split(',')
        .map(|field| field.trim().trim_start_matches("pub ").to_string())
        .filter(|field| !field.is_empty())
        .collect();
    assert_eq!(declared, told);
}

fn source(path: &str) -> String {
    fs::read_to_string(PathBuf::from(env!("CARGO_MANIFEST_DIR")).join(path)).unwrap()
}

fn between<'a>(text: &'a str, from: &str, to: &str) -> &'a str {
    text.split_once(from).unwrap().1.split_once(to).unwrap().0
}

fn without_comments(text: &str) -> String {
    let mut parts = text.split("/*");
    let first = parts.next().unwrap_or_default().to_string();
    parts.fold(first, |code, part| code + part.split_once("*/").unwrap().1)
}

/// The declarations alone: no comments, and no lines of the preprocessor.
fn declarations(text: &str) -> String {
    let code = without_comments(text);
    let lines: Vec<&str> = code.lines().filter(|line| !line.starts_with('#')).collect();
    lines.join("\n")
}

/// The statements of a text that have a word, in the form `name(parameter, ..) -> result`, with one
/// space between words.
fn statements(text: &str, word: &str) -> Vec<String> {
    text.split(';')
        .filter(|it| it.contains(word))
        .map(in_one_form)
        .collect()
}

fn in_one_form(statement: &str) -> String {
    let words: Vec<&str> = statement.split_whitespace().collect();
    let line = words
        .join(" ")
        .replace("( ", "(")
        .replace(", )", ")")
        .replace(",)", ")");
    match line.rsplit_once("fn zug_") {
        Some((_, rest)) => format!("zug_{rest}"),
        None => line,
    }
}

/// `uint32_t zug_name(size_t a)` as `zug_name(a: usize) -> u32`.
fn function_in_rust(declaration: &str) -> String {
    let (head, parameters) = declaration.trim_end_matches(')').split_once('(').unwrap();
    let (result, name) = head.rsplit_once(' ').unwrap();
    let parameters: Vec<String> = match parameters {
        "void" => Vec::new(),
        some => some.split(", ").map(parameter_in_rust).collect(),
    };
    let result = if result.ends_with("uint32_t") {
        " -> u32"
    } else {
        ""
    };
    format!("{name}({}){result}", parameters.join(", "))
}

/// `const uint8_t *name` as `name: *const u8`.
fn parameter_in_rust(parameter: &str) -> String {
    let (kind, name) = parameter.rsplit_once([' ', '*']).unwrap();
    let is_pointer = parameter.contains('*');
    let kind = match kind.trim() {
        "const uint8_t" => "*const u8",
        "uint8_t" if is_pointer => "*mut u8",
        "uint32_t" if is_pointer => "*mut u32",
        "uint64_t" if is_pointer => "*mut u64",
        "zug_hive" => "*mut HiveWords",
        "zug_info" => "*mut Info",
        "zug_subkey" => "*mut Subkey",
        "zug_value" => "*mut Value",
        "uint8_t" => "u8",
        "uint32_t" => "u32",
        "uint64_t" => "u64",
        "size_t" => "usize",
        "bool" => "bool",
        other => panic!("{other} isn't known"),
    };
    format!("{name}: {kind}")
}

/// The name and the number of `#define ZUG_NAME 0x1u`.
fn constant(line: &str) -> Option<(&str, u64)> {
    let (name, number) = line.strip_prefix("#define ZUG_")?.split_once(' ')?;
    let number = number.split_whitespace().next()?.trim_end_matches('u');
    let number = match number.strip_prefix("0x") {
        Some(digits) => u64::from_str_radix(digits, 16),
        None => number.parse(),
    };
    Some((name, number.ok()?))
}
