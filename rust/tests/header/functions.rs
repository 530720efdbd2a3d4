//! One C interface, three texts: `include/lta.h`, the functions that the Rattle crate `lta_c` exports, and the
//! declarations of `src/ffi.rs`. The same functions, in each file in the same order, with the same arguments.
use std::fs;
use std::path::PathBuf;

use crate::text::{header, text, top, without};

/// An argument or result: `*const` or `*mut` of a number, or a number.
#[derive(Clone, Debug, PartialEq, Eq)]
struct Argument {
    name: String,
    kind: String,
}

#[derive(Clone, Debug, PartialEq, Eq)]
struct Function {
    name: String,
    arguments: Vec<Argument>,
    result: String,
}

fn argument(name: &str, kind: &str) -> Argument {
    Argument { name: name.to_string(), kind: kind.to_string() }
}

/// C's name of a number in Rust's words.
fn c_number(name: &str) -> &str {
    match name {
        "uint64_t" => "u64",
        "uint32_t" => "u32",
        "uint8_t" => "u8",
        "int64_t" => "i64",
        "int32_t" => "i32",
        "double" => "f64",
        "size_t" => "usize",
        other => panic!("{other} in the header"),
    }
}

fn c_argument(text: &str) -> Argument {
    let spaced = text.replace('*', " * ");
    match spaced.split_whitespace().collect::<Vec<_>>()[..] {
        ["const", number, "*", name] => argument(name, &format!("*const {}", c_number(number))),
        [number, "*", name] => argument(name, &format!("*mut {}", c_number(number))),
        [number, name] => argument(name, c_number(number)),
        _ => panic!("argument {text} in the header"),
    }
}

/// The functions that the header declares.
fn of_header(text: &str) -> Vec<Function> {
    let text = without(text, "/*", "*/");
    let lines = text.lines().filter(|line| !line.starts_with('#') && !line.starts_with("extern"));
    let code = lines.collect::<Vec<_>>().join(" ");
    let declarations = code.split(';').filter(|part| part.contains('('));
    declarations
        .map(|declaration| {
            let (front, arguments) = declaration.split_once('(').unwrap();
            let (arguments, behind) = arguments.split_once(')').unwrap();
            assert!(behind.trim().is_empty(), "{behind} behind a declaration");
            let words: Vec<_> = front.split_whitespace().collect();
            let [result, name] = words[..] else {
                panic!("declaration {front} in the header");
            };
            Function {
                name: name.to_string(),
                arguments: arguments.split(',').map(c_argument).collect(),
                result: c_number(result).to_string(),
            }
        })
        .collect()
}

/// A slice is lent as its pointer and then its length.
fn lowered(name: &str, kind: &str) -> Vec<Argument> {
    let pointer = |number: &str, front: &str| {
        let number = number.strip_suffix(']').expect("a slice");
        vec![argument(name, &format!("{front} {number}")), argument(&format!("{name}_len"), "usize")]
    };
    if let Some(number) = kind.strip_prefix("&mut [") {
        pointer(number, "*mut")
    } else if let Some(number) = kind.strip_prefix("&[") {
        pointer(number, "*const")
    } else {
        vec![argument(name, kind)]
    }
}

/// The functions behind each opening, in Rattle or in Rust.
fn of_code(text: &str, opening: &str) -> Vec<Function> {
    let lines = text.lines().map(|line| line.split("//").next().unwrap_or_default());
    let code = lines.collect::<Vec<_>>().join(" ");
    code.split(opening)
        .skip(1)
        .map(|part| {
            let (name, rest) = part.split_once('(').expect("arguments");
            let (arguments, rest) = rest.split_once(')').expect("the end of the arguments");
            let arguments = arguments.split(',').filter(|part| !part.trim().is_empty());
            let result = rest.trim_start().strip_prefix("->").expect("a result").trim_start();
            let end = result.find(|c: char| !c.is_alphanumeric()).expect("more behind a result");
            Function {
                name: name.trim().to_string(),
                arguments: arguments
                    .flat_map(|part| {
                        let (name, kind) = part.split_once(':').expect("a type");
                        lowered(name.trim(), kind.trim())
                    })
                    .collect(),
                result: result[..end].to_string(),
            }
        })
        .collect()
}

/// The functions of each Rattle file of `lta_c`.
fn of_rattle() -> Vec<Vec<Function>> {
    let dir = top().join("crates/lta_c/src");
    let entries = fs::read_dir(&dir).unwrap_or_else(|error| panic!("{}: {error}", dir.display()));
    let mut files: Vec<PathBuf> = entries.map(|entry| entry.unwrap().path()).collect();
    files.retain(|path| path.extension().is_some_and(|end| end == "rt"));
    files.iter().map(|path| exported(&text(path))).collect()
}

/// The functions of a Rattle file, each of which must be exported under its own name.
fn exported(text: &str) -> Vec<Function> {
    let marks = text.matches("#[unsafe(no_mangle)]").count();
    let functions = of_code(text, "pub extern \"C\" fn ");
    assert_eq!(marks, functions.len(), "#[unsafe(no_mangle)] before each exported function and no other");
    functions
}

fn compare(left: &[Function], right: &[Function], texts: &str) {
    let names = |list: &[Function]| list.iter().map(|f| f.name.clone()).collect::<Vec<_>>();
    assert_eq!(names(left), names(right), "names and order of functions, {texts}");
    for (one, other) in left.iter().zip(right) {
        assert_eq!(one, other, "{texts}");
    }
}

#[test]
fn the_header_is_what_the_library_exports() {
    let header = of_header(&header());
    assert_eq!(header.len(), 14, "functions of the interface");
    let files = of_rattle();
    let count: usize = files.iter().map(Vec::len).sum();
    assert_eq!(count, header.len(), "functions that crates/lta_c exports");
    for file in &files {
        let named = |function: &&Function| file.iter().any(|other| other.name == function.name);
        let declared: Vec<Function> = header.iter().filter(named).cloned().collect();
        compare(&declared, file, "header and crates/lta_c");
    }
}

#[test]
fn the_header_is_what_rust_declares() {
    let header = of_header(&header());
    let code = text(&top().join("rust/src/ffi.rs"));
    let (_, block) = code.split_once("extern \"C\" {").expect("the extern block");
    let (block, _) = block.split_once('}').expect("its end");
    compare(&header, &of_code(block, "pub fn "), "header and src/ffi.rs");
}

#[test]
fn a_difference_is_found() {
    let header = of_header("uint64_t f(const uint8_t *s, size_t s_len, int64_t *o, size_t o_len, double x);");
    let same = "#[unsafe(no_mangle)]\npub extern \"C\" fn f(s: &[u8], o: &mut [i64], x: f64) -> u64 {";
    assert_eq!(header, exported(same));
    for (old, new) in [("&[u8]", "&mut [u8]"), ("i64", "i32"), ("f(", "g("), ("x:", "y:"), (", x: f64", "")] {
        assert_ne!(header, exported(&same.replace(old, new)), "{old} as {new}");
    }
}
