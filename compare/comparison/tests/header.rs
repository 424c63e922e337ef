//! The C header says what the library exports: each function's name, and each parameter's name, type and place. Of a refusal the header, the README and
//! the Rust crate tell the same.

use station::Refusal;
use std::path::Path;

fn read(file: &str) -> String {
    let path = Path::new(env!("CARGO_MANIFEST_DIR"))
        .join("../..")
        .join(file);
    std::fs::read_to_string(&path).unwrap_or_else(|e| panic!("{}: {e}", path.display()))
}

/// The prototype that C needs for an exported function, written `fn NAME(NAME: TYPE, .., )` in the library.
fn prototype(function: &str) -> String {
    let (name, rest) = function.split_once('(').expect("parameters");
    let (parameters, _) = rest.split_once(')').expect("an end of the parameters");
    let parameters: Vec<String> = parameters
        .split(',')
        .map(str::trim)
        .filter(|p| !p.is_empty())
        .map(|p| {
            let (name, kind) = p.split_once(": ").expect("a type");
            match kind {
                "usize" => format!("size_t {name}"),
                "&[u8]" => format!("const uint8_t *{name}, size_t {name}_len"),
                "&[u32]" => format!("const uint32_t *{name}, size_t {name}_len"),
                "&[f64]" => format!("const double *{name}, size_t {name}_len"),
                "&mut [u8]" => format!("uint8_t *{name}, size_t {name}_len"),
                "&mut [u32]" => format!("uint32_t *{name}, size_t {name}_len"),
                "&mut [i64]" => format!("int64_t *{name}, size_t {name}_len"),
                "&mut [f64]" => format!("double *{name}, size_t {name}_len"),
                other => panic!("no C type is known for {other}"),
            }
        })
        .collect();
    format!("mesh_answer {name}({});", parameters.join(", "))
}

/// The prototypes of a header, each on one line.
fn declared(header: &str) -> Vec<String> {
    header
        .split("mesh_answer mesh_")
        .skip(1)
        .map(|rest| {
            let text = &rest[..=rest.find(';').expect("an end")];
            let words: Vec<&str> = text.split_whitespace().collect();
            format!("mesh_answer mesh_{}", words.join(" "))
        })
        .collect()
}

#[test]
fn the_header_declares_what_is_exported() {
    let exported: Vec<String> = read("crates/station/src/lib.rt")
        .split("pub extern \"C\" fn ")
        .skip(1)
        .map(prototype)
        .collect();
    assert_eq!(exported.len(), 26);
    assert_eq!(declared(&read("include/station.h")), exported);
}

/// Each refusal with what the crate tells of it, but for its number and name.
fn told() -> [(Refusal, String); 7] {
    [
        Refusal::Layout,
        Refusal::Components,
        Refusal::Length,
        Refusal::Room { needed: 66 },
        Refusal::Record,
        Refusal::Thin,
        Refusal::File,
    ]
    .map(|refusal| {
        let printed = refusal.to_string();
        let (_, sentence) = printed.split_once(": ").expect("a number and a name");
        let sentence = sentence.strip_suffix(": it needs 66").unwrap_or(sentence);
        (refusal, sentence.to_string())
    })
}

#[test]
fn the_header_tells_the_refusals() {
    let header = read("include/station.h");
    // a text that is too long for its line goes on in the next
    let lines: Vec<&str> = header.lines().map(str::trim).collect();
    let text = lines.join(" ").replace("\" \"", "");
    for (refusal, sentence) in told() {
        let name = refusal.name();
        for line in [
            format!("MESH_{name} = {}", refusal.number()),
            format!("case MESH_{name}: return \"{sentence}\";"),
        ] {
            assert!(text.contains(&line), "{line} is missing");
        }
    }
}

#[test]
fn the_readme_tells_the_refusals() {
    let readme = read("README.md");
    for (refusal, sentence) in told() {
        let row = format!("| {} | {} | ", refusal.number(), refusal.name());
        let rows: Vec<&str> = readme
            .lines()
            .filter_map(|l| l.strip_prefix(&row))
            .collect();
        let [cell] = rows[..] else {
            panic!("not one row of {refusal:?}");
        };
        // the table's sentences begin with a capital
        let (first, rest) = sentence.split_at(1);
        let begins = cell.starts_with(&(first.to_uppercase() + rest));
        assert!(begins, "of {refusal:?} the table says {cell}");
    }
}
