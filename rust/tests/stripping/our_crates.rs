//! The proved source itself, against a rule that goes by lines and reads no Rust.

use crate::strip::marks::{PUT_IN, WHOLE};
use crate::strip::strip;
use std::fs;
use std::path::{Path, PathBuf};

/// The crates that `build.rs` reads.
const LIBRARY: [&str; 12] = [
    "verdicts",
    "steps",
    "objects",
    "lists",
    "rules",
    "requests",
    "summaries",
    "messages",
    "sinks",
    "ports",
    "flat",
    "board",
];

/// What begins a line that only the prover reads.
const GHOST: [&str; 11] = [
    "ghost ",
    "pub ghost ",
    "pub(crate) ghost ",
    "const _: () = prove!(",
    "impl Model for ",
    "ensures ",
    "requires ",
    "prove!(",
    "#[unsafe(no_mangle)]",
    "#[tactic(",
    "#![tactic(",
];

/// Of these, how many have a comment above them that goes with them.
const SAID: usize = 7;

fn is_comment(line: &String) -> bool {
    line.trim_start().starts_with("//")
}

fn indent(line: &str) -> usize {
    line.len() - line.trim_start().len()
}

/// Line by line, and without reading Rust at all: every file of ours keeps ghost text on lines of its own. What goes on has further lines that
/// are indented more, and a line that ends it with a bracket as deep as the first.
fn without_ghost_lines(name: &str, text: &str) -> Vec<String> {
    let mut kept: Vec<String> = Vec::new();
    let mut above = None;
    let mut model = false;
    for line in text.lines() {
        let begins = line.trim_start();
        if model {
            model = line != "}";
            continue;
        }
        let goes_on = |a| indent(line) > a || indent(line) == a && begins.starts_with(['}', ')']);
        if above.is_some_and(goes_on) {
            end_of_a_declaration(line, &mut kept);
            continue;
        }
        let ghost = GHOST.iter().position(|g| begins.starts_with(g));
        let derive = begins.starts_with("#[derive(");
        above = (ghost.is_some() || derive).then_some(indent(line));
        model = ghost == Some(4);
        if ghost.is_some_and(|at| at < SAID) {
            // But for that at the head of the file.
            while !kept.iter().all(is_comment) && kept.last().is_some_and(is_comment) {
                kept.pop();
            }
            end_of_a_declaration(line, &mut kept);
        }
        if above.is_none() {
            kept.push(line.to_string());
        }
    }
    let kept = kept.into_iter();
    kept.map(|line| match line.trim_start().starts_with("//") {
        true => line,
        false => line
            .replace("extern \"C\" fn", "fn")
            .replace("std::", "core::")
            .replace("crate::", &format!("crate::{name}::")),
    })
    .collect()
}

/// Where a trait declares a function, the semicolon behind its last clause is that of the function.
fn end_of_a_declaration(line: &str, kept: &mut [String]) {
    let Some(last) = kept.last_mut() else {
        return;
    };
    let clause = !line.trim_start().starts_with("ghost ") && last.trim_start().starts_with("fn ");
    if clause && line.ends_with("};") {
        last.push(';');
    }
}

/// The lines that the reader gives, with plain comments again and without the attributes that it adds.
fn without_additions(text: &str) -> Vec<String> {
    let added = [
        "#[derive(",
        "#[inline]",
        "#[inline(always)]",
        "#[inline(never)]",
        "#[must_use]",
    ];
    let kept = text
        .lines()
        .filter(|line| !added.iter().any(|a| line.trim_start().starts_with(a)));
    kept.map(|line| match line.trim_start().starts_with("//") {
        true => line.replacen("//!", "//", 1).replacen("///", "//", 1),
        false => line.replace("#[repr(transparent)]", "#[repr(C)]"),
    })
    .collect()
}

/// Each file of a crate with its text.
fn files(name: &str) -> Vec<(String, String)> {
    let src = Path::new(env!("CARGO_MANIFEST_DIR"))
        .join("../crates")
        .join(name)
        .join("src");
    let file = |path: PathBuf| {
        let file = path.file_stem().unwrap().to_string_lossy().into_owned();
        (file, fs::read_to_string(&path).unwrap())
    };
    fs::read_dir(src)
        .unwrap()
        .map(|entry| file(entry.unwrap().path()))
        .collect()
}

#[test]
fn our_crates_are_left_as_they_are() {
    let mut lines = 0;
    for name in LIBRARY {
        let mut found = Vec::new();
        let mut declared = vec!["lib".to_string()];
        for (file, text) in files(name) {
            let stripped = strip(&file, name, &text).unwrap();
            let code = without_additions(&stripped.text);
            assert_eq!(
                code,
                without_ghost_lines(name, &text),
                "crate {name}, file {file}"
            );
            assert!(stripped.text.ends_with('\n'));
            assert!(!stripped.text.contains('\r'));
            declared.extend(stripped.modules);
            found.push(file);
            lines += code.len();
        }
        found.sort();
        declared.sort();
        assert_eq!(found, declared, "crate {name}: files and modules");
    }
    println!("{lines} lines");
    assert!(lines > 2000);
}

/// Each function of a crate by its path, with the mark for rustc that the reader put above it.
fn marked(name: &str) -> Vec<(String, String)> {
    let mut found = Vec::new();
    for (file, text) in files(name) {
        let stripped = strip(&file, name, &text).unwrap();
        let (mut of, mut mark) = (String::new(), "");
        for line in stripped.text.lines() {
            let code = line.trim_start();
            let code = code.strip_prefix("pub(crate) ").unwrap_or(code);
            let code = code.strip_prefix("pub ").unwrap_or(code);
            let word = |text: &str| {
                let text = text.split(|c: char| !c.is_ascii_alphanumeric() && c != '_');
                text.map(String::from).next().unwrap_or_default()
            };
            if line.starts_with("impl") {
                let header = line.rsplit_once(" for ").map(|it| it.1);
                let header = header.unwrap_or_else(|| line.split_once(' ').unwrap().1);
                of = word(header) + "::";
            } else if line == "}" {
                of.clear();
            } else if code.starts_with("#[inline") {
                mark = code;
            } else if let Some(named) = code.strip_prefix("fn ") {
                let path = format!("{name}::{of}{}", word(named));
                found.push((path, mark.to_string()));
            }
        }
    }
    found
}

/// The functions that the reader knows by name are there, under the marks that it has for them, and no other is kept whole.
#[test]
fn functions_known_by_name() {
    let functions: Vec<(String, String)> = LIBRARY.into_iter().flat_map(marked).collect();
    let with = |mark: &str| -> Vec<&str> {
        let marked = functions.iter().filter(|it| it.1 == mark);
        marked.map(|it| it.0.as_str()).collect()
    };
    assert_eq!(with("#[inline(never)]"), WHOLE);
    let always = with("#[inline(always)]");
    for path in PUT_IN.into_iter().chain(["lists::shape_for"]) {
        assert!(always.contains(&path), "{path}: {always:?}");
    }
}

/// Every line of every file is in the one file that rustc reads, as often as it should be, and nothing else is but what names the crates
/// below and puts a module around its file.
#[test]
fn rustc_reads_all_of_it() {
    let mut wanted = Vec::new();
    for name in LIBRARY {
        wanted.extend([format!("pub mod {name} {{"), "}".to_string(), String::new()]);
        for (file, text) in files(name) {
            for line in strip(&file, name, &text).unwrap().text.lines() {
                match line.strip_prefix("mod ").and_then(|l| l.strip_suffix(';')) {
                    Some(inner) => wanted.extend([format!("mod {inner} {{"), "}".to_string()]),
                    None => wanted.push(line.to_string()),
                }
            }
        }
    }
    let below = LIBRARY.map(|name| format!("use crate::{name};"));
    let added =
        |line: &&str| *line == "#[allow(unused_imports)]" || below.iter().any(|b| b == line);
    let library = include_str!(concat!(env!("OUT_DIR"), "/library.rs"));
    let mut got: Vec<String> = library
        .lines()
        .filter(|l| !added(l))
        .map(String::from)
        .collect();
    wanted.sort();
    got.sort();
    assert_eq!(got, wanted);
}
