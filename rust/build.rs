//! Reads the proved source, `crates/*/src/*.rt`, and writes it as one Rust file, a module for each crate. The sentences of the refusals come
//! from the table that C reads too.

#[path = "build/refusals.rs"]
mod refusals;
#[path = "build/strip.rs"]
mod strip;

use std::fmt::Write;
use std::path::{Path, PathBuf};
use std::{env, fs};

/// The crates of the library, as `crates.txt` has them. `demands` and `printed` have no code, and the rest are programs.
const LIBRARY: [&str; 12] = [
    "verdicts", "steps", "objects", "lists", "rules", "requests", "summaries", "messages", "sinks",
    "ports", "flat", "board",
];

fn main() {
    println!("cargo::rerun-if-changed=build.rs");
    println!("cargo::rerun-if-changed=build");
    let root = root();
    let needs = read(&root.join("crates.txt"));
    let mut library = String::new();
    for name in LIBRARY {
        let below = below(&needs, name);
        let text = module(
            &root.join("crates").join(name).join("src"),
            "lib",
            name,
            &below,
        );
        writeln!(library, "pub mod {name} {{\n{text}}}\n").unwrap();
    }
    let out = PathBuf::from(env::var("OUT_DIR").unwrap());
    fs::write(out.join("library.rs"), library).unwrap();
    fs::write(out.join("refusals.rs"), sentences(&root)).unwrap();
}

/// Where the proved source is: one folder up in the repository. A package that tools/rust_package.sh made has it inside.
fn root() -> PathBuf {
    let package = PathBuf::from(env::var("CARGO_MANIFEST_DIR").unwrap());
    if package.join("crates").is_dir() {
        return package;
    }
    package.join("..")
}

fn sentences(root: &Path) -> String {
    let path = root.join("include/arinduleu_refusals.inc");
    match refusals::rows(&read(&path)) {
        Ok(rows) => refusals::function(&rows),
        Err(why) => stop(&format!("{}: {why}", path.display())),
    }
}

fn read(path: &Path) -> String {
    println!("cargo::rerun-if-changed={}", path.display());
    match fs::read_to_string(path) {
        Ok(text) => text,
        Err(error) => stop(&format!("{}: {error}", path.display())),
    }
}

fn stop(why: &str) -> ! {
    eprintln!("arinduleu: {why}");
    std::process::exit(1)
}

/// The crates that a crate needs, from its line of `crates.txt`.
fn below(needs: &str, name: &str) -> Vec<String> {
    let line = needs
        .lines()
        .find_map(|l| l.strip_prefix(name)?.strip_prefix(':'));
    let Some(line) = line else {
        stop(&format!("crates.txt has no crate '{name}'"));
    };
    line.split_whitespace().map(String::from).collect()
}

/// The text of one file with the files of its modules inside it.
fn module(src: &Path, file: &str, name: &str, below: &[String]) -> String {
    let path = src.join(file).with_extension("rt");
    let shown = format!("crates/{name}/src/{file}.rt");
    let stripped = match strip::strip(&shown, name, &read(&path)) {
        Ok(stripped) => stripped,
        Err(why) => stop(&why),
    };
    let mut text = stripped.text;
    // Behind the comment of the module, which has to stand first.
    text.insert_str(first_code(&text), &in_scope(below));
    for inner in stripped.modules {
        let body = module(src, &inner, name, below);
        text = text.replace(
            &format!("mod {inner};\n"),
            &format!("mod {inner} {{\n{body}}}\n"),
        );
    }
    text
}

/// Where the first line begins that is no module comment.
fn first_code(text: &str) -> usize {
    text.split_inclusive('\n')
        .take_while(|l| l.starts_with("//!"))
        .map(str::len)
        .sum()
}

/// Other crates are named as in Rattle.
fn in_scope(below: &[String]) -> String {
    below
        .iter()
        .map(|b| format!("#[allow(unused_imports)]\nuse crate::{b};\n"))
        .collect()
}
