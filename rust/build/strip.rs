// From Rattle to Rust: what only the prover reads is taken away. Everything else is copied as it stands, but for what `Stripped` lists.
// A form that is not known here is an error with its line, never a guess.

#[path = "ghost.rs"]
mod ghost;
#[path = "marks.rs"]
pub mod marks;
#[path = "text.rs"]
mod text;

use ghost::GHOST;
use text::{bracketed, generics, is_clause, is_word, line_of, word_of};

/// One source file as Rust. Beside the ghost text that is gone, these differ from the file:
/// - a comment right above an item, and one above a field or a variant, is a doc comment, and the one at the head of the file is the
///   module's; one right above ghost text goes with it;
/// - structs and enums derive `PartialEq`, `Eq`, `Hash` and `Debug` beside what they derive in the source, and some `Default` or an order
///   (`build/marks.rs`);
/// - a public function that returns something is marked `#[must_use]`: a verdict that nobody looks at is a slip;
/// - `crate::` names the Rattle crate, which is a module here, and `std::` is `core::`;
/// - functions are marked `#[inline]`: most are a few lines, and rustc looks into those of another package only where they are marked;
/// - a struct of one number is `#[repr(transparent)]` and not `#[repr(C)]`: the same bytes, but handed on as the number itself;
/// - `#[unsafe(no_mangle)]` and `extern "C"` are gone: `rust/c` has the C names;
/// - what says which tactics the prover tries is gone, and so is a `prove!(..);`, which costs nothing when it runs;
/// - an `impl Model`, which is ghost alone, is gone.
pub struct Stripped {
    pub text: String,
    /// The modules that the file declares. Each stands in the text as a line `mod NAME;`.
    pub modules: Vec<String>,
}

const REPR_C: &str = "#[repr(C)]\n";

const DERIVE: &str = "#[derive(";

const DEFAULT: &str = "#[default]\n";

const EXPORTED: &str = "#[unsafe(no_mangle)]\n";

const TRANSPARENT: &str = "#[repr(transparent)]\n";

const PROVED: &str = "const _: () = prove!(";

const MODEL: &str = "Model";

/// In Rattle a formatter has the type of what it writes to.
const FORMATTER: (&str, &str) = (
    "fn fmt<W: fmt::Write>(&self, f: &mut fmt::Formatter<W>) -> fmt::Result",
    "fn fmt(&self, f: &mut fmt::Formatter) -> fmt::Result",
);

/// Words of contracts and proofs that may stand inside a body, and are not known there.
const GHOST_WORDS: [&str; 9] = [
    "ghost",
    "requires",
    "ensures",
    "invariant",
    "decreases",
    "assert",
    "proof",
    "unsafe",
    // A bound that means another thing in Rust.
    "Drop",
];

/// Macros that are the same in Rust.
const MACROS: [&str; 2] = ["matches", "write"];

pub fn strip(file: &str, krate: &str, source: &str) -> Result<Stripped, String> {
    let mut reader = Reader {
        file,
        krate,
        source,
        rest: source,
        line: 1,
        out: String::new(),
        modules: Vec::new(),
        derived: Vec::new(),
        indent: 0,
    };
    reader.head()?;
    reader.items(&Scope::File)?;
    Ok(Stripped {
        text: reader.out,
        modules: reader.modules,
    })
}

/// Where an item stands.
#[derive(PartialEq)]
enum Scope<'a> {
    File,
    // The type that the block is of.
    Impl(&'a str),
    Trait { name: &'a str, public: bool },
}

struct Reader<'a> {
    file: &'a str,
    krate: &'a str,
    source: &'a str,
    rest: &'a str,
    line: usize,
    out: String,
    modules: Vec<String>,
    // What the type that comes next derives in the source.
    derived: Vec<&'a str>,
    // Of the function or the closure that is read.
    indent: usize,
}

impl<'a> Reader<'a> {
    fn fail<T>(&self, why: &str) -> Result<T, String> {
        let here = self.rest.lines().next().unwrap_or("the end of the file");
        Err(format!("{}:{}: {why}: {here}", self.file, self.line))
    }

    // The next `n` bytes.
    fn take(&mut self, n: usize) -> &'a str {
        let (taken, rest) = self.rest.split_at(n);
        self.line += taken.matches('\n').count();
        self.rest = rest;
        taken
    }

    fn copy(&mut self, n: usize) {
        let taken = self.take(n);
        self.out.push_str(taken);
    }

    fn word(&self) -> &'a str {
        word_of(self.rest)
    }

    // Spaces of ASCII alone: any other is a sign that is not known.
    fn space(&self) -> usize {
        let end = self.rest.find(|c: char| !c.is_ascii_whitespace());
        end.unwrap_or(self.rest.len())
    }

    fn line_length(&self) -> usize {
        line_of(self.rest).len()
    }

    // The spaces that stand before the next sign, where it is the first of its line.
    fn indent_here(&self) -> Option<usize> {
        let before = self.out.trim_end_matches(' ');
        let first = before.is_empty() || before.ends_with('\n');
        first.then_some(self.out.len() - before.len())
    }

    // The comment at the head of a file is the module's own.
    fn head(&mut self) -> Result<(), String> {
        if !self.rest.starts_with("//") {
            return self.fail("a file begins with a comment that says what it is for");
        }
        while self.rest.starts_with("//") {
            self.comment("//!")?;
        }
        Ok(())
    }

    // Behind code on its line, a doc comment would go to what comes next.
    fn comment(&mut self, mark: &str) -> Result<(), String> {
        if mark != "//" && self.indent_here().is_none() {
            return self.fail("a comment behind code");
        }
        let n = self.line_length();
        let line = self.take(n);
        self.out.push_str(mark);
        self.out.push_str(&line[2..]);
        Ok(())
    }

    // A comment with an empty line behind it belongs to no item: it is a heading.
    fn mark(&self) -> &'static str {
        let is_comment = |l: &&str| l.trim_start().starts_with("//");
        match self.rest.lines().find(|l| !is_comment(l)) {
            Some("") => "//",
            _ => "///",
        }
    }

    // Items up to the end of the file, or of the block that they stand in.
    fn items(&mut self, scope: &Scope) -> Result<(), String> {
        loop {
            let n = self.space();
            self.copy(n);
            let whole_file = *scope == Scope::File;
            if self.rest.is_empty() {
                return if whole_file {
                    Ok(())
                } else {
                    self.fail("a block has no end")
                };
            }
            if self.rest.starts_with('}') && !whole_file {
                self.copy(1);
                return Ok(());
            }
            self.item(scope)?;
        }
    }

    fn item(&mut self, scope: &Scope) -> Result<(), String> {
        if self.rest.starts_with("//") {
            return self.comment(self.mark());
        }
        if self.rest.starts_with("#![tactic(") || self.rest.starts_with("#[tactic(") {
            return self.tactics();
        }
        if self.rest.starts_with(EXPORTED) {
            self.take(EXPORTED.len());
            return Ok(());
        }
        if self.rest.starts_with(DERIVE) {
            return self.derives();
        }
        if let Some(behind) = self.rest.strip_prefix(REPR_C) {
            let behind = &behind[derive_length(behind).unwrap_or(0)..];
            if is_one_number(behind.lines().next().unwrap_or("")) {
                self.take(REPR_C.len());
                self.out.push_str(TRANSPARENT);
            } else {
                self.copy(REPR_C.len());
            }
            return Ok(());
        }
        if self.rest.starts_with("ghost use ") {
            return self.ghost_use();
        }
        if self.rest.starts_with(PROVED) {
            let Some(n) = self.proved(PROVED.len() - 1) else {
                return self.fail("a proved condition is no line of its own");
            };
            self.forget(n);
            return Ok(());
        }
        if *scope != Scope::File && self.rest.starts_with("ghost ") {
            return self.ghost_member(";");
        }
        let visible = ["pub(crate) ", "pub "]
            .into_iter()
            .find(|v| self.rest.starts_with(v))
            .unwrap_or("");
        self.take(visible.len());
        match self.word() {
            "struct" | "enum" => self.type_item(visible),
            "use" if self.rest.starts_with("use std::marker::") => self.use_marker(visible),
            "use" | "type" => {
                self.out.push_str(visible);
                self.statement()
            }
            "const" if !self.rest.starts_with("const fn ") => {
                self.out.push_str(visible);
                self.statement()
            }
            "mod" if visible.is_empty() => self.module(),
            "impl" if visible.is_empty() => self.impl_block(),
            "trait" => self.trait_block(visible),
            "extern" => {
                if !self.rest.starts_with("extern \"C\" fn ") {
                    return self.fail("an unknown item");
                }
                self.take("extern \"C\" ".len());
                self.function(visible, scope)
            }
            "fn" => self.function(visible, scope),
            _ => self.fail("an unknown item"),
        }
    }

    // `#[derive(A, B)]`, on one line or several.
    fn derives(&mut self) -> Result<(), String> {
        let Some(n) = derive_length(self.rest) else {
            return self.fail("an attribute does not end with its line");
        };
        let (derive, behind) = self.rest.split_at(n);
        if !is_type(behind.strip_prefix(REPR_C).unwrap_or(behind)) || !self.derived.is_empty() {
            return self.fail("a derive without its type");
        }
        let names = derive[DERIVE.len()..]
            .trim_end()
            .trim_end_matches(")]")
            .trim();
        let names: Vec<&str> = names
            .trim_end_matches(',')
            .split(',')
            .map(str::trim)
            .collect();
        if !names.iter().all(|it| marks::is_derived(it)) {
            return self.fail("an unknown derive");
        }
        self.derived = names;
        self.take(n);
        Ok(())
    }

    fn module(&mut self) -> Result<(), String> {
        let n = self.line_length();
        let line = self.rest[..n].trim_end();
        let Some(name) = line.strip_prefix("mod ").and_then(|l| l.strip_suffix(';')) else {
            return self.fail("an unknown form of module");
        };
        if !name.chars().all(is_word) {
            return self.fail("an unknown form of module");
        }
        self.modules.push(name.to_string());
        self.copy(n);
        Ok(())
    }

    // `Model` is the prover's alone. What else is named beside it stays.
    fn use_marker(&mut self, visible: &str) -> Result<(), String> {
        let n = self.line_length();
        let line = self.rest[..n].trim_end();
        let names = line
            .strip_prefix("use std::marker::")
            .and_then(|l| l.strip_suffix(';'));
        let names = names.unwrap_or("").trim_matches(['{', '}']);
        let kept: Vec<&str> = names.split(", ").filter(|it| *it != MODEL).collect();
        if !visible.is_empty() || kept.iter().any(|it| *it != "PhantomData") {
            return self.fail("an unknown marker");
        }
        if kept.is_empty() {
            self.forget(n);
            return Ok(());
        }
        self.take(n);
        self.out.push_str("use core::marker::PhantomData;\n");
        Ok(())
    }

    fn impl_block(&mut self) -> Result<(), String> {
        let Some(end) = self.rest.find('{') else {
            return self.fail("something is missing at the end");
        };
        let header = self.rest["impl".len()..end].trim_start();
        let header = &header[generics(header)..].trim_start();
        let (of, name) = header.split_once(" for ").unwrap_or(("", header));
        if of == MODEL {
            return self.model();
        }
        self.code(end + 1)?;
        self.items(&Scope::Impl(word_of(name)))
    }

    fn trait_block(&mut self, visible: &str) -> Result<(), String> {
        self.out.push_str(visible);
        let name = word_of(self.rest["trait".len()..].trim_start());
        self.through('{')?;
        self.items(&Scope::Trait {
            name,
            public: visible == "pub ",
        })
    }

    fn type_item(&mut self, visible: &str) -> Result<(), String> {
        // A derive stands behind the attribute, if there is one, and before the item.
        let name = self.rest.split(|c| !is_word(c)).nth(1).unwrap_or("");
        let source = self.source;
        let by_hand = |of: &str| {
            let traits = [format!(" {of} for {name}"), format!("::{of} for {name}")];
            let behind = traits
                .iter()
                .filter_map(|it| source.split_once(it.as_str()));
            behind.into_iter().any(|it| !it.1.starts_with(is_word))
        };
        let derived = std::mem::take(&mut self.derived);
        let path = format!("{}::{name}", self.krate);
        self.out.push_str(&marks::derive(&path, &derived, by_hand));
        self.out.push_str(visible);
        let Some(end) = self.rest.find(['{', ';']) else {
            return self.fail("a type has no end");
        };
        if self.rest[end..].starts_with(';') {
            return self.statement();
        }
        self.code(end)?;
        self.block(true)
    }

    // Through the next semicolon that stands in no bracket.
    fn statement(&mut self) -> Result<(), String> {
        let begin = self.line;
        let mut depth = 0;
        loop {
            let Some(c) = self.rest.chars().next() else {
                self.line = begin;
                return self.fail("a statement has no end");
            };
            match c {
                '(' | '[' | '{' => depth += 1,
                ')' | ']' | '}' => depth -= 1,
                _ => {}
            }
            self.one(c, "//")?;
            if c == ';' && depth == 0 {
                return Ok(());
            }
        }
    }

    // The signature, the contract, which goes, and the body.
    fn function(&mut self, visible: &str, scope: &Scope) -> Result<(), String> {
        let Some(indent) = self.indent_here() else {
            return self.fail("a function behind code");
        };
        self.indent = indent;
        let (begin, at) = (self.out.len(), self.rest);
        self.out.push_str(visible);
        let named = self.rest["fn".len()..].trim_start();
        let name = word_of(named);
        let open = self.rest.len() - named.len() + name.len();
        let open = open + generics(&self.rest[open..]);
        let Some(closed) =
            bracketed(&self.rest[open..]).filter(|_| self.rest[open..].starts_with('('))
        else {
            return self.fail("something is missing at the end");
        };
        let given = &at[open..open + closed];
        if self.rest.starts_with(FORMATTER.0) {
            self.take(FORMATTER.0.len());
            self.out.push_str(FORMATTER.1);
        } else {
            self.code(open + closed)?;
        }
        let gives = at[open + closed..]
            .trim_start()
            .strip_prefix("->")
            .unwrap_or("")
            .trim_start();
        self.signature()?;
        let has_body = self.contract(scope)?;
        let (owner, public) = match scope {
            Scope::File => ("", visible == "pub "),
            Scope::Impl(name) => (*name, visible == "pub "),
            Scope::Trait { name, public } => (*name, *public),
        };
        let path = [self.krate, owner, name];
        let path: Vec<&str> = path.into_iter().filter(|it| !it.is_empty()).collect();
        for mark in marks::marks(&path.join("::"), given, gives, public, has_body)
            .iter()
            .rev()
        {
            let line = format!("{mark}\n{}", " ".repeat(indent));
            self.out.insert_str(begin, &line);
        }
        if has_body {
            self.block(false)
        } else {
            self.copy(1);
            Ok(())
        }
    }

    // What a function gives, and its bounds.
    fn signature(&mut self) -> Result<(), String> {
        let mut depth = 0;
        loop {
            let n = self.space();
            let behind = &self.rest[n..];
            let Some(c) = behind.chars().next() else {
                self.copy(n);
                return self.fail("a function has no body");
            };
            match c {
                '{' => return Ok(()),
                ';' if depth == 0 => return Ok(()),
                '(' | '[' => depth += 1,
                ')' | ']' => depth -= 1,
                _ => {}
            }
            if is_clause(behind) || behind.starts_with("//") {
                return Ok(());
            }
            self.copy(n);
            if self.rest.starts_with("->") {
                self.copy(2);
            } else if is_word(c) || "&[];()<>,:+='?".contains(c) {
                self.one(c, "//")?;
            } else {
                return self.fail("an unknown form of signature");
            }
        }
    }

    // A block in braces: of a type, whose comments are doc comments, or of code.
    fn block(&mut self, of_type: bool) -> Result<(), String> {
        let begin = self.line;
        let mut depth = 0;
        loop {
            if of_type && GHOST.iter().any(|it| self.rest.starts_with(it)) {
                self.ghost_member(",")?;
                continue;
            }
            if of_type && self.rest.starts_with(DEFAULT) {
                self.copy(DEFAULT.len());
                continue;
            }
            let Some(c) = self.rest.chars().next() else {
                self.line = begin;
                return self.fail("a block has no end");
            };
            match c {
                '{' => depth += 1,
                '}' => depth -= 1,
                _ => {}
            }
            self.one(c, if of_type { "///" } else { "//" })?;
            if depth == 0 {
                return Ok(());
            }
        }
    }

    fn through(&mut self, last: char) -> Result<(), String> {
        match self.rest.find(last) {
            Some(at) => self.code(at + 1),
            None => self.fail("something is missing at the end"),
        }
    }

    fn code(&mut self, n: usize) -> Result<(), String> {
        let end = self.rest.len() - n;
        while end < self.rest.len() {
            let c = self.rest.chars().next().unwrap_or(' ');
            self.one(c, "//")?;
        }
        Ok(())
    }

    // One word, one comment, one text in quotes, one lifetime or one sign of Rust.
    fn one(&mut self, c: char, mark: &str) -> Result<(), String> {
        if self.rest.starts_with("//") {
            return self.comment(mark);
        }
        if is_word(c) {
            return self.code_word();
        }
        if c == '"' || c == '\'' {
            return self.quoted(c);
        }
        if !c.is_ascii() || "\\`@$#~".contains(c) || self.rest.starts_with("/*") {
            return self.fail("a sign that is not known in code");
        }
        self.copy(c.len_utf8());
        Ok(())
    }

    // A text on one line without a backslash, one sign of ASCII, or a lifetime or label.
    fn quoted(&mut self, quote: char) -> Result<(), String> {
        let inside = &self.rest[1..];
        let n = match inside.find([quote, '\\', '\n']) {
            Some(at) if quote == '"' && inside[at..].starts_with('"') => at + 2,
            Some(1) if quote == '\'' && inside[1..].starts_with('\'') => 3,
            _ if quote == '\'' && !word_of(inside).is_empty() => 1 + word_of(inside).len(),
            _ => return self.fail("a sign that is not known in code"),
        };
        self.copy(n);
        Ok(())
    }

    fn code_word(&mut self) -> Result<(), String> {
        let word = self.word();
        if is_clause(self.rest) {
            return self.closure();
        }
        if GHOST_WORDS.contains(&word) {
            return self.fail("ghost text where none is known");
        }
        let behind = &self.rest[word.len()..];
        if word == "prove" && behind.starts_with("!(") {
            let Some(n) = self.proved("prove!".len()) else {
                return self.fail("a proved condition is no line of its own");
            };
            let indent = self.indent_here().unwrap_or(0);
            self.take(n);
            self.out.truncate(self.out.len() - indent);
            return Ok(());
        }
        let is_macro = behind.starts_with('!') && !behind.starts_with("!=");
        if is_macro && !(MACROS.contains(&word) && behind.starts_with("!(")) {
            return self.fail("a macro");
        }
        if word == "crate" && !behind.starts_with("::") && !behind.starts_with(')') {
            return self.fail("an unknown form of path");
        }
        if word == "std" && behind.starts_with("::") {
            self.take(word.len());
            self.out.push_str("core");
            return Ok(());
        }
        self.copy(word.len());
        if word == "crate" && behind.starts_with("::") {
            self.out.push_str("::");
            self.out.push_str(self.krate);
        }
        Ok(())
    }
}

// Whether a struct or an enum begins here.
fn is_type(text: &str) -> bool {
    let item = ["pub(crate) ", "pub "]
        .into_iter()
        .find_map(|v| text.strip_prefix(v))
        .unwrap_or(text);
    item.starts_with("struct ") || item.starts_with("enum ")
}

// As `pub struct Mv50(pub u16);`.
fn is_one_number(line: &str) -> bool {
    line.starts_with("pub struct ") && line.ends_with("(pub u16);")
}

// How long the derive is that begins here, with the end of its last line.
fn derive_length(text: &str) -> Option<usize> {
    let end = text.strip_prefix(DERIVE)?.find(')')? + DERIVE.len();
    text[end..].starts_with(")]\n").then_some(end + 3)
}
