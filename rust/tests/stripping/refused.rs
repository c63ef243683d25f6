//! What the reader does not know. Each is refused with its file and its line: never a guess.

use crate::strip::strip;

/// A file of which the third line is the first of this text is refused, at this line, with these words.
fn refused(text: &str, line: usize, why: &str) {
    let source = format!("// A head.\n\n{text}");
    match strip("dir/x.rt", "home", &source) {
        Ok(stripped) => panic!("not refused:\n{text}\n-- became --\n{}", stripped.text),
        Err(said) => {
            let wanted = format!("dir/x.rt:{line}: {why}: ");
            assert!(
                said.starts_with(&wanted),
                "{text}\nsaid: {said}\nwanted: {wanted}"
            );
        }
    }
}

#[test]
fn unknown_items() {
    for item in [
        "static X: u8 = 0;\n",
        "macro_rules! m { () => {} }\n",
        "union U { a: u8 }\n",
        "unsafe fn f() {}\n",
        "async fn f() {}\n",
        "const fn f() -> u8 { 1 }\n",
        "extern crate a;\n",
        "extern \"C\" { fn f(); }\n",
        "extern \"system\" fn f() {}\n",
        "pub mod a;\n",
        "pub(super) fn f() {}\n",
        "pub impl A {}\n",
        "pub ghost a = { b };\n",
        "invariant { a }\n",
        "lemma a: b\n",
        "/* a */\n",
        "}\n",
        "\u{a0}\nfn f() {}\n",
    ] {
        refused(item, 3, "an unknown item");
        refused(&format!("fn g() {{}}\n\n{item}"), 5, "an unknown item");
        if !item.starts_with('}') {
            refused(&format!("impl T {{\n{item}}}\n"), 4, "an unknown item");
            refused(&format!("trait T {{\n{item}}}\n"), 4, "an unknown item");
        }
    }
    // Known in a block alone, in another form.
    let member = "an unknown form of ghost member";
    for item in ["ghost fn f() {}\n", "ghost struct S;\n"] {
        refused(item, 3, "an unknown item");
        refused(&format!("impl T {{\n{item}}}\n"), 4, member);
    }
    refused("mod a { }\n", 3, "an unknown form of module");
    refused("mod a; // Why.\n", 3, "an unknown form of module");
    refused("mod a b;\n", 3, "an unknown form of module");
}

#[test]
fn unknown_attributes() {
    for attribute in [
        "#[inline]",
        "#[derive_where(Debug; T)]",
        "#[repr(u8)]",
        "#[repr(C, packed)]",
        "#[cfg(test)]",
        "#![allow(x)]",
        "#[no_mangle]",
        "#[unsafe(no_mangle)] // Why.",
    ] {
        refused(&format!("{attribute}\nfn f() {{}}\n"), 3, "an unknown item");
    }
    let derive = "a derive without its type";
    refused("#[derive(Clone, Copy)]\nfn f() {}\n", 3, derive);
    refused("#[derive(Clone)]\ntype A = u8;\n", 3, derive);
    refused("#[derive(Clone)]\n#[derive(Copy)]\nstruct S;\n", 3, derive);
    refused("#[derive(Clone)]\n// Why.\nstruct S;\n", 3, derive);
    let unknown = "an unknown derive";
    refused("#[derive(Drop)]\nstruct S;\n", 3, unknown);
    refused("#[derive(Clone, Other)]\nstruct S;\n", 3, unknown);
    refused("#[derive()]\nstruct S;\n", 3, unknown);
    refused(
        "#[derive(Clone, // Why.\n    Copy)]\nstruct S;\n",
        3,
        unknown,
    );
    refused("#[derive(Clone, Copy)]\n\nstruct S;\n", 3, derive);
    let end = "an attribute does not end with its line";
    refused("#[tactic(auto)] // Why.\nfn f() {}\n", 3, end);
    refused("#[tactic(auto)] fn f() {}\n", 3, end);
    refused("#[derive(Clone)] struct S;\n", 3, end);
    refused("#[derive(Clone\nstruct S(A);\n", 3, end);
    refused("#[tactic(auto,\nusing(a))]\nfn f() {}\n", 3, end);
    refused("#[tactic(\n    auto, // Why.\n)]\nfn f() {}\n", 3, end);
    refused("#[tactic(auto,\n    using(a)]\nfn f() {}\n", 3, end);
    refused("#[tactic(auto,\n\n    using(a))]\nfn f() {}\n", 3, end);
    refused("#![tactic(auto)] use a;\n", 3, end);
    refused(
        "fn f() {\n    #[allow(x)]\n    g();\n}\n",
        4,
        "a sign that is not known in code",
    );
    refused(
        "struct S {\n    #[x]\n    a: u8,\n}\n",
        4,
        "a sign that is not known in code",
    );
}

/// Contracts are known between a signature and its body, and nowhere else.
#[test]
fn ghost_text_elsewhere() {
    let ghost = "ghost text where none is known";
    for text in [
        "ghost let a = 1;",
        "let ghost a = 1;",
        "ghost { a }",
        "while a invariant { b } { }",
        "while a decreases { b } { }",
        "assert(a);",
        "assert!(a);",
        "proof { a }",
        "unsafe { a }",
        "fn g() ensures { a } { }",
        "fn g() requires { a } { }",
    ] {
        let unsafe_or_ghost = format!("fn f() {{\n    x();\n    {text}\n}}\n");
        refused(&unsafe_or_ghost, 5, ghost);
    }
    refused("fn f(ghost n: u8) {}\n", 3, ghost);
    refused("fn f()\n    decreases { n }\n{}\n", 4, ghost);
    refused(
        "struct S\n    invariant { a }\n{\n    a: u8,\n}\n",
        4,
        ghost,
    );
    refused("fn f<T: Drop>() {}\n", 3, ghost);
    // Behind the head of a closure, and on a line of its own.
    refused(
        "fn f() {\n    let a = |x: u8| requires { b } { x };\n}\n",
        4,
        ghost,
    );
    refused(
        "fn f() {\n    let a = b | c\n        requires { d }\n    { x };\n}\n",
        5,
        ghost,
    );
    refused(
        "fn f() {\n    let a = |x| -> u8\n        decreases { b }\n    { x };\n}\n",
        5,
        ghost,
    );
    refused("const A: u8 = ghost;\n", 3, ghost);
    refused("use proof::a;\n", 3, ghost);
    let proved = "a proved condition is no line of its own";
    for text in [
        "let a = prove!(b);",
        "prove!(b); x();",
        "prove!(b)",
        "prove!(b); // Why.",
        "prove!(\n    b,\n    );",
        "prove!(\n        b, // Why.\n    );",
        "prove!(\n        b,\n    ); x();",
        "x(); prove!(b);",
    ] {
        refused(&format!("fn f() {{\n    {text}\n}}\n"), 4, proved);
    }
    refused("const A: () = prove!(b);\n", 3, proved);
    refused("const _: () = prove!(b); use c;\n", 3, proved);
    refused("const _: () = prove!(b;\nuse c);\n", 3, proved);
    refused("fn f() {\n    prove! (b);\n}\n", 4, "a macro");
}

#[test]
fn unknown_signs() {
    let sign = "a sign that is not known in code";
    for text in [
        "\"a\n\"", "\"a\\n\"", "'\\n'", "'+", "a ≤ b", "é", "a\u{a0}b", "/* a */", "a ~ b", "r#a",
        "`a`", "$a", "a @ b",
    ] {
        refused(&format!("fn f() {{\n    {text}\n}}\n"), 4, sign);
    }
    refused("const A: char = 'é';\n", 3, sign);
    refused("fn f(a: \u{2003}u8) {}\n", 3, sign);
    refused("fn f() {\n    panic!()\n}\n", 4, "a macro");
    refused("fn f() {\n    matches![a, b]\n}\n", 4, "a macro");
    refused("fn f() {\n    println!(out; a)\n}\n", 4, "a macro");
    refused("const A: u8 = m![1];\n", 3, "a macro");
    refused("use crate ::a;\n", 3, "an unknown form of path");
}

#[test]
fn unknown_clauses() {
    let open = "a clause does not end with its line";
    // Two braces in ghost comments, and the first function would get the body of the second.
    refused(
        "fn f() -> u8\n    ensures { a // {\n    }\n{ 1 }\nfn g() -> u8\n    ensures { b // }\n    }\n{ 2 }\n",
        4,
        open,
    );
    refused("fn f()\n    ensures { a\n{ 1 }\n", 4, open);
    refused("fn f()\n    ensures { a {\n{ 1 }\n", 4, open);
    refused("fn f()\n    ensures { a\n    }\n{ 1 }\n", 4, open);
    refused("fn f()\n    ensures { a } { 1 }\n", 4, open);
    // A clause goes on in lines that are indented more, up to its own brace.
    refused(
        "fn f()\n    ensures { a\n        }\n        b\n{ 1 }\n",
        4,
        open,
    );
    refused("fn f()\n    ensures { a }\n        { 1 }\n", 4, open);
    refused("fn f()\n    ensures { a {\n        b }\n{ 1 }\n", 4, open);
    refused("fn f()\n    ensures { a\n\n        b }\n{ 1 }\n", 4, open);
    // In a trait a semicolon ends the function, and nothing else does.
    refused(
        "trait T {\n    fn f()\n        ensures { a }; fn g();\n}\n",
        5,
        open,
    );
    refused("fn f()\n    ensures { a };\n", 4, open);
    refused(
        "fn f()\n    ensures* a { b }\n{}\n",
        4,
        "an unknown form of clause",
    );
    refused(
        "fn f()\n    ensures { a // }\n        b }\n{ 1 }\n",
        4,
        "a comment in a clause of several lines",
    );
    refused("fn f()\n    ensures { a } // Why.\n{ 1 }\n", 4, open);
    refused(
        "fn f()\n    requires a\n{ 1 }\n",
        4,
        "a clause has no braces",
    );
    refused(
        "fn f()\n    ensures (a) { b }\n{ 1 }\n",
        4,
        "an unknown form of clause",
    );
    refused(
        "fn f()\n    ensures\n    { b }\n{ 1 }\n",
        4,
        "a clause has no braces",
    );
}

#[test]
fn unknown_signatures() {
    let signature = "an unknown form of signature";
    refused("fn f() -> A | B {}\n", 3, signature);
    refused("fn f() -> u8 % {}\n", 3, signature);
    refused("fn f() // Why.\n{}\n", 3, signature);
    refused(
        "fn f()\n    ensures { a }\nwhere\n    T: A,\n{}\n",
        5,
        signature,
    );
    let body = "a function has no body";
    refused("fn f();\n\nfn g() {}\n", 3, body);
    refused("impl T {\n    fn f();\n}\n", 4, body);
    refused("fn f()\n    ensures { a }\n;\n", 5, body);
    let comment = "a comment that is of no clause";
    refused("fn f()\n    // Why.\n{}\n", 3, comment);
    refused("fn f()\n    ensures { a }\n    // Why.\n{}\n", 4, comment);
    refused(
        "fn f()\n    // Why.\n    b\n    ensures { a }\n{}\n",
        3,
        comment,
    );
    refused("fn f() {} fn g() {}\n", 3, "a function behind code");
    // The body that a clause without braces would take away.
    refused(
        "fn f() -> u8\n    ensures a { 1 }\n\nfn g() {}\n",
        6,
        signature,
    );
}

/// Whatever has no end, and what would take the next item along.
#[test]
fn no_end() {
    refused("fn f() {\n    {\n}\n", 3, "a block has no end");
    refused("struct S {\n    a: u8,\n", 3, "a block has no end");
    refused("impl T {\n    fn f() {}\n", 5, "a block has no end");
    refused("const A: u8 = 1\n", 3, "a statement has no end");
    refused("struct S\n", 3, "a type has no end");
    refused("fn f()\n", 4, "a function has no body");
    refused("fn f\n", 3, "something is missing at the end");
    refused("fn f<T\n", 3, "something is missing at the end");
    refused("fn f<T>(a: u8\n", 3, "something is missing at the end");
    refused("impl T\n", 3, "something is missing at the end");
    refused("trait T\n", 3, "something is missing at the end");
    refused("trait T {\n    fn f();\n", 5, "a block has no end");
    let ghost = "a ghost use does not end with its line";
    refused("ghost use a.b\nuse c;\n", 3, ghost);
    refused("ghost use a.b; // Why.\nuse c;\n", 3, ghost);
    refused("ghost use a.b; use c;\nuse d;\n", 3, ghost);
    refused("ghost use a.{\n    b};\n", 3, ghost);
    refused("ghost use a.{\n  b,\n}; use c;\n", 3, ghost);
    refused("ghost use a.{\n  b,\nuse c;\n};\n", 3, ghost);
    refused("ghost use a.{\n  b; use c;\n};\n", 3, ghost);
}

/// A doc comment belongs to what follows it, so one behind code would go astray.
#[test]
fn comments_behind_code() {
    let behind = "a comment behind code";
    refused("use a; // Why.\nfn f() {}\n", 3, behind);
    refused("fn f() {} // Why.\nfn g() {}\n", 3, behind);
    refused("struct S {\n    a: u8, // Why.\n    b: u8,\n}\n", 4, behind);
}

#[test]
fn a_file_without_a_head() {
    for source in ["", "\n", "use a;\n", "\n// Late.\n", "fn f() {}\n"] {
        let Err(said) = strip("dir/x.rt", "home", source) else {
            panic!("not refused: {source}");
        };
        assert!(
            said.starts_with("dir/x.rt:1: a file begins with a comment that says what it is for: "),
            "{said}"
        );
    }
}

/// A ghost member ends where its braces do, and nothing stands behind it.
#[test]
fn unknown_ghost_members() {
    let member = "an unknown form of ghost member";
    for text in [
        "ghost a = b;",
        "ghost a;",
        "ghost a = { b }",
        "ghost a = { b },",
        "ghost a = { b; };};",
        "ghost a = { b }; fn f() {}",
        "ghost a = { b } = { c };",
        "ghost a: { b } = c;",
        "ghost a: { b } { c };",
        "ghost = { b };",
        "ghost a b = { c };",
        "ghost a = {\n    b\n};",
        "ghost a = { (b };",
        "ghost a = { b\n\n        c };",
        "ghost fn a() {}",
    ] {
        refused(&format!("impl T {{\n    {text}\n}}\n"), 4, member);
        refused(&format!("trait T {{\n    {text}\n}}\n"), 4, member);
    }
    for text in [
        "ghost a: u8,",
        "ghost a: { b };",
        "ghost a: { b }",
        "pub ghost a: { b\n    c },",
        "ghost a: { b }, c: u8,",
    ] {
        refused(&format!("struct S {{\n    {text}\n}}\n"), 4, member);
    }
    let comment = "a comment in ghost text";
    refused("impl T {\n    ghost a = { b }; // Why.\n}\n", 4, comment);
    refused(
        "impl T {\n    ghost a = {\n        b -- c }\n    };\n}\n",
        4,
        comment,
    );
    refused(
        "struct S { ghost a: { b }, }\n",
        3,
        "ghost text behind code",
    );
    refused("ghost a = { b };\n", 3, "an unknown item");
    let model = "an unknown form of model";
    refused("impl Model for T {\n    fn f() {}\n}\n", 3, model);
    refused(
        "impl Model for T {\n    ghost a = { b }\nfn f() {}\n",
        3,
        model,
    );
    refused("impl Model for T {\n    ghost a = { (b };\n}\n", 3, model);
    refused("impl Model for T {} fn f() {}\n", 3, model);
    let marker = "an unknown marker";
    refused("use std::marker::Brand;\n", 3, marker);
    refused("use std::marker::{Brand, Model};\n", 3, marker);
    refused("pub use std::marker::Model;\n", 3, marker);
    refused("use std::marker::Model; use a;\n", 3, marker);
}
