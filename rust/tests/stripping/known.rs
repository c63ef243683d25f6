//! Every form that the reader knows, and what becomes of it.

use crate::strip::strip;

const SOURCE: &str = r#"// What the file is for,
// in two lines.

#![tactic(auto)]

ghost use a.b.{◌≤◌, c};
ghost use a.c.{
  d,
  e_f,
};

use crate::inner::x;
use crate::{Y, Z};
use steps::{Ma10, Mv20};

mod inner;

pub use inner::y;

// A struct.
#[repr(C)]
#[derive(Clone, Copy)]
pub struct S {
    // A field.
    pub a: u16,
    pub(crate) b: [u8; 7],
}

#[repr(C)]
#[derive(Clone, Copy)]
pub struct T(pub u16);

// The other way round.
#[derive(Clone, Copy)]
#[repr(C)]
pub struct U(pub u16);

#[derive(Clone, Copy)]
struct Empty;

// ---- a heading
// of two lines

pub(crate) enum E {
    // A variant.
    A { x: u8 },
    B(T),
    C,
}

// A constant.
pub const NONE: S = S {
    // Inside a statement.
    a: 0,
    b: [0; 7],
};

impl T {
    // A method.
    #[tactic(auto, using(half, low {1}))]
    pub fn half(self) -> u16
        requires { 1 ≤ self.0 }
        ensures { result ≡ half {self.0} }
    {
        // Why.
        prove!(self.0 > 0);
        self.0 / 2
    }
}

// A call from C.
#[unsafe(no_mangle)]
pub extern "C" fn f(rows: &mut [S], n: u8) -> u8
    requires small { n ≤ 3 }
    requires long { (1 ≤ length rows.old)
        × (length rows.old ≤ 9) }
    ensures named { result ≡ 0 }
{
    let mut i: usize = 0; // Behind code.
    while i < rows.len() {
        rows[i] = crate::NONE;
        i += 1;
    }
    if n != 0 { 0 } else { n }
}

fn nothing() {}

pub fn nothing_back(a: &mut [S])
    ensures { a }
{}

pub(crate) fn plain(a: &[S]) -> bool {
    !(a.len() == 0)
}

// By side.
pub fn by_side(side: Side, n: u8) -> u8
    ensures { x }
{
    n
}
"#;

const STRIPPED: &str = r#"//! What the file is for,
//! in two lines.



use crate::home::inner::x;
use crate::home::{Y, Z};
use steps::{Ma10, Mv20};

mod inner;

pub use inner::y;

/// A struct.
#[repr(C)]
#[derive(Clone, Copy, PartialEq, Eq, Hash, Debug)]
pub struct S {
    /// A field.
    pub a: u16,
    pub(crate) b: [u8; 7],
}

#[repr(transparent)]
#[derive(Clone, Copy, PartialEq, Eq, Hash, Debug)]
pub struct T(pub u16);

/// The other way round.
#[repr(transparent)]
#[derive(Clone, Copy, PartialEq, Eq, Hash, Debug)]
pub struct U(pub u16);

#[derive(Clone, Copy, PartialEq, Eq, Hash, Debug)]
struct Empty;

// ---- a heading
// of two lines

#[derive(PartialEq, Eq, Hash, Debug)]
pub(crate) enum E {
    /// A variant.
    A { x: u8 },
    B(T),
    C,
}

/// A constant.
pub const NONE: S = S {
    // Inside a statement.
    a: 0,
    b: [0; 7],
};

impl T {
    /// A method.
    #[must_use]
    #[inline]
    pub fn half(self) -> u16
    {
        // Why.
        self.0 / 2
    }
}

/// A call from C.
#[must_use]
#[inline]
pub fn f(rows: &mut [S], n: u8) -> u8
{
    let mut i: usize = 0; // Behind code.
    while i < rows.len() {
        rows[i] = crate::home::NONE;
        i += 1;
    }
    if n != 0 { 0 } else { n }
}

#[inline]
fn nothing() {}

#[inline]
pub fn nothing_back(a: &mut [S])
{}

#[inline]
pub(crate) fn plain(a: &[S]) -> bool {
    !(a.len() == 0)
}

/// By side.
#[must_use]
#[inline(always)]
pub fn by_side(side: Side, n: u8) -> u8
{
    n
}
"#;

#[test]
fn every_known_form() {
    let stripped = strip("x.rt", "home", SOURCE).unwrap();
    assert_eq!(stripped.text, STRIPPED);
    assert_eq!(stripped.modules, ["inner"]);
}

/// What a type derives goes by what it derives in the source, and by its crate and its name.
#[test]
fn derives_of_a_type() {
    let derived = |krate, derive, item| {
        let source = format!("// Why.\n\n{derive}\n{item}\n");
        let text = strip("x.rt", krate, &source).unwrap().text;
        text.lines().nth(2).unwrap().to_string()
    };
    let copied = "#[derive(Clone, Copy)]";
    let words = "pub struct Words {\n    pub count: u8,\n}";
    let figure = "pub struct Row(pub u16);";
    assert_eq!(
        derived("lists", copied, words),
        "#[derive(Clone, Copy, PartialEq, Eq, Hash, Default, PartialOrd, Ord)]"
    );
    assert_eq!(
        derived("home", copied, words),
        "#[derive(Clone, Copy, PartialEq, Eq, Hash, Debug)]"
    );
    let every = "#[derive(Clone, Copy, PartialEq, Eq, Hash, Debug, Default, PartialOrd, Ord)]";
    assert_eq!(derived("ports", copied, figure), every);
    // Each once, whether it stands in the source or not, in any order, on one line or several.
    for derive in [
        "#[derive(Clone, Copy, PartialEq, Eq, PartialOrd, Ord)]",
        "#[derive(Ord, PartialOrd, Eq, PartialEq, Copy, Clone)]",
        "#[derive(Clone, Copy, Debug, Default, Hash)]",
        "#[derive(\n    Clone,\n    Copy,\n    PartialEq,\n    Eq,\n)]",
        "#[derive(\n    Clone, Copy, Ord\n)]",
    ] {
        assert_eq!(derived("ports", derive, figure), every, "{derive}");
    }
    assert_eq!(
        derived("home", "#[derive(PartialOrd)]", figure),
        "#[derive(PartialEq, Eq, Hash, Debug, PartialOrd)]"
    );
    assert_eq!(
        derived("home", "#[derive(Clone, Copy, Default)]", figure),
        "#[derive(Clone, Copy, PartialEq, Eq, Hash, Debug, Default)]"
    );
    // Shown in hex by hand, whatever the source derives.
    assert_eq!(
        derived(
            "messages",
            "#[derive(Clone, Copy, Debug)]",
            "struct Message;"
        ),
        "#[derive(Clone, Copy, PartialEq, Eq, Hash, Default, PartialOrd, Ord)]"
    );
    // What has an impl by hand in its file is not derived.
    let by_hand =
        "struct A;\n\nimpl Default for A {}\n\nimpl fmt::Debug for A {}\n\nimpl Eq for AB {}";
    assert_eq!(
        derived("home", "#[derive(Clone, Copy)]", by_hand),
        "#[derive(Clone, Copy, PartialEq, Eq, Hash)]"
    );
}
