//! Traits, impls of traits, generics, closures and ghost members: what becomes of each.

use crate::strip::strip;

/// What this becomes behind the head of a file.
fn stripped(source: &str) -> String {
    let source = format!("// A head.\n\n{source}");
    let text = strip("x.rt", "home", &source).unwrap().text;
    text.strip_prefix("//! A head.\n\n").unwrap().to_string()
}

fn same(source: &str) {
    assert_eq!(stripped(source), source);
}

#[test]
fn ghost_members_of_an_impl() {
    let source = r#"// What it becomes.
impl From<Result<(), Verdict>> for Verdict {
    // What it gives, for the prover.
    ghost from_gives = { λ r v. v ≡ told r };

    ghost laws = { λ x y.
        both x y };

    ghost inverse = { λ s i. record {
      cells = take s i;
    } };

    // How.
    fn from(answer: Result<(), Verdict>) -> Verdict {
        match answer {
            Ok(()) => PASSED,
            Err(verdict) => verdict,
        }
    }
}

impl TryFrom<u8> for Kind {
    type Error = Verdict;

    ghost use Rattle.home.specs.Kinds.{kind_of};

    ghost use Rattle.home.specs.More.{
      kind_to,
      kind_at,
    };

    ghost try_from_gives = { λ n r. r ≡ kind_of n };

    #[tactic(
        auto,
        using(kind_of_lem, low {1}),
    )]
    fn try_from(number: u8) -> Result<Kind, Verdict> {
        let at = Kind::ALL.iter().position(|it| *it as u8 == number);
        Ok(Kind::ALL[at.ok_or(Verdict::placeless(KIND))?])
    }
}
"#;
    let wanted = r#"/// What it becomes.
impl From<Result<(), Verdict>> for Verdict {





    /// How.
    #[inline]
    fn from(answer: Result<(), Verdict>) -> Verdict {
        match answer {
            Ok(()) => PASSED,
            Err(verdict) => verdict,
        }
    }
}

impl TryFrom<u8> for Kind {
    type Error = Verdict;





    #[inline]
    fn try_from(number: u8) -> Result<Kind, Verdict> {
        let at = Kind::ALL.iter().position(|it| *it as u8 == number);
        Ok(Kind::ALL[at.ok_or(Verdict::placeless(KIND))?])
    }
}
"#;
    let without_empty = |text: &str| {
        let lines = text.lines().filter(|l| !l.trim().is_empty());
        lines.map(|l| format!("{l}\n")).collect::<String>()
    };
    assert_eq!(without_empty(&stripped(source)), without_empty(wanted));
}

/// A trait of the crate, with what only the prover reads of it.
#[test]
fn traits() {
    let source = r#"// A step.
pub trait Step: Copy {
    // How large it is.
    ghost size: { ℕ };

    // The same as a number.
    const SIZE: u32;

    type Other;

    // How many.
    fn count(self) -> u16
        ensures { result ≡ count_of self };

    fn changed(&mut self)
        requires { 0 < size }
        // What it becomes.
        ensures now { self.new
            ≡ self.old };

    fn plain(&self) -> Result<u8, Verdict>;

    // Twice as many.
    fn twice(self) -> u16
        ensures { result ≡ 2 * count_of self }
    {
        self.count() * 2
    }

    ghost laws: { (x : Self)
        → count_of x ≡ count_of x };

    ghost valid: { Self → Type 0 } = { λ _. Unit {0} };
}

trait Inner {
    fn inner(self) -> u8;
}
"#;
    let wanted = r#"/// A step.
pub trait Step: Copy {

    /// The same as a number.
    const SIZE: u32;

    type Other;

    /// How many.
    #[must_use]
    fn count(self) -> u16;

    fn changed(&mut self);

    fn plain(&self) -> Result<u8, Verdict>;

    /// Twice as many.
    #[must_use]
    #[inline]
    fn twice(self) -> u16
    {
        self.count() * 2
    }


}

trait Inner {
    fn inner(self) -> u8;
}
"#;
    assert_eq!(stripped(source), wanted);
}

#[test]
fn generics_and_bounds() {
    let source = r#"// Of any step.
pub fn largest<S: Step, const N: usize>(steps: [S; N], of: (u8, u8)) -> Option<S>
where
    S: Ord,
    requires { 0 < N }

    // What it is.
    ensures { result ≡ largest_of steps }
{
    steps.into_iter().max()
}

fn each<F: Fn(u8) -> Result<(), Verdict>>(f: F) -> Result<(), Verdict>
    requires { F.IsAlwaysCallable f }
{
    for i in 0..3 {
        f(i)?;
    }
    Ok(())
}

impl<'a, T: Step> Window<'a, T> {
    pub const SIZE: usize = 7;

    // Where it begins.
    pub fn first(&'a self) -> &'a T
    where
        T: Copy,
    {
        &self.0[0]
    }
}

pub fn by_side<S: Step>(side: Side, of: S) -> (u8, u8) {
    (1, 2)
}
"#;
    let wanted = r#"/// Of any step.
#[must_use]
#[inline]
pub fn largest<S: Step, const N: usize>(steps: [S; N], of: (u8, u8)) -> Option<S>
where
    S: Ord,
{
    steps.into_iter().max()
}

#[inline]
fn each<F: Fn(u8) -> Result<(), Verdict>>(f: F) -> Result<(), Verdict>
{
    for i in 0..3 {
        f(i)?;
    }
    Ok(())
}

impl<'a, T: Step> Window<'a, T> {
    pub const SIZE: usize = 7;

    /// Where it begins.
    #[must_use]
    #[inline]
    pub fn first(&'a self) -> &'a T
    where
        T: Copy,
    {
        &self.0[0]
    }
}

#[must_use]
#[inline(always)]
pub fn by_side<S: Step>(side: Side, of: S) -> (u8, u8) {
    (1, 2)
}
"#;
    assert_eq!(stripped(source), wanted);
}

/// A public function that gives a `Result` is not marked, since rustc marks the type.
#[test]
fn results_are_marked_by_themselves() {
    assert_eq!(
        stripped("pub fn f() -> Result<u8, Verdict> {\n    Ok(1)\n}\n"),
        "#[inline]\npub fn f() -> Result<u8, Verdict> {\n    Ok(1)\n}\n"
    );
    assert_eq!(
        stripped("pub fn f() -> Option<Result<u8, Verdict>> {\n    None\n}\n"),
        "#[must_use]\n#[inline]\npub fn f() -> Option<Result<u8, Verdict>> {\n    None\n}\n"
    );
}

/// A function of a name that `build/marks.rs` has is known by its crate, and a method of that name is another.
#[test]
fn marks_of_a_method() {
    let inline = |krate, source: &str| {
        let text = strip("x.rt", krate, &format!("// A head.\n\n{source}\n"))
            .unwrap()
            .text;
        let line = text
            .lines()
            .find(|l| l.trim_start().starts_with("#[inline"));
        line.unwrap().trim_start().to_string()
    };
    let encode = "fn encode(object: Object) -> u32 {\n    1\n}";
    assert_eq!(inline("objects", encode), "#[inline(always)]");
    assert_eq!(inline("home", encode), "#[inline]");
    let method = "impl Object {\n    fn encode(self) -> u32 {\n        1\n    }\n}";
    assert_eq!(inline("objects", method), "#[inline]");
}

#[test]
fn ghost_fields_and_models() {
    let source = r#"use std::marker::Model;
use std::marker::{Model, PhantomData};
use std::cmp::{self, Ordering};

// Rows that are sound.
#[derive(Clone, Copy)]
struct Sound<'a> {
    // The rows.
    rows: &'a [Row],
    // That they are.
    ghost are_sound: { sound_rows rows.now },
    pub ghost is_few: { length rows.now
        ≤ 8 },
    pub(crate) ghost one: { 1 ≤ length rows.now },
    // Of them all.
    capacity: u16,
}

// As a list of numbers.
impl Model for Sound {
    ghost Value = { List ℕ };

    ghost view = { λ s. s.rows };
}

impl<'a> Model for Held<'a> {}

// Which it is.
#[derive(Clone, Copy, Default)]
enum Way {
    #[default]
    Near,
    // Away.
    Far,
}

// Two are enough.
const _: () = prove!(2 < SIZE);

const _: () = prove!(
    1 < SIZE,
);

type Rows = [Row; 8];
"#;
    let wanted = r#"use core::marker::PhantomData;
use core::cmp::{self, Ordering};

/// Rows that are sound.
#[derive(Clone, Copy, PartialEq, Eq, Hash, Debug)]
struct Sound<'a> {
    /// The rows.
    rows: &'a [Row],
    /// Of them all.
    capacity: u16,
}





/// Which it is.
#[derive(Clone, Copy, PartialEq, Eq, Hash, Debug, Default)]
enum Way {
    #[default]
    Near,
    /// Away.
    Far,
}





type Rows = [Row; 8];
"#;
    let told = stripped(source);
    let lines = |text: &str| -> Vec<String> {
        let lines = text.lines().filter(|l| !l.is_empty());
        lines.map(String::from).collect()
    };
    assert_eq!(lines(&told), lines(wanted));
}

/// The clauses of a closure go, and its block stays.
#[test]
fn closures() {
    let source = r#"fn f(n: u8) -> u8 {
    let up = |x: u8| -> u8
        requires { x ≤ n }
        ensures value { result
            ≡ x + 1 }
    { x + 1 };
    let mut count = 0;
    let mut turn = move ||
        // Why it may be.
        requires { count < 5 }
    {
        count += 1;
    };
    turn();
    let all = (0..n).all(|i| i < n || matches!(i, 0 | 1));
    up(n)
}
"#;
    let wanted = r#"#[inline]
fn f(n: u8) -> u8 {
    let up = |x: u8| -> u8
    { x + 1 };
    let mut count = 0;
    let mut turn = move ||
    {
        count += 1;
    };
    turn();
    let all = (0..n).all(|i| i < n || matches!(i, 0 | 1));
    up(n)
}
"#;
    assert_eq!(stripped(source), wanted);
}

#[test]
fn code_that_stays() {
    let source = r#"#[inline]
fn f(list: &Words) -> Result<Words, Verdict> {
    let [first, .., last] = list.words;
    let Some(w) = list.words.first() else {
        return Err(Verdict::at(7, 1));
    };
    'rows: for (i, w) in list.words.iter().enumerate() {
        if let Some(n) = w.checked_add(1) && n < 3 {
            continue 'rows;
        }
    }
    let kind = match w {
        1 | 2..=5 if first < last => b'a',
        n => 'b' as u8,
    };
    let said = "a {word} in quotes";
    let text: &'static str = said;
    shape(list).passed()?;
    Ok(Words { count: 0, ..*list })
}
"#;
    let given = source.replacen("#[inline]\n", "", 1);
    assert_eq!(stripped(&given), source);
    same("type A<T> = Result<T, Verdict>;\n");
    same("pub const A: [(u8, Kind); 2] = [(1, Kind::A), (2, Kind::B)];\n");
    same("impl Eq for A {}\n");
}

/// A condition that is proved costs nothing when it runs, on however many lines it stands.
#[test]
fn proved_conditions() {
    assert_eq!(
        stripped("fn f() {\n    prove!(a < b);\n    prove!(\n        a < b && c(d),\n    );\n    x();\n}\n"),
        "#[inline]\nfn f() {\n    x();\n}\n"
    );
}

/// In Rattle a formatter has the type of what it writes to.
#[test]
fn display() {
    let source = r#"impl fmt::Display for Verdict {
    fn fmt<W: fmt::Write>(&self, f: &mut fmt::Formatter<W>) -> fmt::Result {
        write!(f, "{} {}", self.number, self.place)
    }
}
"#;
    let wanted = r#"impl fmt::Display for Verdict {
    #[inline]
    fn fmt(&self, f: &mut fmt::Formatter) -> fmt::Result {
        write!(f, "{} {}", self.number, self.place)
    }
}
"#;
    assert_eq!(stripped(source), wanted);
}
