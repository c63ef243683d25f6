// What the Rust edition adds to a type or a function of the proved source, by lists of names.

/// Words are shown in hex, which no derive does: `rust/src/words.rs` has these.
const DEBUG_BY_HAND: [&str; 2] = ["lists::Words", "messages::Message"];

/// All zero is what an empty list, an empty place, the summary of no list, no request, no message or a row before set-up has, and a measure of
/// nothing. A profile that is all zero is refused, so it has no default. `rust/src/defaults.rs` has that of an object, of either side.
const ZERO_BY_DEFAULT: [&str; 21] = [
    "verdicts::Verdict",
    "steps::Mv20",
    "steps::Mv25",
    "steps::Mv50",
    "steps::Mv100",
    "steps::Ma10",
    "steps::Ma50",
    "steps::Mw250",
    "steps::HalfWatts",
    "lists::Words",
    "lists::Place",
    "lists::Objects",
    "summaries::Summary",
    "messages::Header",
    "messages::Message",
    "sinks::SinkPlace",
    "sinks::SinkObjects",
    "ports::Row",
    "flat::FlatObject",
    "flat::FlatObjects",
    "flat::FlatRequest",
];

/// What somebody may want to keep sorted; an answer is none. Measures derive their order in the source.
const ORDERED: [&str; 9] = [
    "verdicts::Verdict",
    "objects::Object",
    "lists::Words",
    "rules::Profile",
    "messages::Header",
    "messages::Message",
    "sinks::SinkObject",
    "ports::Row",
    "flat::FlatObject",
];

/// Whatever a type of the source may derive, in the order in which the Rust edition names them.
const DERIVED: [&str; 9] = [
    "Clone",
    "Copy",
    "PartialEq",
    "Eq",
    "Hash",
    "Debug",
    "Default",
    "PartialOrd",
    "Ord",
];

const MUST_USE: &str = "#[must_use]";

const INLINE: &str = "#[inline]";

const INLINE_ALWAYS: &str = "#[inline(always)]";

const INLINE_NEVER: &str = "#[inline(never)]";

/// A function that is given the side of a list is put into its callers, which know the side: rustc then makes one of it for each side.
const BY_SIDE: &str = "side: Side";

/// Kept whole: in the midst of its callers the shape check of each side makes them longer and slower.
pub const WHOLE: [&str; 2] = ["lists::shape", "lists::shape_sink"];

/// Put into their callers too: these take an object or a decoded request that the caller has just made, or make one that it takes apart; or
/// they put words into a list, or give a list, a message or an object, or its refusal, and would copy it once more.
pub const PUT_IN: [&str; 14] = [
    "objects::decode_sink",
    "objects::encode",
    "rules::build",
    "rules::put_rails",
    "rules::put_supplies",
    "requests::take_apart",
    "summaries::answer_summary",
    "summaries::named",
    "summaries::take_request",
    "summaries::TakenRequest::from",
    "messages::taken_apart",
    "sinks::sink_decode",
    "sinks::SinkObject::try_from",
    "flat::FlatRequest::from",
];

/// Whether a type may derive this.
pub fn is_derived(name: &str) -> bool {
    DERIVED.contains(&name)
}

/// The derives of a type, by its crate and name: those that it has in the source, and those that the Rust edition adds. None stands twice, and
/// none that has an `impl` by hand, of which `by_hand` tells.
pub fn derive(name: &str, source: &[&str], by_hand: impl Fn(&str) -> bool) -> String {
    let wanted = |it: &&str| match *it {
        "Debug" => !DEBUG_BY_HAND.contains(&name),
        "PartialEq" | "Eq" | "Hash" => true,
        "Default" => source.contains(it) || ZERO_BY_DEFAULT.contains(&name),
        "PartialOrd" | "Ord" => source.contains(it) || ORDERED.contains(&name),
        _ => source.contains(it),
    };
    let derived = DERIVED.into_iter().filter(wanted);
    let names: Vec<&str> = derived.filter(|it| !by_hand(it)).collect();
    format!("#[derive({})]\n", names.join(", "))
}

/// What stands above a function, by its path, what it is given and what it gives. `body`: not where a trait only declares it.
pub fn marks(path: &str, given: &str, gives: &str, public: bool, body: bool) -> Vec<&'static str> {
    let mut marks = Vec::new();
    // rustc warns of a `Result` that nobody looks at, whoever gives it.
    if public && !gives.is_empty() && !gives.starts_with("Result<") {
        marks.push(MUST_USE);
    }
    if !body {
        return marks;
    }
    marks.push(if WHOLE.contains(&path) {
        INLINE_NEVER
    } else if given.contains(BY_SIDE) || PUT_IN.contains(&path) {
        INLINE_ALWAYS
    } else {
        INLINE
    });
    marks
}
