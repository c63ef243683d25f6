// The table of sentences, one for each refusal number, as Rust.

/// A row of the table.
pub struct Row<'a> {
    pub number: u8,
    pub name: &'a str,
    pub text: &'a str,
}

/// The rows, one a line: `ARIN_REFUSAL(number, NAME, "sentence")`. A line that is neither a row nor of the comment at the head is an
/// error.
pub fn rows(table: &str) -> Result<Vec<Row<'_>>, String> {
    let mut rows = Vec::new();
    for (at, line) in table.lines().enumerate() {
        if line.starts_with("/*") || line.starts_with(" *") || line.is_empty() {
            continue;
        }
        match row(line) {
            Some(row) => rows.push(row),
            None => return Err(format!("line {}: no row: {line}", at + 1)),
        }
    }
    Ok(rows)
}

fn row(line: &str) -> Option<Row<'_>> {
    let inside = line.strip_prefix("ARIN_REFUSAL(")?.strip_suffix("\")")?;
    let (number, rest) = inside.split_once(", ")?;
    let (name, text) = rest.split_once(", \"")?;
    let named = name
        .bytes()
        .all(|b| b.is_ascii_uppercase() || b.is_ascii_digit() || b == b'_');
    if name.is_empty() || !named || text.is_empty() || text.contains(['"', '\\']) {
        return None;
    }
    Some(Row {
        number: number.parse().ok()?,
        name,
        text,
    })
}

/// A function from a number to its sentence. A name that stands for another number in `verdicts` does not compile, nor does a number
/// that stands twice.
pub fn function(rows: &[Row]) -> String {
    let mut text = String::from(
        "#[deny(unreachable_patterns)]\nconst fn text(number: u8) -> Option<&'static str> {\n    match number {\n",
    );
    for row in rows {
        text += &format!("        {} => Some(\"{}\"),\n", row.number, row.text);
    }
    text += "        _ => None,\n    }\n}\n\n";
    for row in rows {
        text += &format!(
            "const _: () = assert!(crate::verdicts::{} == {});\n",
            row.name, row.number
        );
    }
    text
}
