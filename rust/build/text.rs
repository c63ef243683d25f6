// Words, lines and brackets of a text.

/// Whether a clause begins here.
pub fn is_clause(text: &str) -> bool {
    matches!(word_of(text), "requires" | "ensures")
}

/// The first line, with its end.
pub fn line_of(text: &str) -> &str {
    text.split_inclusive('\n').next().unwrap_or("")
}

/// The word that begins here, which may be empty.
pub fn word_of(text: &str) -> &str {
    let end = text.find(|c: char| !is_word(c));
    &text[..end.unwrap_or(text.len())]
}

/// How long the text in brackets is that begins here. Each kind is counted with the others.
pub fn bracketed(text: &str) -> Option<usize> {
    let mut open = Vec::new();
    for (at, c) in text.char_indices() {
        match c {
            '(' => open.push(')'),
            '[' => open.push(']'),
            '{' => open.push('}'),
            ')' | ']' | '}' if open.pop() != Some(c) => return None,
            _ => {}
        }
        if open.is_empty() {
            return Some(at + c.len_utf8());
        }
    }
    None
}

/// What stands behind the braces that begin here.
pub fn behind_braces(text: &str) -> Option<&str> {
    let n = bracketed(text).filter(|_| text.starts_with('{'))?;
    Some(&text[n..])
}

/// How long the list of parameters of types is that begins here: nothing where there is none. The arrow of a bound closes none.
pub fn generics(text: &str) -> usize {
    let mut depth = 0;
    let mut before = ' ';
    for (at, c) in text.char_indices() {
        match c {
            '<' => depth += 1,
            '>' if before != '-' => depth -= 1,
            _ => {}
        }
        if depth == 0 {
            return if at == 0 { 0 } else { at + 1 };
        }
        before = c;
    }
    0
}

/// Whether this is of a word.
pub fn is_word(c: char) -> bool {
    c.is_ascii_alphanumeric() || c == '_'
}
