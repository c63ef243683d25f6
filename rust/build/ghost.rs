// What only the prover reads, and goes. It stands on lines of its own: a brace that is missing, or one too many, can take no code along.

use super::text::{behind_braces, bracketed, is_clause, is_word, line_of, word_of};
use super::{Reader, Scope};

/// What begins a ghost member. Only a field of a struct is visible.
pub const GHOST: [&str; 3] = ["ghost ", "pub ghost ", "pub(crate) ghost "];

impl Reader<'_> {
    // Ghost text of these lines goes, with the spaces before it and the comment right above it, which would be that of the next item.
    pub fn forget(&mut self, n: usize) {
        let end = self.comment_above();
        self.out.truncate(end);
        self.take(n);
    }

    // Where the line begins that comes next, or the comment right above it.
    pub fn comment_above(&self) -> usize {
        let mut end = self.out.len() - self.indent_here().unwrap_or(0);
        loop {
            let above = self.out[..end].trim_end_matches('\n');
            let line = above.rfind('\n').map_or(0, |at| at + 1);
            let text = above[line..].trim_start();
            if end - above.len() != 1 || !text.starts_with("//") || text.starts_with("//!") {
                return end;
            }
            end = line;
        }
    }

    // One line, and nothing but it: a later semicolon is that of another item, which has to stay. Or a group with a line for each name, and a
    // last line that only ends it.
    pub fn ghost_use(&mut self) -> Result<(), String> {
        let mut n = self.line_length();
        let line = self.rest[..n].trim_end();
        if line.ends_with('{') && !line.contains(';') {
            let end = format!("{}}};\n", self.spaces());
            let deeper = format!("{}  ", self.spaces());
            while self.rest[n..].starts_with(&deeper) && !line_of(&self.rest[n..]).contains(';') {
                n += line_of(&self.rest[n..]).len();
            }
            if self.rest[n..].starts_with(&end) {
                self.forget(n + end.len());
                return Ok(());
            }
        }
        if line.find(';') != Some(line.len() - 1) {
            return self.fail("a ghost use does not end with its line");
        }
        self.forget(n);
        Ok(())
    }

    pub fn spaces(&self) -> String {
        " ".repeat(self.indent_here().unwrap_or(0))
    }

    // A line, and those behind it that are indented more or begin with the bracket that ends what this one began.
    pub fn lines_of_one(&self) -> usize {
        let deeper = format!("{} ", self.spaces());
        let ends = [")", "}", "]"].map(|it| self.spaces() + it);
        let mut n = self.line_length();
        loop {
            let line = line_of(&self.rest[n..]);
            if !line.starts_with(&deeper) && !ends.iter().any(|it| line.starts_with(it)) {
                return n;
            }
            n += line.len();
        }
    }

    // `ghost NAME = { .. };` of an impl, `ghost NAME: { .. };` or `ghost NAME: { .. } = { .. };` of a trait, `ghost NAME: { .. },` of a
    // struct. A brace that is missing can take no code along: what goes on is indented more.
    pub fn ghost_member(&mut self, end: &str) -> Result<(), String> {
        let n = self.lines_of_one();
        let text = self.rest[..n].trim_end();
        if self.indent_here().is_none() {
            return self.fail("ghost text behind code");
        }
        if text.contains("//") || text.contains("--") {
            return self.fail("a comment in ghost text");
        }
        if !is_ghost_member(text, end) {
            return self.fail("an unknown form of ghost member");
        }
        self.forget(n);
        Ok(())
    }

    // `#![tactic(..)]` of a file or `#[tactic(..)]` of a function, on lines of their own.
    pub fn tactics(&mut self) -> Result<(), String> {
        let n = self.lines_of_one();
        let text = self.rest[..n].trim_end();
        let open = text.find('[').unwrap_or(0);
        if bracketed(&text[open..]) != Some(text.len() - open)
            || !text.ends_with(")]")
            || text.contains("//")
        {
            return self.fail("an attribute does not end with its line");
        }
        self.take(n);
        // The indentation of the line is copied already: that of the next one comes now.
        let indent = self.indent_here().unwrap_or(0);
        self.out.truncate(self.out.len() - indent);
        Ok(())
    }

    // `impl Model for T { .. }` has nothing but ghost members.
    pub fn model(&mut self) -> Result<(), String> {
        let n = self.lines_of_block();
        let text = self.rest[..n].trim_end();
        let open = text.find('{').unwrap_or(0);
        if bracketed(&text[open..]) != Some(text.len() - open) || text.contains("fn ") {
            return self.fail("an unknown form of model");
        }
        self.forget(n);
        Ok(())
    }

    // Through the end of the first line, or to a brace that is as deep as it. All between is indented more, or empty.
    pub fn lines_of_block(&self) -> usize {
        let mut n = self.line_length();
        if self.rest[..n].trim_end().ends_with('}') {
            return n;
        }
        let deeper = format!("{} ", self.spaces());
        loop {
            let line = line_of(&self.rest[n..]);
            n += line.len();
            if line.is_empty() || line != "\n" && !line.starts_with(&deeper) {
                return n;
            }
        }
    }

    // The clauses of a function or a closure go, with the comments between them. Behind them comes a body, or in a trait maybe none.
    pub fn contract(&mut self, scope: &Scope) -> Result<bool, String> {
        loop {
            let n = self.space();
            let behind = &self.rest[n..];
            if is_clause(behind) {
                self.take(n);
                self.clause(matches!(scope, Scope::Trait { .. }))?;
            } else if behind.starts_with("//") && self.rest[..n].contains('\n') {
                let code = behind.lines().find(|l| !l.trim_start().starts_with("//"));
                if !is_clause(code.unwrap_or("").trim_start()) {
                    return self.fail("a comment that is of no clause");
                }
                self.take(n + line_of(behind).len() - 1);
            } else if behind.starts_with('{') {
                self.copy(n);
                return Ok(true);
            } else if behind.starts_with(';') && matches!(scope, Scope::Trait { .. }) {
                self.take(n);
                return Ok(false);
            } else if behind.is_empty() || behind.starts_with(';') {
                self.copy(n);
                return self.fail("a function has no body");
            } else {
                self.copy(n);
                return self.fail("an unknown form of signature");
            }
        }
    }

    // `requires { .. }` or `ensures NAME { .. }`, on one line, or with further lines that are indented more: a brace that is missing can take no
    // code along. In a trait the last one ends with a semicolon, which stays.
    pub fn clause(&mut self, in_trait: bool) -> Result<(), String> {
        let mut n = self.line_length();
        let line = self.rest[..n].trim_end();
        let Some(open) = line.find('{') else {
            return self.fail("a clause has no braces");
        };
        if !line[..open].chars().all(|c| is_word(c) || c == ' ') {
            return self.fail("an unknown form of clause");
        }
        let deeper = format!("{}     ", " ".repeat(self.indent));
        while self.rest[n..].starts_with(&deeper) {
            n += line_of(&self.rest[n..]).len();
        }
        let mut clause = self.rest[..n].trim_end();
        if clause.contains('\n') && clause.contains("//") {
            return self.fail("a comment in a clause of several lines");
        }
        if in_trait {
            clause = clause.strip_suffix(';').unwrap_or(clause);
        }
        let mut depth = 0;
        for (at, c) in clause.char_indices().filter(|(at, _)| *at >= open) {
            match c {
                '{' => depth += 1,
                '}' => depth -= 1,
                _ => {}
            }
            if depth == 0 && at + 1 < clause.len() {
                return self.fail("a clause does not end with its line");
            }
        }
        if depth != 0 {
            return self.fail("a clause does not end with its line");
        }
        self.take(clause.len());
        Ok(())
    }

    // The clauses of a closure stand behind its head, on lines of their own, and before a block.
    pub fn closure(&mut self) -> Result<(), String> {
        let head = self.out[..self.comment_above()].trim_end();
        let line = head.lines().next_back().unwrap_or("");
        let gives = line.rsplit_once('|').map(|it| it.1.trim());
        let is_head = gives.is_some_and(|it| it.is_empty() || it.starts_with("-> "));
        let Some(indent) = self.indent_here().filter(|_| is_head) else {
            return self.fail("ghost text where none is known");
        };
        let end = head.len();
        self.out.truncate(end);
        let outer = std::mem::replace(&mut self.indent, indent.saturating_sub(4));
        self.contract(&Scope::File)?;
        self.indent = outer;
        Ok(())
    }

    // How long a `prove!(..);` is, whose bracket opens at `open`: it stands on lines of its own.
    pub fn proved(&self, open: usize) -> Option<usize> {
        self.indent_here()?;
        let n = self.lines_of_one();
        let text = self.rest[..n].trim_end();
        let end = open + bracketed(&text[open..])?;
        (&text[end..] == ";" && !text.contains("//")).then_some(n)
    }
}

// Whether this is `ghost NAME = { .. }` or `ghost NAME: { .. }`, which may have ` = { .. }` behind it, and then `end`.
fn is_ghost_member(text: &str, end: &str) -> bool {
    let named = GHOST.iter().find_map(|it| text.strip_prefix(it));
    let named = named.unwrap_or("");
    let name = word_of(named);
    let behind = &named[name.len()..];
    let behind = match behind.strip_prefix(": ").and_then(behind_braces) {
        Some(behind) => behind
            .strip_prefix(" = ")
            .map_or(Some(behind), behind_braces),
        None => behind.strip_prefix(" = ").and_then(behind_braces),
    };
    !name.is_empty() && behind == Some(end)
}
