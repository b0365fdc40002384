//! The words of a text, and what each of them can be by where it stands.

/// A word of a definition or a contract.
#[derive(Debug, PartialEq, Eq, Clone, Copy)]
pub enum Word<'a> {
    /// A name on its own, a number or a sign.
    Plain(&'a str),
    /// A name on a page that is imported under a name of its own, `page.name`, or a field of what has a name.
    Of(&'a str, &'a str),
    /// A name directly after a dot, or one that a `record { .. }` gives a value.
    Field(&'a str),
    /// What no word has in it.
    Mark(char),
}

/// The words of a text without comments. What stands between quotes is no word.
pub fn words(text: &str) -> Vec<Word<'_>> {
    let mut found = Vec::new();
    let mut rest = text.trim_start();
    while let Some(first) = rest.chars().next() {
        let behind = &rest[first.len_utf8()..];
        rest = if first == '"' {
            behind_quote(behind)
        } else if first == '.' && starts_word(behind) {
            let (name, behind) = split_word(behind);
            found.push(Word::Field(name));
            behind
        } else if is_mark(first) {
            found.push(Word::Mark(first));
            behind
        } else {
            let (name, behind) = split_word(rest);
            match behind.strip_prefix('.').filter(|inner| starts_word(inner)) {
                Some(inner) => {
                    let (last, behind) = split_word(inner);
                    found.push(Word::Of(name, last));
                    behind
                }
                None => {
                    found.push(Word::Plain(name));
                    behind
                }
            }
        }
        .trim_start();
    }
    name_fields(&mut found);
    found
}

/// In `record { a = x; b = y }` the names before `=` are fields.
fn name_fields(words: &mut [Word]) {
    for at in 2..words.len() {
        if let [Word::Mark('{' | ';'), Word::Plain(name), Word::Plain("=")] = words[at - 2..=at] {
            words[at - 1] = Word::Field(name);
        }
    }
}

/// What ends a word, beside space.
fn is_mark(c: char) -> bool {
    matches!(c, '(' | ')' | '{' | '}' | ';' | ',' | '.' | '"')
}

fn ends_word(c: char) -> bool {
    c.is_whitespace() || is_mark(c)
}

fn starts_word(text: &str) -> bool {
    text.chars().next().is_some_and(|c| !ends_word(c))
}

fn split_word(text: &str) -> (&str, &str) {
    text.split_at(text.find(ends_word).unwrap_or(text.len()))
}

/// What stands behind the quote that ends a string.
fn behind_quote(text: &str) -> &str {
    let mut escaped = false;
    for (at, c) in text.char_indices() {
        match c {
            '"' if !escaped => return &text[at + 1..],
            _ => escaped = c == '\\' && !escaped,
        }
    }
    ""
}

#[cfg(test)]
mod tests {
    use super::{Word, words};

    fn names(text: &str) -> Vec<&str> {
        words(text)
            .into_iter()
            .filter_map(|word| if let Word::Plain(name) = word { Some(name) } else { None })
            .collect()
    }

    #[test]
    fn a_word_after_a_dot_is_a_field() {
        assert_eq!(names("owns i c = eqb ((of S).owner c) i"), ["owns", "i", "c", "=", "eqb", "of", "S", "c", "i"]);
        assert_eq!(names("λ e. eqb (e .cell) x"), ["λ", "e", "eqb", "e", "x"]);
        assert_eq!(words("eqb S.owner.first"), [Word::Plain("eqb"), Word::Of("S", "owner"), Word::Field("first")]);
    }

    #[test]
    fn a_field_of_a_record_is_no_name() {
        assert_eq!(names("record { reach = reach m; first = f }"), ["record", "=", "reach", "m", "=", "f"]);
        assert_eq!(names("endOf {I} r = run"), ["endOf", "I", "r", "=", "run"]);
    }

    #[test]
    fn a_name_of_another_page_and_a_string() {
        assert_eq!(words("paper.Reading"), [Word::Of("paper", "Reading")]);
        assert_eq!(names("line (ascii \"too \\\" long\") label"), ["line", "ascii", "label"]);
    }
}
