//! The code spans of a document.

/// What stands between backticks.
#[derive(Debug)]
pub struct Span {
    pub line: usize,
    pub text: String,
    /// The text between the span before it in its paragraph and this one, and between this one and the next.
    pub before: String,
    pub after: String,
    /// Whether it is the last of its paragraph.
    pub last: bool,
}

/// The code spans of a document, by paragraphs. A row of a table is a paragraph of its own, an item of a list begins one, and blocks between
/// fences have none.
pub fn spans(text: &str) -> Vec<Vec<Span>> {
    let mut found = Vec::new();
    let mut paragraph = String::new();
    let mut first = 1;
    let mut fenced = false;
    for (at, line) in text.lines().chain([""]).enumerate() {
        let content = line.trim_start();
        let fence = content.starts_with("```");
        let row = line.starts_with('|');
        let item =
            content.starts_with("- ") || content.trim_start_matches(|c: char| c.is_ascii_digit()).starts_with(". ");
        if fence || fenced || row || item || content.is_empty() {
            found.push(spans_of(first, &std::mem::take(&mut paragraph)));
            first = at + if item { 1 } else { 2 };
        }
        fenced ^= fence;
        if row && !fenced {
            found.push(spans_of(at + 1, line));
        } else if !fence && !fenced && !content.is_empty() {
            paragraph += line;
            paragraph.push('\n');
        }
    }
    found.retain(|spans| !spans.is_empty());
    found
}

/// The spans of a paragraph that begins at a line. A span ends with as many backticks as it begins with.
fn spans_of(first: usize, text: &str) -> Vec<Span> {
    let mut found: Vec<Span> = Vec::new();
    let mut end = 0;
    let mut from = 0;
    while let Some(begin) = text[from..].find('`').map(|at| from + at) {
        let ticks = &text[begin..begin + text[begin..].bytes().take_while(|b| *b == b'`').count()];
        let inner = begin + ticks.len();
        let Some(length) = closing(&text[inner..], ticks.len()) else {
            from = inner;
            continue;
        };
        let before = plain(&text[end..begin]);
        if let Some(last) = found.last_mut() {
            last.after = before.clone();
            last.last = false;
        }
        end = inner + length + ticks.len();
        from = end;
        let line = first + text[..begin].matches('\n').count();
        let text = plain(&text[inner..inner + length]);
        found.push(Span { line, text, before, after: String::new(), last: true });
    }
    if let Some(last) = found.last_mut() {
        last.after = plain(&text[end..]);
    }
    found
}

/// Where the run of backticks stands that ends a span.
fn closing(text: &str, ticks: usize) -> Option<usize> {
    let mut at = 0;
    loop {
        at += text[at..].find('`')?;
        let run = text[at..].bytes().take_while(|b| *b == b'`').count();
        if run == ticks {
            return Some(at);
        }
        at += run;
    }
}

/// A text on one line.
fn plain(text: &str) -> String {
    let mut line = String::new();
    for c in text.chars() {
        let c = if c == '\n' { ' ' } else { c };
        if c != ' ' || !line.ends_with(' ') {
            line.push(c);
        }
    }
    line
}

#[cfg(test)]
mod tests {
    use super::spans;

    #[test]
    fn spans_have_their_lines_and_what_stands_around_them() {
        let document = "One `a` and\n  `b, c\nd`: x.\n\n| `e` | f |\n| `g` |\n```\n`h`\n```\n``i ` j`` ` k\n- `l` m\n\n  12. `n`\n";
        let found = spans(document);
        let told: Vec<Vec<_>> = found
            .iter()
            .map(|spans| {
                spans.iter().map(|s| (s.line, s.text.as_str(), s.before.as_str(), s.after.as_str(), s.last)).collect()
            })
            .collect();
        assert_eq!(
            told,
            [
                vec![(1, "a", "One ", " and ", false), (2, "b, c d", " and ", ": x. ", true)],
                vec![(5, "e", "| ", " | f |", true)],
                vec![(6, "g", "| ", " |", true)],
                vec![(10, "i ` j", "", " ` k ", true)],
                vec![(11, "l", "- ", " m ", true)],
                vec![(13, "n", " 12. ", " ", true)],
            ]
        );
    }
}
