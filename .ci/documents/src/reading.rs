//! docs/READING.md: its table of pages in reading order, and the block that is generated from the believed text.

use std::collections::BTreeMap;

use crate::believed::{Believed, label};
use crate::pages::Definition;
use crate::repository::{Repository, Slip};

const FILE: &str = "docs/READING.md";
const BEGIN: &str = "<!-- believed -->";
const END: &str = "<!-- end -->";
/// Where the lines of names are broken.
const WIDTH: usize = 100;
/// How many lines the definitions of document 01 may have, without their comments.
const MOST_LINES: usize = 1100;

/// A row of the table: a page, what it is about, its lines and those of its comments.
struct Row {
    line: usize,
    page: String,
    lines: Option<Lines>,
}

/// How many lines definitions have, and their comments.
#[derive(Clone, Copy, PartialEq, Eq, Debug, Default)]
struct Lines {
    definitions: usize,
    comments: usize,
}

/// The rows above the block: those that begin with a page between backticks, as `mesh/Mesh`.
fn rows(text: &str) -> Vec<Row> {
    let row = |(at, line): (usize, &str)| {
        let (page, rest) = line.strip_prefix("| `")?.split_once("` |")?;
        let (package, name) = page.split_once('/')?;
        if !package.chars().chain(name.chars()).all(|c| c.is_alphanumeric() || c == '_') {
            return None;
        }
        let mut columns = rest.trim_end().trim_end_matches('|').rsplit('|').map(|column| column.trim().parse().ok());
        let (comments, definitions) = (columns.next()?, columns.next()?);
        let lines = definitions.zip(comments).map(|(definitions, comments)| Lines { definitions, comments });
        Some(Row { line: at + 1, page: page.to_string(), lines })
    };
    text.lines().enumerate().take_while(|(_, line)| *line != BEGIN).filter_map(row).collect()
}

/// The believed text by pages, in the order of the table; pages that the table lacks come last.
pub fn block(repository: &Repository, believed: &Believed) -> String {
    let rows = rows(repository.texts.get(FILE).map_or("", String::as_str));
    let mut pages: Vec<_> = believed.pages().into_iter().collect();
    pages.sort_by_key(|page| rows.iter().position(|row| row.page == label(page)).unwrap_or(rows.len()));
    let all: Vec<_> = pages.iter().flat_map(|page| believed.on(page)).collect();
    let mut text = format!("**Together**: {}, {}\n\n", counted(all.len(), "definition"), lines(&all, None));
    for (request, part) in by_request(&all) {
        let size = counted(part.len(), "definition");
        text += &format!("- {}: {size}, {}\n", source(request), lines(&all, Some(request)));
    }
    for page in pages {
        let found = believed.on(page);
        text += &format!("\n**`{}`**: {}\n\n", label(page), lines(&found, None));
        for (request, part) in by_request(&found) {
            let names: Vec<_> = part.iter().map(|definition| definition.name.as_str()).collect();
            text += &wrapped(&format!("- {}, {}: {}", source(request), lines(&found, Some(request)), names.join(", ")));
        }
    }
    text
}

fn by_request<'a>(found: &[&'a Definition]) -> BTreeMap<u32, Vec<&'a Definition>> {
    let mut parts: BTreeMap<u32, Vec<&Definition>> = BTreeMap::new();
    for definition in found {
        parts.entry(definition.request).or_default().push(definition);
    }
    parts
}

fn source(request: u32) -> String {
    if request == 0 { "document 01".to_string() } else { format!("F-{request}") }
}

/// The lines of the definitions that are found, all of them or those of one request.
fn count(found: &[&Definition], request: Option<u32>) -> Lines {
    let mut count = Lines::default();
    for line in found.iter().flat_map(|definition| &definition.lines) {
        if request.is_none_or(|request| request == line.request) {
            if line.comment { count.comments += 1 } else { count.definitions += 1 }
        }
    }
    count
}

fn lines(found: &[&Definition], request: Option<u32>) -> String {
    let count = count(found, request);
    format!("{} and {} of comments", counted(count.definitions, "line"), count.comments)
}

fn counted(n: usize, what: &str) -> String {
    let number = if n < 1000 { n.to_string() } else { format!("{},{:03}", n / 1000, n % 1000) };
    format!("{number} {what}{}", if n == 1 { "" } else { "s" })
}

/// The text of an item in lines of at most `WIDTH` characters, as far as its words allow.
fn wrapped(item: &str) -> String {
    let mut text = String::new();
    let mut line = String::new();
    for word in item.split(' ') {
        if !line.is_empty() && line.chars().count() + 1 + word.chars().count() > WIDTH {
            text += &format!("{line}\n");
            line = " ".to_string();
        }
        if !line.is_empty() {
            line.push(' ');
        }
        line += word;
    }
    format!("{text}{line}\n")
}

/// What the page has otherwise than the believed text.
pub fn check(repository: &Repository, believed: &Believed) -> Vec<Slip> {
    let Some(text) = repository.texts.get(FILE) else {
        return vec![Slip::new(FILE, 0, "there is no such page".to_string())];
    };
    let mut slips = Vec::new();
    let rows = rows(text);
    let table = rows.last().map_or(0, |row| row.line);
    for page in believed.pages() {
        let here: Vec<_> = rows.iter().filter(|row| row.page == label(page)).collect();
        if here.is_empty() {
            slips.push(Slip::new(FILE, table, format!("the table has no row for {}, which is believed", label(page))));
        }
        let found = believed.on(page);
        for row in here.iter().filter(|row| row.lines != Some(count(&found, None))) {
            slips.push(Slip::new(FILE, row.line, format!("{} has {}", row.page, lines(&found, None))));
        }
        for row in here.iter().skip(1) {
            slips.push(Slip::new(FILE, row.line, format!("{} has two rows", row.page)));
        }
    }
    for row in rows.iter().filter(|row| !believed.pages().into_iter().any(|page| label(page) == row.page)) {
        slips.push(Slip::new(FILE, row.line, format!("{} has nothing that is believed", row.page)));
    }
    let all: Vec<_> = believed.pages().into_iter().flat_map(|page| believed.on(page)).collect();
    let first = count(&all, Some(0)).definitions;
    if first > MOST_LINES {
        let what = format!("document 01 has {} of definitions, more than {MOST_LINES}", counted(first, "line"));
        slips.push(Slip::new(FILE, 0, what));
    }
    slips.extend(compare(text, &block(repository, believed)));
    slips
}

/// The first line of the block that is not the generated one.
fn compare(text: &str, block: &str) -> Option<Slip> {
    let begin = text.lines().position(|line| line == BEGIN);
    let end = text.lines().position(|line| line == END);
    let (Some(begin), Some(end)) = (begin, end) else {
        return Some(Slip::new(FILE, 0, format!("no block between {BEGIN} and {END}")));
    };
    let here: Vec<_> = text.lines().take(end).skip(begin + 1).collect();
    let right: Vec<_> = block.lines().collect();
    let at = (0..here.len().max(right.len())).find(|at| here.get(*at) != right.get(*at))?;
    let what = match right.get(at) {
        Some(line) => format!("`documents believed` prints here: {line}"),
        None => "`documents believed` prints no more here".to_string(),
    };
    Some(Slip::new(FILE, begin + 2 + at, what))
}

#[cfg(test)]
mod tests {
    use super::{Lines, compare, counted, rows, wrapped};

    #[test]
    fn rows_are_pages_with_their_lines() {
        let text = "| `a / b` | |\n| Page | What | Lines | Comments |\n| `mesh/Mesh` | `a` | 74 | 33 |\n\n<!-- believed -->\n| `x/Y` | | 1 | 0 |\n";
        let found: Vec<_> = rows(text).into_iter().map(|row| (row.line, row.page, row.lines)).collect();
        assert_eq!(found, [(3, "mesh/Mesh".to_string(), Some(Lines { definitions: 74, comments: 33 }))]);
    }

    #[test]
    fn the_first_other_line_is_told() {
        let text = "a\n<!-- believed -->\nx\ny\n<!-- end -->\n";
        assert_eq!(compare(text, "x\ny\n"), None);
        assert_eq!(compare(text, "x\nz\n").map(|slip| slip.line), Some(4));
        assert_eq!(compare(text, "x\n").map(|slip| slip.line), Some(4));
        assert_eq!(compare(text, "x\ny\nz\n").map(|slip| slip.line), Some(5));
        assert!(compare("a\n", "x\n").is_some());
    }

    #[test]
    fn names_are_wrapped() {
        let text = wrapped(&format!("- document 01: {}", vec!["abcdefghi"; 30].join(", ")));
        assert!(text.lines().all(|line| line.chars().count() <= 100));
        assert!(text.lines().skip(1).all(|line| line.starts_with("  abc")));
        assert_eq!(counted(1535, "line") + &counted(1, "line"), "1,535 lines1 line");
    }
}
