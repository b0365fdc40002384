//! What documents cite: pages and what stands on them, functions, must-fail edits, tests, paths, and numbered entries.
//!
//! The forms, each in code spans:
//! - `mesh/Mesh`, `mesh/Mesh: bad4, records`, also with `specs/` or `proofs/` before the page;
//! - `mesh` edit counted-twice, or edits with several names and commas; or edit `mesh/counted-twice`;
//! - `model/tests/runs.rs`: every_order_of_calls, or several with commas;
//! - `layout`: `word_at`; inner `word_in`, `put_word`; and `layout::inner::word_in`;
//! - paths from the root, and those in a crate: `layout/src/lib.rt`.
//!
//! And in any text D-17 and P-3: entries of docs/DECISIONS.md and docs/PROVING.md.

use std::collections::BTreeSet;

use crate::markdown::{Span, spans};
use crate::repository::{Repository, Slip};

/// Something that is cited.
#[derive(Debug, PartialEq, Eq)]
pub enum Cited {
    Page {
        package: String,
        folder: String,
        page: String,
        names: Vec<String>,
    },
    Edit {
        package: String,
        name: String,
    },
    Test {
        file: String,
        name: String,
    },
    Function {
        package: String,
        name: String,
    },
    /// `layout::inner::word_in`; the crate may be the library's.
    Qualified {
        package: String,
        name: String,
    },
    Path(String),
}

/// The documents whose citations are checked. The notes on the first two requests, and the page on the move to today's kit, speak of names that
/// are there no more.
pub fn is_document(path: &str) -> bool {
    let folder = path.rsplit_once('/').map_or("", |(folder, _)| folder);
    ["README.md", "CHANGELOG.md", "CONTRIBUTING.md", "examples/README.md", "model/README.md"].contains(&path)
        || ["docs", "docs/changes"].contains(&folder)
            && path.ends_with(".md")
            && !["docs/PORT.md", "docs/changes/F-1.md", "docs/changes/F-2.md"].contains(&path)
}

/// All that a document cites, and on which lines.
pub fn citations(text: &str) -> Vec<(usize, Cited)> {
    let mut found = Vec::new();
    for paragraph in spans(text) {
        let mut edit = false;
        for (at, span) in paragraph.iter().enumerate() {
            let before = span.before.trim();
            edit = before.ends_with("edit")
                || before.ends_with("edits")
                || edit && [",", "and", ", and"].contains(&before);
            let mut cited = span_cites(span, edit);
            cited.extend(functions(&paragraph[at..]));
            found.extend(cited.into_iter().map(|cited| (span.line, cited)));
        }
    }
    found
}

/// What a span cites with the text behind it.
fn span_cites(span: &Span, edit: bool) -> Vec<Cited> {
    let text = span.text.as_str();
    let after = span.after.trim_start();
    if let Some(page) = page(text) {
        vec![page]
    } else if let Some((package, name)) = text.split_once("::").filter(|(package, _)| is_package(package)) {
        let name = name.rsplit("::").next().unwrap_or(name).to_string();
        if is_name(&name) { vec![Cited::Qualified { package: package.to_string(), name }] } else { Vec::new() }
    } else if let Some((package, name)) =
        text.split_once('/').filter(|(package, name)| edit && is_package(package) && is_edit(name))
    {
        vec![Cited::Edit { package: package.to_string(), name: name.to_string() }]
    } else if let Some(rest) = after.strip_prefix("edits ").or(after.strip_prefix("edit ")).filter(|_| is_package(text))
    {
        let edit = |name: &str| Cited::Edit { package: text.to_string(), name: name.to_string() };
        let names = bare_names(rest, span.last, is_edit);
        // one name has to be there
        if names.is_empty() {
            vec![edit(rest.split(' ').next().unwrap_or(rest))]
        } else {
            names.into_iter().map(edit).collect()
        }
    } else {
        let mut cited = paths(text);
        if let Some(rest) = after.strip_prefix(':').filter(|_| text.starts_with("model/tests/")) {
            let test = |name: &str| Cited::Test { file: text.to_string(), name: name.to_string() };
            cited.extend(bare_names(rest, span.last, is_name).into_iter().map(test));
        }
        cited
    }
}

/// `mesh/Mesh: bad4, records`
fn page(text: &str) -> Option<Cited> {
    let (path, names) = text.split_once(": ").map_or((text, None), |(path, names)| (path, Some(names)));
    let (package, rest) = path.split_once('/')?;
    let (folder, page) = rest.split_once('/').unwrap_or(("", rest));
    let folders = ["", "specs", "proofs"];
    let named = page.starts_with(|c: char| c.is_ascii_uppercase()) && page.chars().all(|c| c.is_ascii_alphanumeric());
    if !is_package(package) || folders.contains(&package) || !folders.contains(&folder) || !named {
        return None;
    }
    let names = names.map_or(Vec::new(), |names| names.split(", ").map(str::to_string).collect());
    Some(Cited::Page { package: package.to_string(), folder: folder.to_string(), page: page.to_string(), names })
}

/// The functions that a crate's name cites with a colon: the spans behind it, as far as only commas, semicolons, `and`, `inner` and brackets
/// stand between them, and before one that cites something itself.
fn functions(spans: &[Span]) -> Vec<Cited> {
    let text = spans[0].text.as_str();
    let mut found = Vec::new();
    let mut between = match spans[0].after.strip_prefix(':') {
        Some(rest) if is_package(text) => rest.to_string(),
        _ => return found,
    };
    for (at, span) in spans.iter().enumerate().skip(1) {
        if open_brackets(&spans[1..at]) {
            continue;
        }
        if at > 1 {
            between = spans[at - 1].after.rsplit(')').next().unwrap_or("").to_string();
        }
        let connects = ["", ",", ";", "and", ", and"].contains(&between.trim().trim_end_matches("inner").trim_end());
        let cites = span.after.starts_with(':') || span.after.trim_start().starts_with("edit");
        if !connects || cites || !is_name(&span.text) {
            break;
        }
        found.push(Cited::Function { package: text.to_string(), name: span.text.clone() });
    }
    found
}

/// Whether a bracket is open behind these spans.
fn open_brackets(spans: &[Span]) -> bool {
    let count = |mark: char| spans.iter().map(|span| span.after.matches(mark).count()).sum::<usize>();
    count('(') > count(')')
}

/// The paths in a span. A command may have several. What `rt` builds, in `out/` of a crate, need not be there.
fn paths(text: &str) -> Vec<Cited> {
    let path = |word: &str| {
        let word = word.trim_end_matches([',', ';', ':']);
        let rooted =
            ["crates/", "docs/", "model/", "include/", "examples/", ".ci/"].iter().any(|root| word.starts_with(root));
        let in_crate = word.split_once('/').is_some_and(|(package, rest)| {
            is_package(package)
                && ["specs", "proofs", "src", "must-fail"].contains(&rest.split('/').next().unwrap_or(""))
        });
        if word.starts_with("crates/") && word.split('/').nth(2) == Some("out") {
            return None;
        }
        match (rooted, in_crate) {
            (true, _) => Some(Cited::Path(word.trim_end_matches('/').to_string())),
            (_, true) => Some(Cited::Path(format!("crates/{}", word.trim_end_matches('/')))),
            _ => None,
        }
    };
    text.split(' ').filter_map(path).collect()
}

/// The names at the front of a text, between commas or `and`. A word that goes on with other words, or with a span, is no name.
fn bare_names(text: &str, last: bool, is_name: fn(&str) -> bool) -> Vec<&str> {
    let mut found = Vec::new();
    let mut rest = text.trim_start();
    loop {
        let end = rest.find(|c: char| !(c.is_ascii_alphanumeric() || c == '_' || c == '-')).unwrap_or(rest.len());
        let (name, behind) = rest.split_at(end);
        let ends = behind.starts_with([',', ';', '.', ')', '|'])
            || [" (", " |", " and "].iter().any(|mark| behind.starts_with(mark));
        if !is_name(name) || !(ends || last && behind.trim().is_empty()) {
            return found;
        }
        found.push(name);
        let behind =
            if behind.starts_with(" (") { behind.split_once(')').map_or("", |(_, behind)| behind) } else { behind };
        match behind.strip_prefix(',').or(behind.strip_prefix(" and ")) {
            Some(next) => rest = next.trim_start().trim_start_matches("and "),
            None => return found,
        }
    }
}

/// A crate's name. In the notes' template `crate` stands for any of them.
fn is_package(text: &str) -> bool {
    !text.is_empty() && text != "crate" && text.chars().all(|c| c.is_ascii_lowercase() || c == '_')
}

fn is_edit(text: &str) -> bool {
    !text.is_empty() && text.chars().all(|c| c.is_ascii_lowercase() || c.is_ascii_digit() || c == '-')
}

fn is_name(text: &str) -> bool {
    !text.is_empty() && text.chars().all(|c| c.is_ascii_alphanumeric() || c == '_')
}

/// What is cited and is not there.
pub fn check(repository: &Repository) -> Vec<Slip> {
    let mut slips = Vec::new();
    for (file, text) in repository.texts.iter().filter(|(file, _)| is_document(file)) {
        for (line, cited) in citations(text) {
            slips.extend(wrong(repository, &cited).into_iter().map(|what| Slip::new(file, line, what)));
        }
    }
    for (page, letter) in [("docs/DECISIONS.md", "D-"), ("docs/PROVING.md", "P-")] {
        slips.extend(unknown_entries(repository, page, letter));
    }
    slips
}

/// The entries of a page that some document, definition or code names, and that are not there: `**D-17. ..**`.
fn unknown_entries(repository: &Repository, page: &str, letter: &str) -> Vec<Slip> {
    let text = repository.texts.get(page).map_or("", String::as_str);
    let titles = text.split("**").skip(1).step_by(2);
    let known: BTreeSet<&str> = titles.filter_map(|title| title.split_once(". ").map(|(entry, _)| entry)).collect();
    let mut slips = Vec::new();
    for (file, text) in &repository.texts {
        if !is_document(file) && !repository.pages.contains_key(file) && !repository.code.contains_key(file) {
            continue;
        }
        for (at, line) in text.lines().enumerate().filter(|(_, line)| line.contains(letter)) {
            for word in line.split(|c: char| !(c.is_ascii_alphanumeric() || c == '-')) {
                let number = word.strip_prefix(letter).unwrap_or("");
                if !number.is_empty() && number.bytes().all(|b| b.is_ascii_digit()) && !known.contains(word) {
                    slips.push(Slip::new(file, at + 1, format!("{page} has no entry {word}")));
                }
            }
        }
    }
    slips
}

/// What is wrong with a citation.
fn wrong(repository: &Repository, cited: &Cited) -> Vec<String> {
    let mut wrong = Vec::new();
    match cited {
        Cited::Page { package, .. } | Cited::Edit { package, .. } | Cited::Function { package, .. }
            if !repository.has_crate(package) =>
        {
            wrong.push(format!("there is no crate {package}"));
        }
        Cited::Page { package, folder, page, names } => {
            let pages = pages_of(repository, package, folder, page);
            if pages.is_empty() {
                wrong.push(format!("the crate {package} has no page {page}"));
            } else {
                let known = |name: &String| pages.iter().any(|page| has(repository, page, name));
                let unknown = names.iter().filter(|name| !known(name));
                wrong.extend(unknown.map(|name| format!("the page {package}/{page} has no {name}")));
            }
        }
        Cited::Edit { package, name } => {
            if !repository.paths.contains(&format!("crates/{package}/must-fail/{name}.edit")) {
                wrong.push(format!("the crate {package} has no edit {name}"));
            }
        }
        Cited::Test { file, name } => {
            let text = repository.texts.get(file).map_or("", String::as_str);
            if !text.contains(&format!("#[test]\nfn {name}()")) {
                wrong.push(format!("{file} has no test {name}"));
            }
        }
        Cited::Qualified { package, .. } if !repository.has_crate(package) => {}
        Cited::Function { package, name } | Cited::Qualified { package, name } => {
            if !repository.code_of(package).any(|(_, code)| code.names.contains(name)) {
                wrong.push(format!("the code of the crate {package} has no {name}"));
            }
        }
        Cited::Path(path) => {
            if !repository.paths.contains(path) && !repository.paths.iter().any(|known| matches(path, known)) {
                wrong.push(format!("there is no {path}"));
            }
        }
    }
    wrong
}

/// The files of a crate's pages that have this name.
pub fn pages_of<'a>(repository: &'a Repository, package: &str, folder: &str, page: &str) -> Vec<&'a String> {
    let specs = format!("crates/{package}/specs/");
    let proofs = format!("crates/{package}/proofs/");
    let is = |file: &&String| {
        file.ends_with(&format!("/{page}.antt"))
            && (folder != "proofs" && file.starts_with(&specs) || folder != "specs" && file.starts_with(&proofs))
    };
    repository.pages.keys().filter(is).collect()
}

/// Whether a page has a definition, a law, a field or a constructor of this name.
fn has(repository: &Repository, page: &str, name: &str) -> bool {
    repository.pages[page]
        .definitions
        .iter()
        .any(|found| found.name == name || found.parts.iter().any(|part| part == name))
}

/// Whether a path is the cited one. A star, `NAME` and the N of a request stand for any name; a page may be cited without its ending.
fn matches(cited: &str, path: &str) -> bool {
    let alike = |cited: &str, part: &str| {
        let cited = cited.replace("NAME", "*").replace("F-N", "F-*");
        match cited.split_once('*') {
            Some((front, back)) => {
                part.len() >= front.len() + back.len() && part.starts_with(front) && part.ends_with(back)
            }
            None => part == cited || part.strip_suffix(".antt") == Some(&cited),
        }
    };
    cited.split('/').count() == path.split('/').count()
        && cited.split('/').zip(path.split('/')).all(|(cited, part)| alike(cited, part))
}

#[cfg(test)]
mod tests {
    use super::{Cited, check, citations, wrong};
    use crate::repository::Repository;
    use std::path::Path;

    /// A small repository with one document.
    fn slips(document: &str) -> Vec<String> {
        let mut repository = Repository::default();
        for (path, text) in [
            (
                "crates/mesh/specs/Mesh.antt",
                "-- head\n\nunfoldable pub bad4 : Bool\nbad4 = true\n\npub record Pair : Type 0 where\n  pub left : ℕ\n",
            ),
            ("crates/mesh/proofs/WalkLaws.antt", "-- head\n\npub reach-in : ⊤\nreach-in = tt\n"),
            ("crates/mesh/must-fail/counted-twice.edit", ""),
            ("crates/mesh/must-fail/weight-16.edit", ""),
            (
                "crates/mesh/src/reader.rt",
                "pub struct ChainReader;\n\npub fn read_record()\n{\n}\n\nfn next_of()\n{\n}\n",
            ),
            ("crates/layout/src/lib.rt", "pub const MOST: usize = 1;\n"),
            ("crates/part_take/src/lib.rt", ""),
            (
                "model/tests/runs.rs",
                "#[test]\nfn every_order() {\n}\n\n#[test]\nfn another() {\n}\n\nfn helper() {\n}\n",
            ),
            ("docs/DECISIONS.md", "**D-1. Weights are words.** They are.\n"),
            ("docs/TRACE.md", document),
        ] {
            repository.add(path, text.into());
        }
        check(&repository).iter().map(|slip| slip.to_string()).collect()
    }

    #[test]
    fn right_citations_pass() {
        for document in [
            "`mesh/Mesh: bad4, Pair, left`; law `mesh/WalkLaws: reach-in` and `mesh/proofs/WalkLaws: reach-in`, `mesh/specs/Mesh`, `mesh/Mesh`",
            "| `mesh` edits counted-twice, weight-16 (what is held); the rest | `mesh` edit counted-twice |",
            "`mesh` edit counted-twice, law `mesh/WalkLaws: reach-in`; the edits of `mesh`, `layout` and others; edits `mesh/weight-16`, `mesh/counted-twice`",
            "`model/tests/runs.rs`: every_order (7 8, and 9), another; `model/tests/runs.rs`: every part map is held to one field",
            "`mesh`: inner `read_record` (`x` of it, `y`), `next_of`; `ChainReader`; `layout`: `MOST`, and by it `absent`; `layout`: the nine calls",
            "`mesh::read_record`, `mesh::inner::next_of`, `std::mem::take`, `Found`: `At`, `crate/File: name`, `crate`: `function`, `specs/Code`",
            "`crates/NAME/out/NAME`, `crates/mesh/src`, `crates/mesh/specs/Mesh.antt`, `cat < docs/TRACE.md`, `crates/*/must-fail`, `crates/NAME/specs`, `mesh/src/reader.rt`",
            "By D-1, see (D-1). A `D-1` and X-D-7.\n\n    $ `\n\n```\n`mesh/Mesh: absent`\n```\n",
        ] {
            assert_eq!(slips(document), Vec::<String>::new(), "{document}");
        }
    }

    #[test]
    fn each_wrong_name_is_told() {
        for (document, told) in [
            ("\n`mesh/Mesh: bad4,\nbad5`", "docs/TRACE.md:2: the page mesh/Mesh has no bad5"),
            ("`mesh/Mesh: right`", "docs/TRACE.md:1: the page mesh/Mesh has no right"),
            ("`mesh/specs/WalkLaws: reach-in`", "docs/TRACE.md:1: the crate mesh has no page WalkLaws"),
            ("`mesh/Walks`", "docs/TRACE.md:1: the crate mesh has no page Walks"),
            ("`meshes/Mesh`", "docs/TRACE.md:1: there is no crate meshes"),
            ("`mesh` edits counted-twice, weight-17", "docs/TRACE.md:1: the crate mesh has no edit weight-17"),
            ("| `mesh` edit weight-17 (as x) |", "docs/TRACE.md:1: the crate mesh has no edit weight-17"),
            ("`part_take` edit counted-twice; x", "docs/TRACE.md:1: the crate part_take has no edit counted-twice"),
            ("`taking` edit counted-twice.", "docs/TRACE.md:1: there is no crate taking"),
            ("`mesh` edit Counted", "docs/TRACE.md:1: the crate mesh has no edit Counted"),
            (
                "- `mesh` edits counted-twice,\n  weight-17\n- x",
                "docs/TRACE.md:1: the crate mesh has no edit weight-17",
            ),
            ("- x\n\n1. y\n2. `mesh` edit weight-17\n3. z", "docs/TRACE.md:4: the crate mesh has no edit weight-17"),
            ("edit `mesh/counted-once`", "docs/TRACE.md:1: the crate mesh has no edit counted-once"),
            ("edits `mesh/weight-16`, `mesh/counted-once`", "docs/TRACE.md:1: the crate mesh has no edit counted-once"),
            ("`model/tests/runs.rs`: every_order, other |", "docs/TRACE.md:1: model/tests/runs.rs has no test other"),
            ("`model/tests/runs.rs`: helper", "docs/TRACE.md:1: model/tests/runs.rs has no test helper"),
            ("`model/tests/run.rs`", "docs/TRACE.md:1: there is no model/tests/run.rs"),
            ("`mesh`: `read_records`", "docs/TRACE.md:1: the code of the crate mesh has no read_records"),
            (
                "`mesh`: `read_record` (`x`); inner `prev_of`",
                "docs/TRACE.md:1: the code of the crate mesh has no prev_of",
            ),
            ("`meshes`: `read_record`", "docs/TRACE.md:1: there is no crate meshes"),
            ("`mesh::inner::prev_of`", "docs/TRACE.md:1: the code of the crate mesh has no prev_of"),
            ("`crates/mesh/src/lib.rt`", "docs/TRACE.md:1: there is no crates/mesh/src/lib.rt"),
            ("`cat < docs/TRACES.md`", "docs/TRACE.md:1: there is no docs/TRACES.md"),
            ("`mesh/src/lib.rt`", "docs/TRACE.md:1: there is no crates/mesh/src/lib.rt"),
            ("`crates/*/proof`", "docs/TRACE.md:1: there is no crates/*/proof"),
            ("See D-2.", "docs/TRACE.md:1: docs/DECISIONS.md has no entry D-2"),
            ("See (P-1)", "docs/TRACE.md:1: docs/PROVING.md has no entry P-1"),
        ] {
            assert_eq!(slips(document), [told], "{document}");
        }
    }

    /// The names that a citation rests on.
    fn names(cited: &Cited) -> Vec<&str> {
        match cited {
            Cited::Page { page, names, .. } => names.iter().chain([page]).map(String::as_str).collect(),
            Cited::Edit { package, name } | Cited::Function { package, name } => vec![package, name],
            Cited::Test { name, .. } | Cited::Qualified { name, .. } => vec![name],
            // where a path begins with another folder, it is none that is known
            Cited::Path(path) => path.rsplit_once('/').map(|(_, name)| name).into_iter().collect(),
        }
    }

    /// A text in which a word has one more letter, wherever it stands.
    fn misspelt(text: &str, word: &str) -> String {
        let is_part = |c: char| c.is_ascii_alphanumeric() || c == '_' || c == '-';
        let mut changed = String::new();
        let mut from = 0;
        for (at, _) in text.match_indices(word) {
            let end = at + word.len();
            if !text[..at].ends_with(is_part) && !text[end..].starts_with(is_part) {
                changed = changed + &text[from..end] + "x";
                from = end;
            }
        }
        changed + &text[from..]
    }

    #[test]
    fn every_name_that_the_trace_cites_counts() {
        let root = Path::new(env!("CARGO_MANIFEST_DIR")).join("../..");
        let repository = Repository::read(&root).expect("the repository");
        let trace = &repository.texts["docs/TRACE.md"];
        let mut count = 0;
        for part in trace.split("\n\n").flat_map(|part| part.split_inclusive("|\n")) {
            for (_, cited) in citations(part) {
                for name in names(&cited) {
                    let changed = misspelt(part, name);
                    let told = citations(&changed).iter().any(|(_, cited)| !wrong(&repository, cited).is_empty());
                    assert!(told, "{name} in {part}");
                    count += 1;
                }
            }
        }
        assert!(count > 1000, "the trace cites {count} names");
    }
}
