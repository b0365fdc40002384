//! Pages of definitions and laws (`*.antt`): what stands on a page, with its lines, and what the page imports.

use std::collections::{BTreeMap, HashMap};

/// What a name at the top of a page stands for.
#[derive(Debug, PartialEq, Eq, Clone, Copy)]
pub enum Kind {
    /// A definition that can be unfolded.
    Value,
    Record,
    Data,
    /// All others: only their statement counts.
    Law,
}

/// A line of a definition.
#[derive(Debug, Clone, Copy, PartialEq, Eq)]
pub struct Line {
    /// The request that it came with, or 0 for document 01.
    pub request: u32,
    pub comment: bool,
}

/// What stands at the top of a page or in one of its unnamed modules, or a type that the code declares.
#[derive(Debug)]
pub struct Definition {
    pub name: String,
    pub kind: Kind,
    pub public: bool,
    /// Where its signature stands, from 1.
    pub line: usize,
    /// Its lines, with the comment directly above it and without blank ones.
    pub lines: Vec<Line>,
    /// The fields of a record, or the constructors of a data type.
    pub parts: Vec<String>,
    /// Its text without comments, behind the parameters of the modules that it stands in.
    pub text: String,
    /// The request of document 02 that it belongs to, or 0 for document 01.
    pub request: u32,
}

/// Where an imported name comes from: a page by its file, and the name there. A crate's folder `src` stands for the types that its code declares.
#[derive(Debug, PartialEq, Eq)]
pub struct Origin {
    pub page: String,
    pub name: String,
    /// The line of the import.
    pub line: usize,
}

/// What a page or a file of code imports of this repository.
#[derive(Debug, Default)]
pub struct Imports {
    pub names: BTreeMap<String, Origin>,
    /// Whole pages, under a name of their own.
    pub pages: BTreeMap<String, String>,
}

#[derive(Debug, Default)]
pub struct Page {
    /// The comment at its head, on one line.
    pub head: String,
    pub imports: Imports,
    pub definitions: Vec<Definition>,
    /// Where the definition of each name and of each constructor stands among them.
    places: HashMap<String, usize>,
}

impl Page {
    /// What a name or a constructor stands for here.
    pub fn find(&self, name: &str) -> Option<&Definition> {
        self.places.get(name).map(|place| &self.definitions[*place])
    }
}

impl Imports {
    /// Adds `use Rattle.mesh.specs.Mesh.{top, below as under}` or `use Rattle.mesh.specs.Mesh as mesh`. Those of a crate that is not here are the
    /// library's.
    pub fn add(&mut self, line: usize, text: &str) {
        let Some((_, import)) = text.trim_end_matches(';').split_once("use Rattle.") else { return };
        if let Some((path, names)) = import.split_once(".{") {
            let (page, declared) = page_of(path);
            for name in names.trim_end_matches('}').split(", ") {
                let (name, here) = name.split_once(" as ").unwrap_or((name, name));
                let name = declared.unwrap_or(name).to_string();
                self.names.insert(here.to_string(), Origin { page: page.clone(), name, line });
            }
        } else if let Some((path, here)) = import.split_once(" as ") {
            self.pages.insert(here.to_string(), page_of(path).0);
        }
    }
}

/// The page that a path of an import names, and the type, where it is one that the code declares: its variants stand for it.
fn page_of(path: &str) -> (String, Option<&str>) {
    let (package, rest) = path.split_once('.').unwrap_or((path, ""));
    match rest.strip_prefix("specs.declared.") {
        Some(declared) => {
            (format!("crates/{package}/src"), declared.trim_end_matches(".TheVariants").rsplit('.').next())
        }
        None => (format!("crates/{package}/{}.antt", rest.replace('.', "/")), None),
    }
}

/// The request that a definition belongs to: the first that its comment names, or else its section, or else the one that the head of its page
/// names. A page whose head names several belongs to none of them.
pub fn request(comment: &str, section: &str, head: &str) -> u32 {
    match [comment, section, head].map(requests) {
        [own, ..] if !own.is_empty() => own[0],
        [_, section, _] if !section.is_empty() => section[0],
        [.., head] if head.len() == 1 => head[0],
        _ => 0,
    }
}

/// The requests that a text names, as `(F-1)` or `(F-1, ..)`, in their order.
fn requests(text: &str) -> Vec<u32> {
    let number = |rest: &str| {
        let end = rest.find(|c: char| !c.is_ascii_digit())?;
        if rest[end..].starts_with([')', ',']) { rest[..end].parse().ok() } else { None }
    };
    text.split("(F-").skip(1).filter_map(number).collect()
}

/// Lines of a comment and others, all of one request.
pub fn lines(request: u32, comments: usize, others: usize) -> Vec<Line> {
    let line = |comment| Line { request, comment };
    [vec![line(true); comments], vec![line(false); others]].concat()
}

/// Reads a page.
pub fn read(text: &str) -> Page {
    let head = text.lines().take_while(|line| line.starts_with("--")).count();
    let mut reader = Reader { head: text.lines().take(head).collect(), ..Reader::default() };
    for (at, line) in text.lines().enumerate().skip(head) {
        reader.line(at + 1, line);
    }
    let mut page = reader.page;
    let line = |line: &str| line.trim_start_matches("--").trim().to_string();
    page.head = text.lines().take(head).map(line).collect::<Vec<_>>().join(" ");
    for (place, found) in page.definitions.iter().enumerate().rev() {
        let constructors = found.parts.iter().filter(|_| found.kind == Kind::Data);
        page.places.extend(constructors.chain([&found.name]).map(|name| (name.clone(), place)));
    }
    page
}

/// A page as far as it is read.
#[derive(Default)]
struct Reader {
    page: Page,
    /// The modules that are open: how far in they stand, and their parameters.
    modules: Vec<(usize, String)>,
    /// The comment directly above, and how many lines it has.
    comment: String,
    comment_lines: usize,
    /// The lines of modules in which nothing stands yet: they count with the first definition there.
    module_lines: usize,
    /// The last heading, and the comment at the head of the page.
    section: String,
    head: String,
    /// Whose the lines are that are read now.
    request: u32,
    inside: Inside,
}

/// What the next line may go on with.
#[derive(Default, PartialEq, Eq)]
enum Inside {
    #[default]
    Nothing,
    Heading,
    Module,
    Definition,
}

impl Reader {
    fn line(&mut self, number: usize, line: &str) {
        let content = line.trim();
        let indent = line.len() - line.trim_start().len();
        if content.is_empty() {
            self.take_comment();
            if self.inside == Inside::Heading {
                self.inside = Inside::Nothing;
            }
            return;
        }
        match self.inside {
            Inside::Module => return self.go_on_module(content),
            Inside::Definition if indent > self.level() => return self.go_on(indent, content),
            Inside::Heading if content.starts_with("--") => return self.section.push_str(content),
            _ => {}
        }
        self.modules.retain(|(module, _)| *module < indent);
        if content.starts_with("-- ----") {
            self.section = content.to_string();
            self.inside = Inside::Heading;
        } else if content.starts_with("--") {
            self.comment.push_str(content);
            self.comment_lines += 1;
            self.inside = Inside::Nothing;
        } else if content.starts_with("use ") {
            self.page.imports.add(number, content);
        } else if content.starts_with("module ") {
            self.module_lines += self.take_comment().1;
            self.modules.push((indent, String::new()));
            self.go_on_module(content);
        } else {
            if let Some(definition) = signature(content) {
                self.open(number, definition);
            }
            self.go_on(indent, content);
        }
    }

    /// How far in the definitions stand that are read now.
    fn level(&self) -> usize {
        self.modules.last().map_or(0, |(indent, _)| indent + 2)
    }

    fn take_comment(&mut self) -> (String, usize) {
        (std::mem::take(&mut self.comment), std::mem::take(&mut self.comment_lines))
    }

    /// A line of the head of a module.
    fn go_on_module(&mut self, content: &str) {
        if let Some((_, parameters)) = self.modules.last_mut() {
            push_line(parameters, content);
        }
        self.module_lines += 1;
        self.inside = if content.ends_with("where") { Inside::Nothing } else { Inside::Module };
    }

    /// A line of a definition.
    fn go_on(&mut self, indent: usize, content: &str) {
        let part = self.level() + 2;
        let Some(last) = self.page.definitions.last_mut() else { return };
        let comment = content.starts_with("--");
        if comment {
            // a comment within a definition says whose the lines below it are, up to the next one
            self.request = requests(content).first().copied().unwrap_or(last.request);
        }
        last.lines.push(Line { request: self.request, comment });
        push_line(&mut last.text, content);
        if indent == part && matches!(last.kind, Kind::Record | Kind::Data) {
            last.parts.extend(signature(content).map(|part| part.name));
        }
        self.inside = Inside::Definition;
    }

    fn open(&mut self, number: usize, mut definition: Definition) {
        let (comment, comment_lines) = self.take_comment();
        definition.line = number;
        definition.text = self.modules.iter().map(|(_, parameters)| parameters.as_str()).collect();
        definition.request = request(&comment, &self.section, &self.head);
        definition.lines = lines(definition.request, comment_lines, std::mem::take(&mut self.module_lines));
        self.request = definition.request;
        self.page.definitions.push(definition);
    }
}

/// Adds a line without its comment.
fn push_line(text: &mut String, content: &str) {
    let end = if content.starts_with("--") { 0 } else { content.find(" -- ").unwrap_or(content.len()) };
    text.push_str(&content[..end]);
    text.push('\n');
}

/// What a line declares, if it is a signature.
fn signature(content: &str) -> Option<Definition> {
    let mut words = content.split(' ').peekable();
    let mut leads = Vec::new();
    while let Some(lead) = words.next_if(|word| ["unfoldable", "abbrev", "pub", "record", "data"].contains(word)) {
        leads.push(lead);
    }
    let name = words.next()?.to_string();
    let kind = match leads.last() {
        Some(&"record") => Kind::Record,
        Some(&"data") => Kind::Data,
        _ if words.next() != Some(":") => return None,
        _ if leads.contains(&"unfoldable") || leads.contains(&"abbrev") => Kind::Value,
        _ => Kind::Law,
    };
    let public = leads.contains(&"pub");
    Some(Definition {
        name,
        kind,
        public,
        line: 0,
        lines: Vec::new(),
        parts: Vec::new(),
        text: String::new(),
        request: 0,
    })
}

#[cfg(test)]
mod tests {
    use super::{Kind, Origin, read, requests};

    const PAGE: &str = "\
-- Words (F-3). Assumes nothing.
--
-- \"A word is two bytes.\"
use Rattle.std.specs.Prelude.{length}
use Rattle.mesh.specs.Mesh.{top, below as under}
use Rattle.mesh.specs.declared.inner.Wanted.TheVariants.{Imports}
use Rattle.messages.specs.Messages as paper

-- not the comment of it

-- a pair
-- of two words
pub record Pair (m : Bytes) : Type 0 where
  -- the first of them
  pub left : Word m

  pub right : Word m

-- ---- sizes (F-1)
-- go on
module _ (m : Bytes)
    (S : Split) where
  -- how long (F-2); (F-1)
  unfoldable pub long : Bytes → ℕ
  long [] = 0
  long (x ∷ xs) = -- no-name
    suc (long xs)

  law : long m ≡ 0
  law = refl

pub data Side : Type 0 where
  near : ℕ → Side
  far : Side

-- ---- others
abbrev pub x : ℕ
x = 0
";

    #[test]
    fn names_kinds_and_parts() {
        assert_eq!(read(PAGE).head, "Words (F-3). Assumes nothing.  \"A word is two bytes.\"");
        let found = read(PAGE).definitions;
        let names: Vec<_> = found.iter().map(|d| (d.name.as_str(), d.kind, d.public, d.line)).collect();
        assert_eq!(
            names,
            [
                ("Pair", Kind::Record, true, 13),
                ("long", Kind::Value, true, 24),
                ("law", Kind::Law, false, 29),
                ("Side", Kind::Data, true, 32),
                ("x", Kind::Value, true, 37),
            ]
        );
        assert_eq!(found[0].parts, ["left", "right"]);
        assert_eq!(found[3].parts, ["near", "far"]);
        let at = |name| read(PAGE).find(name).map(|found| found.line);
        assert_eq!([at("Side"), at("far"), at("law"), at("left")], [Some(32), Some(32), Some(29), None]);
    }

    #[test]
    fn lines_are_counted_with_comments_and_modules_and_without_blanks_and_headings() {
        let lines: Vec<_> = read(PAGE).definitions.iter().map(|d| d.lines.len()).collect();
        assert_eq!(lines, [6, 7, 2, 3, 2]);
        let comments = read(PAGE).definitions[0].lines.iter().filter(|line| line.comment).count();
        assert_eq!(comments, 3);
    }

    #[test]
    fn texts_have_the_parameters_and_no_comments() {
        let found = read(PAGE).definitions;
        assert!(found[1].text.contains("(S : Split)") && found[2].text.contains("(S : Split)"));
        assert!(!found[1].text.contains("no-name") && !found[3].text.contains("Split"));
    }

    #[test]
    fn the_comment_wins_over_the_section_and_that_over_the_page() {
        let found: Vec<_> = read(PAGE).definitions.iter().map(|d| d.request).collect();
        assert_eq!(found, [3, 2, 1, 1, 3]);
        assert_eq!(read("-- points (F-1) and gaps (F-2)\n\nx : ℕ\nx = 0\n").definitions[0].request, 0);
        assert_eq!(requests("(F-12) F-3 (F-4, for 01) (F-5 x) (F-"), [12, 4]);
    }

    #[test]
    fn imports_name_their_pages() {
        let imports = read(PAGE).imports;
        let origin =
            |page: &str, name: &str, line| Some(Origin { page: page.to_string(), name: name.to_string(), line });
        assert_eq!(imports.names.get("top"), origin("crates/mesh/specs/Mesh.antt", "top", 5).as_ref());
        assert_eq!(imports.names.get("under"), origin("crates/mesh/specs/Mesh.antt", "below", 5).as_ref());
        assert_eq!(imports.names.get("Imports"), origin("crates/mesh/src", "Wanted", 6).as_ref());
        assert_eq!(imports.pages.get("paper").map(String::as_str), Some("crates/messages/specs/Messages.antt"));
        assert_eq!(imports.names.get("length"), origin("crates/std/specs/Prelude.antt", "length", 4).as_ref());
    }
}
