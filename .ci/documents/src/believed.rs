//! The believed text: the definitions that the contracts of the public calls and the statements of the theorems rest on.

use std::collections::BTreeSet;

use crate::pages::{Definition, Imports, Page};
use crate::repository::{Place, Repository, Slip};

/// The public calls, by crate; `*` stands for every function of the crate. They are those of the last table of docs/TRACE.md. The calls that
/// the C library has under other names are not listed: their contracts there rest on the same definitions.
const CALLS: [(&str, &str); 6] = [
    ("jemlayos", "*"),
    ("part_state", "is_state"),
    ("messages", "read"),
    ("c_answer", "pack"),
    ("place_search", "find"),
    ("list_input", "list_text"),
];

/// The statements of the theorems, by crate.
const STATEMENTS: [(&str, &str); 10] = [
    ("split_copies", "CopyTheorem"),
    ("run_theorem", "RunTheorem"),
    ("run_theorem", "StatesKept"),
    ("run_theorem", "StateBound"),
    ("run_theorem", "MessageTheorem"),
    ("run_theorem", "PointNumbers"),
    ("run_theorem", "FieldEquality"),
    ("place_search", "PlaceTheorem"),
    ("import_places", "ImportTheorem"),
    ("round_rule", "Floored"),
];

/// What the head of a page says on which no believed definition stands: it has the words in which inner contracts speak of the code.
const INNER: &str = "o public contract rests on this page";

/// Pages of specs/ that nobody has to believe: the lists of a crate's pages, those whose head says so, and the examples.
fn is_beside(page: &str, read: &Page) -> bool {
    page.ends_with("/Lib.antt")
        || read.head.contains(INNER)
        || ["worked_examples/specs/Table", "changed_examples/specs/Table", "example_inputs/specs/Inputs"]
            .iter()
            .any(|examples| page == format!("crates/{examples}.antt"))
}

/// Definitions that only contracts within the engine and proofs rest on, and that stand on pages of the believed text.
const INNER_DEFINITIONS: [(&str, &[&str]); 10] = [
    ("depths/specs/Depths", &["Within", "Valid"]),
    ("layout/specs/Answers", &["answer_of", "refused_as"]),
    ("layout/specs/Limits", &["element_places", "record_places", "table_bytes"]),
    ("list_input/specs/Pieces", &["pieces_number", "pieces_text"]),
    ("list_text/specs/Printing", &["Put", "numbers"]),
    ("messages/specs/Readings", &["IsHeader"]),
    ("part_state/specs/State", &["is_state_at"]),
    ("round_rule/specs/Kinds", &["kind_number", "rule_of"]),
    ("split/specs/Lists", &["sizes_number"]),
    ("vocabulary/specs/Lists", &["Zeros"]),
];

/// How a document names a page.
pub fn label(page: &str) -> String {
    page.trim_start_matches("crates/").trim_end_matches(".antt").replace("/specs/", "/").replace("/proofs/", "/")
}

/// Whether a definition is one of those that are listed as inner.
fn is_inner(place: &Place) -> bool {
    INNER_DEFINITIONS
        .iter()
        .any(|(page, names)| place.page == format!("crates/{page}.antt") && names.contains(&place.name.as_str()))
}

pub struct Believed<'a> {
    repository: &'a Repository,
    found: BTreeSet<Place>,
    /// A call or a statement that is not there.
    pub slips: Vec<Slip>,
}

impl<'a> Believed<'a> {
    pub fn of(repository: &'a Repository) -> Believed<'a> {
        Believed::from(repository, &CALLS, &STATEMENTS)
    }

    fn from(repository: &'a Repository, calls: &[(&str, &str)], statements: &[(&str, &str)]) -> Believed<'a> {
        let mut believed = Believed { repository, found: BTreeSet::new(), slips: Vec::new() };
        for (package, name) in calls {
            believed.call(package, name);
        }
        for (package, name) in statements {
            let specs = format!("crates/{package}/specs/");
            let proofs = format!("crates/{package}/proofs/");
            let states = |folder: &str| {
                repository.pages.keys().find(|page| page.starts_with(folder) && repository.find(page, name).is_some())
            };
            match states(&specs).or_else(|| states(&proofs)).and_then(|page| repository.find(page, name)) {
                Some((_, place)) => believed.add(place),
                None => believed.slips.push(Slip::new(&specs, 0, format!("no statement {name}"))),
            }
        }
        believed
    }

    /// Adds what the contract of a call rests on.
    fn call(&mut self, package: &str, name: &str) {
        let page = format!("crates/{package}/src");
        let mut met = false;
        for (file, code) in self.repository.code_of(package) {
            for function in code.functions.iter().filter(|function| name == "*" || function.name == name) {
                met = true;
                if function.text.contains("requires {") {
                    let what = format!("{} is a public call and has a `requires`", function.name);
                    self.slips.push(Slip::new(file, function.line, what));
                }
                for place in self.repository.named(&page, &code.imports, &function.text) {
                    self.add(place);
                }
            }
        }
        if !met {
            self.slips.push(Slip::new(&page, 0, format!("no public call {name}")));
        }
    }

    /// Adds a definition, and what it rests on.
    fn add(&mut self, place: Place) {
        let Some((definition, _)) = self.repository.find(&place.page, &place.name) else { return };
        let none = Imports::default();
        let imports = self.repository.pages.get(&place.page).map_or(&none, |page| &page.imports);
        let named = self.repository.named(&place.page, imports, &definition.text);
        if self.found.insert(place) {
            for place in named {
                self.add(place);
            }
        }
    }

    /// What is listed as inner and is not there, or is believed.
    pub fn listed(&self) -> Vec<Slip> {
        let mut slips = Vec::new();
        for (page, names) in INNER_DEFINITIONS {
            let page = format!("crates/{page}.antt");
            for name in names {
                match self.repository.find(&page, name) {
                    Some((_, place)) if !self.found.contains(&place) => {}
                    _ => slips.push(Slip::new(
                        &page,
                        0,
                        format!("{name} is listed as inner, and is not there or is believed"),
                    )),
                }
            }
        }
        slips
    }

    /// The pages that have believed definitions.
    pub fn pages(&self) -> BTreeSet<&str> {
        self.found.iter().map(|place| place.page.as_str()).collect()
    }

    /// The believed definitions of a page, in the order in which they stand there.
    pub fn on(&self, page: &str) -> Vec<&'a Definition> {
        let find = |place: &Place| self.repository.find(&place.page, &place.name).map(|(definition, _)| definition);
        let mut found: Vec<_> = self.found.iter().filter(|place| place.page == page).filter_map(find).collect();
        found.sort_by_key(|definition| definition.line);
        found
    }

    /// What stands in specs/ and is neither believed nor listed above, and what is believed and stands elsewhere; a statement itself may.
    pub fn misplaced(&self) -> Vec<Slip> {
        let mut slips = Vec::new();
        for (page, read) in
            self.repository.pages.iter().filter(|(page, read)| page.contains("/specs/") && !is_beside(page, read))
        {
            for definition in &read.definitions {
                let place = Place { page: page.clone(), name: definition.name.clone() };
                if !self.found.contains(&place) && !is_inner(&place) {
                    let what = format!("{} is in specs/, and no public statement rests on it", definition.name);
                    slips.push(Slip::new(page, definition.line, what));
                }
            }
        }
        let is_elsewhere = |page: &&str| {
            page.contains("/proofs/") || self.repository.pages.get(*page).is_some_and(|read| is_beside(page, read))
        };
        for page in self.pages().into_iter().filter(is_elsewhere) {
            for definition in self.on(page) {
                if !STATEMENTS.iter().any(|(package, name)| {
                    *name == definition.name && page.starts_with(&format!("crates/{package}/proofs/"))
                }) {
                    let what = format!("a public statement rests on {}, here", definition.name);
                    slips.push(Slip::new(page, definition.line, what));
                }
            }
        }
        slips
    }
}

#[cfg(test)]
mod tests {
    use super::Believed;
    use crate::repository::Repository;

    const CALL: &str = "\
ghost use Rattle.mesh.specs.Mesh.{answer};

pub fn call(b: &[u8]) -> Told
    ensures { result ≡ answer b.now }
{
    0
}

pub enum Told {
    Yes(Inner),
}

struct Inner(u8);
";

    const MESH: &str = "\
-- head
use Rattle.words.specs.Words.{word}
use Rattle.words.specs.declared.Kind.TheVariants.{Mean}

module _ (m : Sized) where
  unfoldable pub answer : ℕ
  answer = word m + kind.unused

record Sized : Type 0 where
  pub size : ℕ

unfoldable pub unused : ℕ
unused = answer

unfoldable pub kind : ℕ
kind = Mean
";

    fn repository() -> Repository {
        let mut repository = Repository::default();
        repository.add("crates/call/src/lib.rt", CALL.into());
        repository.add("crates/mesh/specs/Mesh.antt", MESH.into());
        let words = "unfoldable pub word : ℕ\nword = 0\n\npub word-law : word ≡ 0\nword-law = refl\n";
        repository.add("crates/words/specs/Words.antt", words.into());
        repository.add(
            "crates/words/specs/Code.antt",
            "-- No public contract rests\n-- on this page.\n\nunfoldable pub mirror : ℕ\nmirror = 0\n".into(),
        );
        repository.add("crates/words/src/lib.rt", "// Kinds.\npub enum Kind {\n    Mean,\n}\n".into());
        repository
    }

    fn names(believed: &Believed) -> Vec<String> {
        believed.found.iter().map(|place| format!("{} {}", super::label(&place.page), place.name)).collect()
    }

    #[test]
    fn a_contract_rests_on_what_its_names_stand_for() {
        let repository = repository();
        let believed = Believed::from(&repository, &[("call", "call")], &[]);
        assert_eq!(
            names(&believed),
            [
                "call/src Inner",
                "call/src Told",
                "mesh/Mesh Sized",
                "mesh/Mesh answer",
                "mesh/Mesh kind",
                "words/Words word",
                "words/src Kind"
            ]
        );
        assert_eq!(believed.slips, []);
    }

    #[test]
    fn what_is_not_believed_is_told() {
        let repository = repository();
        let told: Vec<_> =
            Believed::from(&repository, &[("call", "*")], &[]).misplaced().iter().map(|s| s.to_string()).collect();
        assert_eq!(
            told,
            [
                "crates/mesh/specs/Mesh.antt:12: unused is in specs/, and no public statement rests on it",
                "crates/words/specs/Words.antt:4: word-law is in specs/, and no public statement rests on it",
            ]
        );
        let told = Believed::from(&repository, &[], &[("words", "mirror")]).misplaced();
        assert!(
            told.iter()
                .any(|slip| slip.to_string()
                    == "crates/words/specs/Code.antt:4: a public statement rests on mirror, here")
        );
    }

    #[test]
    fn an_import_that_is_not_found_is_told() {
        let mut repository = repository();
        assert_eq!(repository.unknown_imports(), []);
        repository.add("crates/words/specs/Words.antt", "unfoldable pub other : ℕ\nother = 0\n".into());
        let told: Vec<_> = repository.unknown_imports().iter().map(|slip| slip.to_string()).collect();
        assert_eq!(told, ["crates/mesh/specs/Mesh.antt:2: no word is found in crates/words/specs/Words.antt"]);
    }

    #[test]
    fn a_call_or_statement_that_is_not_there_is_told() {
        let repository = repository();
        let slips = Believed::from(&repository, &[("call", "cal")], &[("mesh", "Theorem")]).slips;
        assert_eq!(slips.len(), 2);
    }
}
