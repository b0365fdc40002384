//! Laws that nothing names: neither a definition or another law, nor a proof, nor a document.

use std::collections::BTreeSet;

use crate::pages::Kind;
use crate::repository::{Place, Repository, Slip};

/// The public laws of the pages directly in specs/ and proofs/ that nothing names. On a page of definitions or laws a name counts for what it
/// stands for there, and an import alone does not name a law; elsewhere the word counts.
pub fn check(repository: &Repository) -> Vec<Slip> {
    let named = named(repository);
    let written = written(repository);
    let mut slips = Vec::new();
    for (file, page) in repository.pages.iter().filter(|(file, _)| file.split('/').count() == 4) {
        for law in page.definitions.iter().filter(|found| found.public && found.kind == Kind::Law) {
            let place = Place { page: file.clone(), name: law.name.clone() };
            if !named.contains(&place) && !written.contains(law.name.as_str()) {
                slips.push(Slip::new(file, law.line, format!("nothing names the law {}", law.name)));
            }
        }
    }
    slips
}

/// What the pages name, each definition but itself.
fn named(repository: &Repository) -> BTreeSet<Place> {
    let mut named = BTreeSet::new();
    for (file, page) in &repository.pages {
        for definition in &page.definitions {
            let own = Place { page: file.clone(), name: definition.name.clone() };
            named.extend(
                repository.named(file, &page.imports, &definition.text).into_iter().filter(|place| *place != own),
            );
        }
    }
    named
}

/// The words of the documents.
fn written(repository: &Repository) -> BTreeSet<&str> {
    let documents = repository.texts.iter().filter(|(file, _)| file.ends_with(".md"));
    let word = |c: char| c.is_whitespace() || "`,;:()|".contains(c);
    documents.flat_map(|(_, text)| text.split(word)).collect()
}

#[cfg(test)]
mod tests {
    use super::check;
    use crate::repository::Repository;

    const LAWS: &str = "\
pub used : ⊤
used = tt

pub cited : ⊤
cited = used

pub again : ⊤
again = again

pub imported : ⊤
imported = tt

own : ⊤
own = tt

unfoldable pub value : ℕ
value = 0
";

    /// Its law `again` is not that of the other page.
    const OTHERS: &str = "\
use Rattle.mesh.proofs.Laws.{imported}

pub again : ⊤
again = tt

other : ⊤
other = again
";

    #[test]
    fn a_law_is_named_by_others_or_by_a_document() {
        let mut repository = Repository::default();
        repository.add("crates/mesh/proofs/Laws.antt", LAWS.into());
        repository.add("crates/walk/proofs/Laws.antt", OTHERS.into());
        repository.add("crates/walk/proofs/f/Proof.antt", "pub f-spec : ⊤\nf-spec = tt\n".into());
        repository.add("docs/TRACE.md", "law `mesh/Laws: cited`".into());
        let told: Vec<_> = check(&repository).iter().map(|slip| slip.to_string()).collect();
        assert_eq!(
            told,
            [
                "crates/mesh/proofs/Laws.antt:7: nothing names the law again",
                "crates/mesh/proofs/Laws.antt:10: nothing names the law imported",
            ]
        );
    }
}
