//! What holds of every text: how long its lines are.

use crate::repository::{Repository, Slip};

/// The longest line, in characters.
const LONGEST: usize = 200;

/// How the two longer lines begin: the text of the list program as one string, which cannot be broken, and a proof of the table that
/// holds it, of which `rt fmt` would make a tower of 70 lines.
const UNBROKEN: [&str; 2] = ["    ∷ listing list_input \"parts 2", "worked = (refl, (refl"];

pub fn check(repository: &Repository) -> Vec<Slip> {
    let mut slips = Vec::new();
    for (file, text) in repository.texts.iter().filter(|(file, _)| !may_be_long(file)) {
        for (at, line) in text.lines().enumerate() {
            let length = line.chars().count();
            if length > LONGEST && !UNBROKEN.iter().any(|start| line.starts_with(start)) {
                slips.push(Slip::new(file, at + 1, format!("a line of {length} characters")));
            }
        }
    }
    slips
}

/// What programs print, and two lists that programs read.
fn may_be_long(file: &str) -> bool {
    let name = file.rsplit('/').next().unwrap_or(file);
    ["stdout", "Cargo.lock"].contains(&name) || file == "crates.txt"
}

#[cfg(test)]
mod tests {
    use super::check;
    use crate::repository::Repository;

    #[test]
    fn long_lines_are_told() {
        let mut repository = Repository::default();
        let line = "é".repeat(200);
        for file in ["README.md", "crates/list/stdout", "crates/mesh/specs/Mesh.antt", "model/Cargo.lock", "crates.txt"]
        {
            repository.add(file, format!("{line}\n{line}é\n").into());
        }
        repository.add("mesh.bin", vec![0; 300]);
        let told: Vec<_> = check(&repository).iter().map(|slip| slip.to_string()).collect();
        assert_eq!(
            told,
            ["README.md:2: a line of 201 characters", "crates/mesh/specs/Mesh.antt:2: a line of 201 characters"]
        );
    }
}
