//! Holds the documents to the definitions. Run it from the root of the repository.
//!
//! - `documents believed` prints the believed text as docs/READING.md has it.
//! - `documents laws` prints the laws that nothing names.
//! - `documents check` prints each thing that is wrong as `file:line: what`, and ends with status 1 if there is any.

mod believed;
mod cited;
mod code;
mod laws;
mod markdown;
mod pages;
mod reading;
mod repository;
mod requests;
mod texts;
mod words;

use std::path::Path;
use std::process::ExitCode;

use believed::Believed;
use repository::Repository;

fn main() -> ExitCode {
    let command = std::env::args().nth(1);
    let repository = match Repository::read(Path::new(".")) {
        Ok(repository) => repository,
        Err(error) => {
            eprintln!("documents: {error}");
            return ExitCode::FAILURE;
        }
    };
    let believed = Believed::of(&repository);
    match command.as_deref() {
        Some("believed") => {
            print!("{}", reading::block(&repository, &believed));
            ExitCode::SUCCESS
        }
        Some("laws") => {
            for law in laws::check(&repository) {
                println!("{law}");
            }
            ExitCode::SUCCESS
        }
        Some("check") => {
            let mut slips = repository.unknown_imports();
            slips.extend(repository.unknown_listed());
            slips.extend(believed.slips.iter().cloned());
            slips.extend(believed.misplaced());
            slips.extend(believed.listed());
            slips.extend(reading::check(&repository, &believed));
            slips.extend(cited::check(&repository));
            slips.extend(texts::check(&repository));
            slips.sort();
            for slip in &slips {
                println!("{slip}");
            }
            if slips.is_empty() { ExitCode::SUCCESS } else { ExitCode::FAILURE }
        }
        _ => {
            eprintln!("documents believed | laws | check");
            ExitCode::FAILURE
        }
    }
}
