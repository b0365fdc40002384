//! The whole repository: its texts, the pages and the code.

use std::collections::{BTreeMap, BTreeSet};
use std::fmt;
use std::path::Path;
use std::{fs, io};

use crate::code::{self, Code};
use crate::pages::{self, Definition, Imports, Page};
use crate::requests;
use crate::words::{Word, words};

/// Something that is wrong, and where.
#[derive(Debug, PartialEq, Eq, PartialOrd, Ord, Clone)]
pub struct Slip {
    pub file: String,
    pub line: usize,
    pub what: String,
}

impl Slip {
    pub fn new(file: &str, line: usize, what: String) -> Slip {
        Slip { file: file.to_string(), line, what }
    }
}

impl fmt::Display for Slip {
    fn fmt(&self, f: &mut fmt::Formatter) -> fmt::Result {
        write!(f, "{}:{}: {}", self.file, self.line, self.what)
    }
}

/// A definition by its page and its name. The page is the path of its file, or a crate's folder `src` for a type that the code declares.
#[derive(Debug, PartialEq, Eq, PartialOrd, Ord, Clone)]
pub struct Place {
    pub page: String,
    pub name: String,
}

#[derive(Default)]
pub struct Repository {
    /// Every file and folder, by its path from the root.
    pub paths: BTreeSet<String>,
    /// Every file that is text.
    pub texts: BTreeMap<String, String>,
    pub pages: BTreeMap<String, Page>,
    pub code: BTreeMap<String, Code>,
}

impl Repository {
    /// Reads all but what is built.
    pub fn read(root: &Path) -> io::Result<Repository> {
        let mut repository = Repository::default();
        repository.enter(root, "")?;
        Ok(repository)
    }

    fn enter(&mut self, root: &Path, folder: &str) -> io::Result<()> {
        for entry in fs::read_dir(root.join(folder))? {
            let entry = entry?;
            let name = entry.file_name().to_string_lossy().to_string();
            let path = if folder.is_empty() { name.clone() } else { format!("{folder}/{name}") };
            if !entry.file_type()?.is_dir() {
                self.add(&path, fs::read(entry.path())?);
            } else if !["target", ".git", "out"].contains(&name.as_str()) {
                self.enter(root, &path)?;
            }
        }
        Ok(())
    }

    /// Adds a file. One with a zero byte, or with what is not UTF-8, is no text.
    pub fn add(&mut self, path: &str, bytes: Vec<u8>) {
        self.paths.extend(path.match_indices('/').map(|(end, _)| path[..end].to_string()));
        self.paths.insert(path.to_string());
        let Some(text) = String::from_utf8(bytes).ok().filter(|text| !text.contains('\0')) else { return };
        if path.starts_with("crates/") && path.ends_with(".antt") {
            let mut page = pages::read(&text);
            requests::correct(path, &mut page.definitions);
            self.pages.insert(path.to_string(), page);
        } else if path.starts_with("crates/") && path.ends_with(".rt") {
            self.code.insert(path.to_string(), code::read(&text));
        }
        self.texts.insert(path.to_string(), text);
    }

    pub fn has_crate(&self, package: &str) -> bool {
        self.paths.contains(&format!("crates/{package}"))
    }

    /// Definitions whose request is listed and that are not there.
    pub fn unknown_listed(&self) -> Vec<Slip> {
        let missing = requests::listed().filter(|(page, name)| self.find(page, name).is_none());
        missing
            .map(|(page, name)| Slip::new(page, 0, format!("the request of {name} is listed, and it is not there")))
            .collect()
    }

    /// Whether a page that an import names is in specs/ of a crate that is here, or is its code.
    fn is_of_here(&self, page: &str) -> bool {
        let mut parts = page.split('/').skip(1);
        let is_here = parts.next().is_some_and(|package| self.has_crate(package));
        is_here && parts.next().is_some_and(|folder| folder != "proofs")
    }

    /// The files of a crate's code.
    pub fn code_of(&self, package: &str) -> impl Iterator<Item = (&String, &Code)> {
        let folder = format!("crates/{package}/src/");
        self.code.range(folder.clone()..).take_while(move |(file, _)| file.starts_with(&folder))
    }

    /// What a name or a constructor stands for on a page.
    pub fn find(&self, page: &str, name: &str) -> Option<(&Definition, Place)> {
        let found = match page.strip_prefix("crates/").and_then(|page| page.strip_suffix("/src")) {
            Some(package) => self.code_of(package).flat_map(|(_, code)| &code.types).find(|found| found.name == name),
            None => self.pages.get(page)?.find(name),
        }?;
        Some((found, Place { page: page.to_string(), name: found.name.clone() }))
    }

    /// What the names of a text on a page stand for. A name of the library, or a bound one, stands for nothing here.
    pub fn named(&self, page: &str, imports: &Imports, text: &str) -> BTreeSet<Place> {
        let origin = |word: Word| match word {
            Word::Plain(name) => {
                let origin = imports.names.get(name);
                origin.map_or_else(|| self.find(page, name), |origin| self.find(&origin.page, &origin.name))
            }
            Word::Of(alias, name) => self.find(imports.pages.get(alias)?, name),
            Word::Field(_) | Word::Mark(_) => None,
        };
        // `S.owner` is a field of S, where S is no page
        let whole = |word| match word {
            Word::Of(alias, _) if !imports.pages.contains_key(alias) => Word::Plain(alias),
            word => word,
        };
        words(text).into_iter().map(whole).filter_map(origin).map(|(_, place)| place).collect()
    }

    /// Imports of definitions or types of this repository's crates that are not found. The checker would refuse them, so it is this program that
    /// does not see them, and what it tells of the believed text would be too little. Pages in proofs/ may be generated.
    pub fn unknown_imports(&self) -> Vec<Slip> {
        let pages = self.pages.iter().map(|(file, page)| (file, &page.imports));
        let mut slips = Vec::new();
        for (file, imports) in pages.chain(self.code.iter().map(|(file, code)| (file, &code.imports))) {
            for origin in imports.names.values().filter(|origin| self.is_of_here(&origin.page)) {
                if self.find(&origin.page, &origin.name).is_none() {
                    slips.push(Slip::new(file, origin.line, format!("no {} is found in {}", origin.name, origin.page)));
                }
            }
        }
        slips
    }
}
