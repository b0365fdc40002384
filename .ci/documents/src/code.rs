//! The code (`*.rt`): functions with their contracts, and the types that it declares.

use std::collections::BTreeSet;

use crate::pages::{Definition, Imports, Kind, lines as lines_of, request};

#[derive(Debug)]
pub struct Function {
    pub name: String,
    pub line: usize,
    /// From the name to the body: the types of its parameters and of its answer, and its contract.
    pub text: String,
}

/// A file of code.
#[derive(Debug, Default)]
pub struct Code {
    pub imports: Imports,
    pub functions: Vec<Function>,
    pub types: Vec<Definition>,
    /// All names that it declares.
    pub names: BTreeSet<String>,
}

/// Reads a file of code.
pub fn read(text: &str) -> Code {
    let lines: Vec<&str> = text.lines().collect();
    let mut code = Code::default();
    for (at, line) in lines.iter().enumerate() {
        let mut words = line.split_whitespace().skip_while(|word| ["pub", "extern", "\"C\""].contains(word));
        let (Some(kind), Some(name)) = (words.next(), words.next().map(first_name)) else { continue };
        match kind {
            "ghost" => code.imports.add(at + 1, line),
            "enum" | "struct" => code.types.push(declared(&lines, at, &name)),
            "fn" => code.functions.push(function(&lines, at, &name)),
            _ => {}
        }
        if ["enum", "struct", "fn", "const", "mod"].contains(&kind) {
            code.names.insert(name);
        }
    }
    code
}

/// A type, with the comment above it.
fn declared(lines: &[&str], at: usize, name: &str) -> Definition {
    // what it derives stands between it and the comment
    let derives = lines[..at].iter().rev().take_while(|line| line.starts_with("#[")).count();
    let at = at - derives;
    let above = lines[..at].iter().rev().take_while(|line| line.starts_with("//")).count();
    let body = 1 + lines[at + derives..].iter().take_while(|line| !line.ends_with(';') && **line != "}").count();
    let request = request(&lines[at - above..at].join("\n"), "", lines[0]);
    Definition {
        name: name.to_string(),
        kind: Kind::Data,
        public: true,
        line: at + derives + 1,
        lines: lines_of(request, above, body),
        parts: Vec::new(),
        text: names_alone(&lines[at + derives..at + derives + body].join("\n")),
        request,
    }
}

/// A function, up to the brace in front of its body.
fn function(lines: &[&str], at: usize, name: &str) -> Function {
    let indent = lines[at].len() - lines[at].trim_start().len();
    let header = |line: &&&str| line.get(indent..) != Some("{");
    let contract = |line: &&&str| !["requires", "ensures"].iter().any(|clause| line.trim_start().starts_with(clause));
    // without a contract the brace of the body stands on the last line of the types
    let types: Vec<&str> = lines[at..].iter().take_while(header).take_while(contract).copied().collect();
    let bare = types.iter().position(|line| line.ends_with('{'));
    let types = &types[..bare.map_or(types.len(), |at| at + 1)];
    let promised: Vec<&str> = match bare {
        Some(_) => Vec::new(),
        None => lines[at..].iter().take_while(header).skip(types.len()).copied().collect(),
    };
    Function {
        name: name.to_string(),
        line: at + 1,
        text: format!("{}\n{}", names_alone(&types.join("\n")), promised.join("\n")),
    }
}

fn first_name(text: &str) -> String {
    text.split(|c: char| !is_name(c)).next().unwrap_or("").to_string()
}

fn is_name(c: char) -> bool {
    c.is_alphanumeric() || c == '_'
}

/// A text of Rust with nothing but names.
fn names_alone(text: &str) -> String {
    text.split(|c: char| !is_name(c)).collect::<Vec<_>>().join(" ")
}

#[cfg(test)]
mod tests {
    use super::read;

    const CODE: &str = "\
use layout::word_at;
ghost use Rattle.messages.specs.Messages.{bad15, reading};

pub const SIZE: usize = 8;

// The words of a message
// (F-8).
pub struct Header {
    pub from: usize,
}

// A cell.
#[derive(Clone, Copy)]
pub struct Local(pub usize);

pub enum Reading {
    Message(Header),
}

// Reads.
pub extern \"C\" fn read(
    b: &[u8],
) -> Reading
    requires { 1 ≤ length b.old }
    ensures { result ≡ reading b.old }
{
    other(b)
}

impl Header {
    pub fn size(self) -> usize
        ensures { result ≡ 8 }
    {
        8
    }
}

fn bare() {
    inner()
}
";

    #[test]
    fn functions_have_their_types_and_contracts_and_no_bodies() {
        let code = read(CODE);
        assert_eq!(
            code.functions.iter().map(|f| (f.name.as_str(), f.line)).collect::<Vec<_>>(),
            [("read", 21), ("size", 31), ("bare", 38)]
        );
        assert!(code.functions[0].text.contains(" Reading") && code.functions[0].text.contains("reading b.old"));
        assert!(!code.functions[0].text.contains("other") && !code.functions[2].text.contains("inner"));
        assert!(code.imports.names.contains_key("reading"));
        assert_eq!(
            code.names.iter().collect::<Vec<_>>(),
            ["Header", "Local", "Reading", "SIZE", "bare", "read", "size"]
        );
    }

    #[test]
    fn types_have_their_lines() {
        let types = |code| read(code).types.into_iter().map(|t| (t.name, t.lines.len(), t.request)).collect::<Vec<_>>();
        assert_eq!(
            types(CODE),
            [("Header".to_string(), 5, 8), ("Local".to_string(), 2, 0), ("Reading".to_string(), 3, 0)]
        );
        assert_eq!(types("// Places (F-3).\n\npub struct Found;\n"), [("Found".to_string(), 1, 3)]);
    }
}
