//! What the C header and the definitions of the proved crates say, read off their texts.
use std::collections::BTreeMap;
use std::path::{Path, PathBuf};

/// The texts that the tables are compared with.
pub struct Texts {
    pub header: String,
    /// The clauses of the definitions of all proved crates by name: what stands before and after
    /// `=`.
    clauses: BTreeMap<String, Vec<(String, String)>>,
}

impl Texts {
    pub fn read() -> Texts {
        let repository = Path::new(env!("CARGO_MANIFEST_DIR")).join("../..");
        let mut clauses: BTreeMap<String, Vec<(String, String)>> = BTreeMap::new();
        for folder in paths_in(&repository.join("crates")) {
            let files = paths_in(&folder.join("specs")).into_iter();
            for file in files.filter(|path| path.extension().is_some_and(|e| e == "antt")) {
                for (name, clause) in clauses_of(&text(&file)) {
                    clauses.entry(name).or_default().push(clause);
                }
            }
        }
        Texts {
            header: ["butrask.h", "butrask_probe.h"]
                .map(|name| text(&repository.join("host/include").join(name)))
                .concat(),
            clauses,
        }
    }

    /// The constants of the header that begin with `BUTRASK_`, each with the comment after it.
    pub fn constants(&self) -> Vec<Constant> {
        let mut constants = vec![];
        for block in self.header.split("enum {").skip(1) {
            let block = block.split_once("};").expect("an enum ends").0;
            for item in block.split("BUTRASK_").skip(1) {
                let (name, rest) = item.split_once('=').expect("a constant has a number");
                let digits = |c: char| !c.is_ascii_digit();
                let number = rest.trim_start().split(digits).next().unwrap_or_default();
                let comment = rest.split_once("/*").and_then(|(_, c)| c.split_once("*/"));
                constants.push(Constant {
                    name: name.trim().to_string(),
                    number: number.parse().expect("a number"),
                    comment: filled(comment.map_or("", |(comment, _)| comment)),
                });
            }
        }
        constants
    }

    /// The names of a C function's parameters. None where there is no such function.
    pub fn parameters(&self, function: &str) -> Option<Vec<String>> {
        let (_, rest) = self.header.split_once(&format!("uint64_t {function}("))?;
        let (list, _) = rest.split_once(')')?;
        let name = |parameter: &str| {
            let from = parameter.rfind([' ', '*', '\n'])? + 1;
            Some(parameter[from..].to_string())
        };
        list.split(',').map(name).collect()
    }

    /// What a definition is. None where no crate has it, or it goes by cases.
    pub fn definition(&self, name: &str) -> Option<&str> {
        match &self.clauses.get(name)?[..] {
            [(_, body)] => Some(body),
            _ => None,
        }
    }

    /// The number that a text is, or that is defined by this name.
    pub fn number(&self, text: &str) -> Option<u64> {
        let defined = || self.definition(text)?.parse().ok();
        text.parse().ok().or_else(defined)
    }

    /// The cases of a definition that gives a number for each.
    pub fn cases(&self, name: &str) -> Vec<(String, u64)> {
        let clauses = self.clauses.get(name).into_iter().flatten();
        let case = |(case, number): &(String, String)| Some((case.clone(), number.parse().ok()?));
        clauses.filter_map(case).collect()
    }

    /// What stands after each `eqb number N` of a definition, up to the next one.
    pub fn by_number(&self, name: &str) -> BTreeMap<u64, String> {
        let body = self.definition(name).unwrap_or_default();
        let part = |part: &str| {
            let (number, rest) = part.split_once(')')?;
            Some((number.trim().parse().ok()?, rest.to_string()))
        };
        body.split("eqb number").skip(1).filter_map(part).collect()
    }

    /// The elements of a list that a definition gives.
    pub fn list(&self, name: &str) -> Vec<String> {
        let body = self.definition(name).unwrap_or_default();
        let elements = body.split('∷').map(|word| word.trim().to_string());
        elements.take_while(|word| word != "[]").collect()
    }
}

/// A constant of the header.
#[derive(Debug, PartialEq)]
pub struct Constant {
    pub name: String,
    pub number: u64,
    pub comment: String,
}

/// The text with one blank between two words.
fn filled(text: &str) -> String {
    text.split_whitespace().collect::<Vec<_>>().join(" ")
}

fn text(path: &Path) -> String {
    std::fs::read_to_string(path).unwrap_or_else(|e| panic!("{}: {e}", path.display()))
}

/// The clauses of a file: the name, and what stands before and after `=`, over all lines that
/// belong to it.
fn clauses_of(text: &str) -> Vec<(String, (String, String))> {
    let mut clauses: Vec<String> = vec![];
    for line in text.lines().filter(|line| !line.starts_with("--")) {
        match clauses.last_mut() {
            Some(clause) if line.starts_with(' ') => *clause += line,
            _ => clauses.push(line.to_string()),
        }
    }
    let clause = |clause: String| {
        let (head, body) = clause.split_once('=')?;
        let (name, case) = head.trim().split_once(' ').unwrap_or((head.trim(), ""));
        Some((name.to_string(), (case.to_string(), filled(body))))
    };
    clauses.into_iter().filter_map(clause).collect()
}

/// What a folder holds, in the order of names; nothing where there is no such folder.
fn paths_in(folder: &Path) -> Vec<PathBuf> {
    let entries = std::fs::read_dir(folder).into_iter().flatten();
    let mut paths: Vec<PathBuf> = entries.map(|entry| entry.unwrap().path()).collect();
    paths.sort();
    paths
}

/// What stands in the brackets that a text begins in.
pub fn within(text: &str) -> &str {
    let mut depth = 0;
    let ends = |c: char| {
        depth += i32::from(c == '(') - i32::from(c == ')');
        depth < 0
    };
    text.find(ends).map_or(text, |end| &text[..end])
}

/// The names in a text of definitions; a field goes by its name alone.
pub fn names(text: &str) -> Vec<&str> {
    text.split([' ', '(', ')', '.'])
        .filter(|word| !word.is_empty())
        .collect()
}
