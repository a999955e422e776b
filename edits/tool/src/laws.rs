//! The laws: every field of every record that a contract cites stands in `edits/laws`, with an edit that only it
//! refuses, or with the reason why there is none. So a law that is deleted, or added without an edit, fails the run.

use crate::edit::Edit;
use crate::judge::Failure;
use crate::source::{clauses, name, proof_of};
use std::collections::{BTreeMap, BTreeSet};
use std::fs;
use std::path::{Path, PathBuf};

/// A record of a crate's specs/.
type Name = (String, String);

#[derive(Debug, Default)]
pub struct Laws {
    /// each record's fields, with the text of each
    records: BTreeMap<Name, Vec<(String, String)>>,
    /// what each name for a statement stands for
    names: BTreeMap<Name, String>,
    /// the records that a contract cites, each with the functions of its own crate that do
    promises: BTreeMap<Name, BTreeSet<String>>,
    /// the crates that a crate sees, itself first
    sees: BTreeMap<String, Vec<String>>,
}

/// A line of `edits/laws`: crate, record, field (or `*`), and the reason for having no edit, if there is one.
struct Listed {
    record: Name,
    field: String,
    reason: String,
}

pub fn read(root: &Path, crates: &BTreeMap<String, Vec<String>>) -> Laws {
    let mut laws = Laws::default();
    for (name, deps) in crates {
        let folder = root.join("crates").join(name);
        let ours = deps.iter().filter(|d| crates.contains_key(*d)).cloned();
        laws.sees.insert(name.clone(), std::iter::once(name.clone()).chain(ours).collect());
        for path in files(&folder.join("specs"), "antt") {
            let text = fs::read_to_string(path).unwrap_or_default();
            for (record, fields) in records_in(&text) {
                laws.records.insert((name.clone(), record), fields);
            }
            for (short, means) in names_in(&text) {
                laws.names.insert((name.clone(), short), means);
            }
        }
    }
    for name in crates.keys() {
        for path in files(&root.join("crates").join(name).join("src"), "rt") {
            for (function, clause) in promises_in(&fs::read_to_string(path).unwrap_or_default()) {
                for (of, record) in laws.named(name, &clause) {
                    if of == *name {
                        laws.promises.entry((of, record)).or_default().insert(function.clone());
                    } else {
                        laws.promises.entry((of, record)).or_default();
                    }
                }
            }
        }
    }
    laws
}

/// The files of a kind in a folder and below it.
pub fn files(folder: &Path, kind: &str) -> Vec<PathBuf> {
    let mut found = Vec::new();
    let mut todo = vec![folder.to_path_buf()];
    while let Some(at) = todo.pop() {
        for path in fs::read_dir(at).into_iter().flatten().flatten().map(|e| e.path()) {
            if path.is_dir() {
                todo.push(path);
            } else if path.extension().is_some_and(|e| e == kind) {
                found.push(path);
            }
        }
    }
    found.sort();
    found
}

/// `pub record NAME .. where`, and below it, indented, `pub FIELD : ..`.
fn records_in(text: &str) -> Vec<(String, Vec<(String, String)>)> {
    let mut found: Vec<(String, Vec<(String, String)>)> = Vec::new();
    let mut inside = false;
    for line in text.lines() {
        if let Some(rest) = line.strip_prefix("pub record ") {
            inside = true;
            found.push((rest.split_whitespace().next().unwrap_or_default().to_string(), Vec::new()));
        } else if !line.is_empty() && !line.starts_with(' ') {
            inside = false;
        } else if let (true, Some((_, fields))) = (inside, found.last_mut()) {
            if let Some((field, text)) = line.trim_start().strip_prefix("pub ").and_then(|l| l.split_once(" :")) {
                fields.push((field.to_string(), text.to_string()));
            } else if let (false, Some((_, text))) = (line.trim_start().starts_with("--"), fields.last_mut()) {
                text.push_str(line);
            }
        }
    }
    found
}

/// `abbrev pub NAME : .. → Type 0`, and below it `NAME .. = ..` on one line or several: a name for a statement, with
/// what it stands for.
fn names_in(text: &str) -> Vec<(String, String)> {
    let mut found: Vec<(String, String)> = Vec::new();
    let mut inside = false;
    for line in text.lines() {
        let head = line.strip_prefix("abbrev pub ").or(line.strip_prefix("unfoldable pub "));
        if let (Some(head), true) = (head, line.ends_with("Type 0")) {
            found.push((head.split_whitespace().next().unwrap_or_default().to_string(), String::new()));
            inside = false;
        } else if let Some((name, means)) = found.last_mut() {
            let own = line.strip_prefix(name.as_str()).is_some_and(|rest| rest.starts_with(' '));
            inside = own || inside && line.starts_with(' ');
            if inside {
                means.push_str(if own { line.split_once(" =").map_or("", |(_, right)| right) } else { line });
                means.push(' ');
            }
        }
    }
    found
}

/// What each function ensures, by its name.
fn promises_in(text: &str) -> Vec<(String, String)> {
    let lines: Vec<&str> = text.split('\n').collect();
    let of = |first: usize| lines[..first].iter().rev().find_map(|l| name(l)).unwrap_or_default().to_string();
    clauses(text).into_iter().filter(|c| c.ensures).map(|c| (of(c.first), c.fact)).collect()
}

fn words(text: &str) -> BTreeSet<String> {
    let part = |c: char| c.is_alphanumeric() || c == '-' || c == '_';
    text.split(|c: char| !part(c)).filter(|w| !w.is_empty()).map(str::to_string).collect()
}

impl Laws {
    /// The records that a text of a crate names, by themselves or by a name for a statement.
    fn named(&self, of: &str, text: &str) -> BTreeSet<Name> {
        let places = |word: &str| self.sees[of].iter().map(|c| (c.clone(), word.to_string())).collect::<Vec<Name>>();
        let mut todo: Vec<Name> = words(text).iter().flat_map(|w| places(w)).collect();
        let (mut seen, mut found) = (BTreeSet::new(), BTreeSet::new());
        while let Some(name) = todo.pop() {
            if self.records.contains_key(&name) {
                found.insert(name.clone());
            }
            if let (true, Some(means)) = (seen.insert(name.clone()), self.names.get(&name)) {
                todo.extend(words(means).iter().flat_map(|w| self.sees[&name.0].iter().map(move |c| (c.clone(), w.clone()))));
            }
        }
        found
    }

    /// The records that a contract cites, and those that their fields cite.
    fn cited(&self) -> BTreeSet<Name> {
        let mut todo: Vec<Name> = self.promises.keys().cloned().collect();
        let mut found = BTreeSet::new();
        while let Some(name) = todo.pop() {
            if found.insert(name.clone()) {
                todo.extend(self.records[&name].iter().flat_map(|(_, text)| self.named(&name.0, text)));
            }
        }
        found
    }

    /// What is wrong with `edits/laws`, the records and the edits, taken together; and how many laws there are.
    pub fn faults(&self, list: &str, edits: &[Edit]) -> (usize, Vec<String>) {
        let (listed, mut faults) = listed(list);
        let cited = self.cited();
        let mut known: BTreeMap<Name, BTreeMap<String, bool>> = BTreeMap::new();
        for line in &listed {
            let (of, record) = &line.record;
            let named = format!("{of} {record}.{}", line.field);
            let fields = self.records.get(&line.record);
            let there = fields.is_some_and(|f| line.field == "*" || f.iter().any(|(field, _)| *field == line.field));
            if !there {
                faults.push(format!("{named}: edits/laws lists it, and it is not there: was a law deleted?"));
            } else if !cited.contains(&line.record) {
                faults.push(format!("{named}: edits/laws lists it, and no contract cites {record}: was a promise deleted?"));
            }
            let wanted = line.reason.is_empty();
            let has = edits.iter().any(|e| e.of == *of && e.laws.iter().any(|l| l.record == *record && l.field == line.field));
            if wanted && !has {
                faults.push(format!("{named}: no edit in crates/{of}/must-fail is for this law"));
            }
            known.entry(line.record.clone()).or_default().insert(line.field.clone(), wanted);
        }
        for name in cited {
            let fields = known.get(&name);
            for (field, _) in &self.records[&name] {
                if !fields.is_some_and(|f| f.contains_key(field) || f.contains_key("*")) {
                    faults.push(format!("{} {}.{field}: a contract promises it, and edits/laws does not list it", name.0, name.1));
                }
            }
        }
        for (edit, law) in edits.iter().flat_map(|e| e.laws.iter().map(move |l| (e, l))) {
            let fields = known.get(&(edit.of.clone(), law.record.clone()));
            if !fields.is_some_and(|f| f.get(&law.field) == Some(&true)) {
                faults
                    .push(format!("{}/{}: {}.{} is no law that edits/laws wants an edit for", edit.of, edit.label, law.record, law.field));
            }
        }
        (listed.iter().filter(|l| l.reason.is_empty()).count(), faults)
    }

    /// Whether its laws alone refuse an edit: each proof that fails by itself is one that the edit names, the first one
    /// named among them, and of the functions whose contracts carry a law one fails with it.
    pub fn alone(&self, edit: &Edit, roots: &[Failure], functions: &[String]) -> Result<(), String> {
        let Some(first) = edit.fails.first() else {
            return Ok(());
        };
        let is = |(file, names): &(String, Vec<String>), f: &Failure| match proof_of(file) {
            Some(folder) => f.proof.as_deref() == Some(folder),
            None => *file == f.file && (names.is_empty() || names.contains(&f.declaration)),
        };
        if let Some(other) = roots.iter().find(|f| !edit.fails.iter().any(|place| is(place, f))) {
            return Err(format!("another proof fails: {}", other.line));
        }
        if !roots.iter().any(|f| is(first, f)) {
            return Err(format!("the proof in {} does not fail", first.0));
        }
        for law in &edit.laws {
            let carry = self.promises.get(&(edit.of.clone(), law.record.clone())).filter(|c| !c.is_empty());
            let Some(carry) = carry else { continue };
            if !functions.iter().any(|f| carry.contains(f)) {
                return Err(format!("no function that promises {} fails: does its contract still carry the law?", law.record));
            }
        }
        Ok(())
    }
}

fn listed(list: &str) -> (Vec<Listed>, Vec<String>) {
    let (mut found, mut faults) = (Vec::new(), Vec::new());
    for line in list.lines().filter(|l| !l.trim().is_empty() && !l.starts_with('#')) {
        let mut parts = line.splitn(3, char::is_whitespace);
        let (of, law, reason) = (parts.next(), parts.next(), parts.next().unwrap_or_default());
        match (of, law.and_then(|l| l.split_once('.'))) {
            (Some(of), Some((record, field))) => found.push(Listed {
                record: (of.to_string(), record.to_string()),
                field: field.to_string(),
                reason: reason.trim().to_string(),
            }),
            _ => faults.push(format!("edits/laws: '{line}' is no line CRATE RECORD.FIELD [REASON]")),
        }
    }
    (found, faults)
}

#[cfg(test)]
mod tests {
    use super::*;
    use crate::edit::{Law, Texts};

    const SPECS: &str = "abbrev pub Promised : Order → Type 0\nPromised o =\n    Makes o\n\npub record Makes (o : Order) : Type 0 where\n  pub filled : Fills o\n  -- why\n  pub back :\n    (b : A) → b\n\nf = 1\n  pub no : law\n";

    fn laws() -> Laws {
        let mut laws = Laws::default();
        laws.sees.insert("c".into(), vec!["c".into()]);
        for (record, fields) in records_in(SPECS) {
            laws.records.insert(("c".into(), record), fields);
        }
        laws.names.extend(names_in(SPECS).into_iter().map(|(short, means)| (("c".to_string(), short), means)));
        for (function, clause) in promises_in("pub fn make(o: Order) -> Made\n    ensures back { Promised o result }\n{\n}\n") {
            for name in laws.named("c", &clause) {
                laws.promises.entry(name).or_default().insert(function.clone());
            }
        }
        laws
    }

    fn edit() -> Edit {
        let fails = vec![
            ("proofs/Laws.antt".into(), vec!["back".into()]),
            ("proofs/Bench.antt".into(), vec![]),
            ("proofs/make/Answers.antt".into(), vec![]),
        ];
        Edit {
            of: "c".into(),
            label: "l".into(),
            laws: vec![Law { record: "Makes".into(), field: "back".into() }],
            fails,
            texts: Texts::new(),
        }
    }

    const LIST: &str = "# a comment\nc Makes.filled  the equation\nc Makes.back\n";

    #[test]
    fn a_list_that_fits() {
        assert_eq!(laws().faults(LIST, &[edit()]), (1, vec![]));
    }

    #[test]
    fn deleted_added_or_without_an_edit() {
        assert_eq!(laws().faults(&format!("{LIST}c Makes.gone\n"), &[edit()]).1.len(), 2);
        assert_eq!(laws().faults("c Makes.back\n", &[edit()]).1.len(), 1);
        assert_eq!(laws().faults(LIST, &[]).1.len(), 1);
        assert_eq!(laws().faults("c Makes.* later\n", &[edit()]).1.len(), 1);
        let mut uncited = laws();
        uncited.promises.clear();
        assert_eq!(uncited.faults(LIST, &[edit()]).1.len(), 2);
    }

    #[test]
    fn the_law_alone() {
        let failure = |(file, declaration): (&str, &str)| Failure {
            file: file.into(),
            declaration: declaration.into(),
            proof: file.strip_prefix("src/").map(|f| format!("proofs/{f}")),
            ..Failure::default()
        };
        let alone = |roots: &[(&str, &str)], functions: &[&str]| {
            let roots: Vec<Failure> = roots.iter().copied().map(failure).collect();
            laws().alone(&edit(), &roots, &functions.iter().map(|f| f.to_string()).collect::<Vec<_>>()).is_ok()
        };
        let law = ("proofs/Laws.antt", "back");
        assert!(alone(&[law], &["make"]));
        assert!(alone(&[law, ("proofs/Bench.antt", "sheet")], &["make"]));
        assert!(!alone(&[("proofs/Bench.antt", "sheet")], &["make"]));
        assert!(!alone(&[law, ("proofs/Laws.antt", "front")], &["make"]));
        assert!(alone(&[law, ("src/make", "")], &["make"]));
        assert!(!alone(&[law, ("src/take", "")], &["make"]));
        assert!(!alone(&[law], &["inner"]));
        assert!(!alone(&[law], &[]));
    }
}
