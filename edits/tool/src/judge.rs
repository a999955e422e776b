//! What the prover said of a changed crate: of one that `rt check` read, all that fails; of one that `rt must-fail`
//! tried, one line.

use crate::edit::Texts;
use crate::source::{function_at, proof_of};
use std::collections::BTreeSet;

/// What fails at a place in a file of the crate: a proof, by its declaration or by the function that it is of, or where
/// the code doesn't compile.
#[derive(Clone, Debug, Default, PartialEq)]
pub struct Failure {
    pub file: String,
    pub at: usize,
    pub declaration: String,
    /// the folder of the function's own proof that fails, if it is one
    pub proof: Option<String>,
    pub line: String,
}

#[derive(Clone, Debug, PartialEq)]
pub enum Verdict {
    /// a fact fails: the proofs that fail by themselves, and the functions that are not proved, but for those that only
    /// call one
    Refused {
        roots: Vec<Failure>,
        functions: Vec<String>,
    },
    Survives,
    /// the code, or a definition in specs/, is not well formed
    NotBuilt(String),
    /// a proof file no longer fits the code's shape, which says nothing of facts
    Shape(String),
    /// the prover met a limit of its own, which says little
    Limit(String),
    /// the prover could not tell
    Unclear(String),
}

/// The verdict on what `rt check` said, with its exit status, of a crate that holds these texts.
pub fn verdict(status: i32, said: &str, texts: &Texts) -> Verdict {
    let proved = said.lines().any(|l| l.starts_with("logic=proved"));
    if status == 0 {
        return if proved { Verdict::Survives } else { Verdict::Unclear(last(said)) };
    }
    let rejected: BTreeSet<(String, String)> = said.lines().flat_map(rejected).collect();
    let roots: Vec<Failure> = said.lines().filter_map(|line| failure(line, texts, &rejected)).collect();
    if !said.lines().any(|l| l.starts_with("logic=not-proved")) {
        return match roots.first() {
            Some(f) => Verdict::NotBuilt(f.line.clone()),
            None => Verdict::Unclear(last(said)),
        };
    }
    if let Some(f) = roots.iter().find(|f| f.file.starts_with("specs/") || f.line.contains(": error[")) {
        return Verdict::NotBuilt(f.line.clone());
    }
    let (misfits, roots): (Vec<Failure>, Vec<Failure>) = roots.into_iter().partition(|f| misfit(&f.line));
    match (roots.is_empty(), misfits.first()) {
        (false, _) => Verdict::Refused { roots, functions: functions(said) },
        (true, Some(f)) => Verdict::Shape(f.line.clone()),
        (true, None) => Verdict::Unclear(last(said)),
    }
}

fn last(said: &str) -> String {
    said.lines().last().unwrap_or("nothing was said").to_string()
}

/// The declarations that a line says are not proved, by file: one that fails, or those that cite one.
fn rejected(line: &str) -> Vec<(String, String)> {
    let Some((place, message)) = line.split_once(": error: ") else {
        return vec![];
    };
    let file = at(place, "", line).file;
    let own = message.strip_prefix('`').and_then(|m| m.split_once("`:")).map(|(name, _)| name);
    let others = message.split_once("not checked: ").map_or("", |(_, names)| names);
    // `A, B (via A) and 10 more`
    let others = others.split(", ").filter_map(|n| n.split(' ').next()).filter(|n| !n.is_empty());
    own.into_iter().chain(others).map(|name| (file.clone(), name.to_string())).collect()
}

/// What fails by itself: no proof that only cites one that failed, and nothing that is told `so far`, which is told
/// again.
fn failure(line: &str, texts: &Texts, rejected: &BTreeSet<(String, String)>) -> Option<Failure> {
    if line.starts_with("so far: ") {
        return None;
    }
    if let Some(rest) = line.strip_prefix("note: ") {
        // a goal of a function for which neither its proof file nor the prover has a proof
        let (place, fact) = rest.split_once(": ")?;
        if !fact.starts_with("it is not proved that") {
            return None;
        }
        let found = at(place, "", line);
        let function = texts.get(&found.file).and_then(|text| function_at(&found.file, text, found.at.max(1) - 1));
        if function.as_ref().is_some_and(|f| f.uses.iter().any(|lemma| rejected.contains(lemma))) {
            return None;
        }
        return Some(Failure { proof: function.map(|f| f.proof), ..found });
    }
    if let Some((place, _)) = line.split_once(": error[") {
        return Some(at(place, "", line));
    }
    let (place, message) = line.split_once(": error: ")?;
    if cites(message) {
        return None;
    }
    let declaration = message.strip_prefix('`').and_then(|m| m.split_once("`:")).map_or("", |(name, _)| name);
    let found = at(place, declaration, line);
    Some(Failure { proof: proof_of(&found.file).map(str::to_string), ..found })
}

/// Whether a message is of declarations that only cite one that failed.
fn cites(message: &str) -> bool {
    message.contains(" was not admitted (") || message.contains(" that depend") && message.contains(" not checked: ")
}

/// FILE:LINE:COLUMN
fn at(place: &str, declaration: &str, line: &str) -> Failure {
    let mut parts = place.trim_start_matches("./").split(':');
    let file = parts.next().unwrap_or_default().to_string();
    let at = parts.next().and_then(|n| n.parse().ok()).unwrap_or(0);
    Failure { file, at, declaration: declaration.to_string(), proof: None, line: line.chars().take(300).collect() }
}

/// A proof file names a place of the code that is no longer there.
fn misfit(line: &str) -> bool {
    let signs = ["has no field", "has no `", "is not in scope", "this pattern needs a function (or path) type to bind"];
    signs.iter().any(|sign| line.contains(sign))
}

/// The functions whose own proofs fail: `fn c::f: not proved` and `fn c::f: no proof: ..`, but for those that only call
/// one; and those whose proof files cite what fails, whatever else is said of them.
fn functions(said: &str) -> Vec<String> {
    let short = |path: &str, parts: &str| path.rsplit(parts).next().unwrap_or(path).to_string();
    let own = |what: &str| (what.starts_with("not proved") || what.starts_with("no proof")) && !what.contains(" it calls `");
    let told = said.lines().filter_map(|l| l.strip_prefix("fn ")?.split_once(": ")).filter(|(_, what)| own(what));
    let citing = said.lines().filter_map(|l| l.split_once(": error: ")).filter(|(_, message)| cites(message));
    let citing = citing.filter_map(|(place, _)| proof_of(&at(place, "", "").file).map(|folder| short(folder, "/")));
    let found: BTreeSet<String> = told.map(|(name, _)| short(name, "::")).chain(citing).collect();
    found.into_iter().collect()
}

/// The crate and label of an edit that `rt must-fail` tried, and its verdict, where a line says one.
pub fn tried(line: &str) -> Option<(String, String, Verdict)> {
    let (file, said) = line.strip_prefix("rt: must-fail ")?.split_once(": ")?;
    let (of, label) = file.strip_suffix(".edit")?.split_once('/')?;
    let text = line.to_string();
    let verdict = if said.contains("(only because a proof file names") {
        Verdict::Shape(text)
    } else if said.contains("(only by a limit of the prover") {
        Verdict::Limit(text)
    } else if said.starts_with("refused, as it must be") {
        Verdict::Refused { roots: vec![], functions: vec![] }
    } else if said.starts_with("NOT REFUSED") {
        Verdict::Survives
    } else if said.starts_with("BAD EDIT") {
        Verdict::NotBuilt(text)
    } else {
        Verdict::Unclear(text)
    };
    Some((of.to_string(), label.to_string(), verdict))
}

#[cfg(test)]
mod tests {
    use super::*;

    const FACT: &str = "checked c::a, 1 of 3\nso far: ./proofs/a/Answers.antt:80:5: error: `returns`: the two types differ\n./proofs/a/Answers.antt:80:5: error: `returns`: the two types differ\n\
./proofs/a/Answers.antt:98:5: error: `a_spec`: `returns` was not admitted (it has holes), so this cannot be checked\n\
./proofs/Laws.antt:11:5: error: 2 declarations that depend on `same`, which was rejected, were not checked: one, laws_of (via one)\n\
./proofs/b/Answers.antt:1:5: error: 1 declaration that depends on `laws_of`, which was not admitted, was not checked: returns\n\
fn c::a: not proved\nfn c::b: not proved; it calls `c::e`, which is not proved\nfn c::e: no proof: it calls `c::a`, which is not proved\nfn c::d: proved\nlogic=not-proved\nrt: rt lemma WORD..\n";

    #[test]
    fn a_fact_fails() {
        let Verdict::Refused { roots, functions } = verdict(1, FACT, &Texts::new()) else { panic!() };
        assert_eq!(roots.len(), 1);
        assert_eq!((roots[0].file.as_str(), roots[0].declaration.as_str()), ("proofs/a/Answers.antt", "returns"));
        assert_eq!(roots[0].proof.as_deref(), Some("proofs/a"));
        assert_eq!(functions, ["a", "b"]);
    }

    #[test]
    fn a_function_without_a_proof() {
        let said = "x\nnote: src/p.rt:2:1: it is not proved that what the function ensures holds (`returns`)\n\
note: a goal may be false even if its line does not say so\n\
fn c::p::f: no proof: expected answers in ./proofs/p/f/Answers.antt; `search` did not prove `returns`\nlogic=not-proved\n";
        let texts = Texts::from([("src/p.rt".to_string(), "// f\nfn f() -> u8\n{\n    1\n}\n".to_string())]);
        let Verdict::Refused { roots, functions } = verdict(1, said, &texts) else { panic!() };
        assert_eq!((roots.len(), roots[0].proof.as_deref()), (1, Some("proofs/p/f")));
        assert_eq!(functions, ["f"]);
        // where it cites a lemma that fails, the lemma alone fails by itself
        let citing = Texts::from([(
            "src/p.rt".to_string(),
            texts["src/p.rt"].replace("// f", "#[tactic(auto, using(crate::proofs::Laws::laws_of))]"),
        )]);
        let Verdict::Refused { roots, functions } = verdict(1, &format!("{FACT}{said}"), &citing) else { panic!() };
        assert!(roots.iter().all(|f| f.proof.as_deref() != Some("proofs/p/f")));
        assert_eq!(functions, ["a", "b", "f"]);
    }

    #[test]
    fn what_shows_nothing() {
        let misfits = ["module `T` has no `returns_7` that can be named", "`c.x` has no field `y`", "`z` is not in scope"];
        for misfit in misfits {
            let line = format!("./proofs/a/Answers.antt:1:1: error: {misfit}\n");
            assert!(matches!(verdict(1, &format!("{line}logic=not-proved\n"), &Texts::new()), Verdict::Shape(_)), "{misfit}");
            // beside it a fact fails: that is what counts
            assert_eq!(verdict(1, &format!("{line}{FACT}"), &Texts::new()), verdict(1, FACT, &Texts::new()), "{misfit}");
        }
        let said = format!("./specs/A.antt:1:1: error: `f`: expected type `ℕ`\n{FACT}");
        assert!(matches!(verdict(1, &said, &Texts::new()), Verdict::NotBuilt(_)));
        let said = "x\nsrc/p.rt:1:13: error[unknown-name]: cannot find value\n";
        assert!(matches!(verdict(1, said, &Texts::new()), Verdict::NotBuilt(_)));
        assert!(matches!(verdict(124, "x\n", &Texts::new()), Verdict::Unclear(_)));
        assert!(matches!(verdict(0, "x\nlogic=proved functions=1\n", &Texts::new()), Verdict::Survives));
        assert!(matches!(verdict(0, "x\n", &Texts::new()), Verdict::Unclear(_)));
    }

    #[test]
    fn a_line_for_each_edit() {
        let of =
            |said: &str| tried(&format!("rt: must-fail c/m_1.edit: {said}")).map(|(of, label, verdict)| (format!("{of}/{label}"), verdict));
        assert!(
            matches!(of("refused, as it must be: note: src/a.rt:1:1: it is not proved"), Some((n, Verdict::Refused { .. })) if n == "c/m_1")
        );
        assert!(matches!(of("refused, as it must be (only because a proof file names what went): x"), Some((_, Verdict::Shape(_)))));
        assert!(matches!(
            of("refused, as it must be (only by a limit of the prover, which gave no verdict): x"),
            Some((_, Verdict::Limit(_)))
        ));
        assert!(matches!(of("NOT REFUSED: the crate is still proved with this edit"), Some((_, Verdict::Survives))));
        assert!(matches!(of("BAD EDIT: it did not reach the prover"), Some((_, Verdict::NotBuilt(_)))));
        assert!(matches!(of("NOT TRIED: its check was killed"), Some((_, Verdict::Unclear(_)))));
        assert_eq!(tried("rt: c: trying its must-fail edits (3)"), None);
    }
}
