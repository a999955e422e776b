//! What stands where in a file of Rattle: its contracts, and its functions with the folders of their proofs.

/// The name of the function that a line begins.
pub fn name(line: &str) -> Option<&str> {
    let bare = line.trim_start();
    let rest = ["fn ", "pub fn ", "pub(crate) fn ", "pub extern \"C\" fn "].iter().find_map(|p| bare.strip_prefix(p))?;
    rest.split(['(', '<']).next()
}

/// A clause of a contract: the lines that it takes, and what stands between its braces.
#[derive(Clone, Debug, PartialEq)]
pub struct Clause {
    pub first: usize,
    pub last: usize,
    pub ensures: bool,
    pub fact: String,
}

/// The clauses `requires NAME { .. }` and `ensures NAME { .. }` of a text, with or without a name, on one line or
/// several.
pub fn clauses(text: &str) -> Vec<Clause> {
    let lines: Vec<&str> = text.split('\n').collect();
    let mut found = Vec::new();
    let mut at = 0;
    while at < lines.len() {
        if let Some(ensures) = begins_clause(lines[at]) {
            let (last, fact) = braced(&lines, at);
            found.push(Clause { first: at, last, ensures, fact });
            at = last;
        }
        at += 1;
    }
    found
}

/// Whether a line begins a clause, and whether it is one of what is ensured.
fn begins_clause(line: &str) -> Option<bool> {
    let bare = line.trim_start();
    let kinds = [("requires", false), ("ensures", true)];
    let (rest, ensures) = kinds.iter().find_map(|(word, e)| bare.strip_prefix(word).map(|rest| (rest, *e)))?;
    rest.starts_with([' ', '*', '{']).then_some(ensures)
}

/// What stands in the first braces from a line on, and the line where they close.
fn braced(lines: &[&str], first: usize) -> (usize, String) {
    let (mut depth, mut fact) = (0, String::new());
    for (at, line) in lines.iter().enumerate().skip(first) {
        for c in line.chars() {
            depth -= i32::from(c == '}');
            if depth == 0 && c == '}' {
                return (at, fact);
            }
            if depth > 0 {
                fact.push(c);
            }
            depth += i32::from(c == '{');
        }
        fact.push(' ');
    }
    (lines.len() - 1, fact)
}

/// A function: the folder of its proof, and the lemmas that its attribute names, by file and declaration.
#[derive(Clone, Debug, PartialEq)]
pub struct Function {
    pub proof: String,
    pub uses: Vec<(String, String)>,
}

/// The function that a line belongs to, from the attributes and comments above it to its closing brace.
pub fn function_at(file: &str, text: &str, at: usize) -> Option<Function> {
    let module = file.strip_prefix("src/")?.strip_suffix(".rt")?;
    let lines: Vec<&str> = text.split('\n').collect();
    let parts = |first: usize| {
        let indent = &lines[first][..lines[first].len() - lines[first].trim_start().len()];
        let last = (first + 1..lines.len()).find(|i| lines[*i].strip_prefix(indent) == Some("}"))?;
        let above = |i: usize| lines[i].trim_start().starts_with("//") || !lines[i].is_empty() && !lines[i].ends_with(['}', '{', ';']);
        let head = (0..first).rev().take_while(|i| above(*i)).last().unwrap_or(first);
        Some((indent, head, last))
    };
    let first =
        (0..lines.len()).find(|i| name(lines[*i]).is_some() && parts(*i).is_some_and(|(_, head, last)| head <= at && at <= last))?;
    let (indent, head, _) = parts(first)?;
    let own = if indent.is_empty() { None } else { (0..first).rev().find_map(|i| lines[i].strip_prefix("impl ")) };
    let names = [Some(module).filter(|m| *m != "lib" && *m != "main"), own.and_then(|i| i.split_whitespace().next()), name(lines[first])];
    let path: Vec<&str> = names.into_iter().flatten().collect();
    let lemma = |path: &str| {
        let (module, name) = path.split_once(')').map_or(path, |(p, _)| p).trim().rsplit_once("::")?;
        Some((format!("proofs/{}.antt", module.replace("::", "/")), name.to_string()))
    };
    let attributes = lines[head..first].join(" ");
    let uses = attributes.split("crate::proofs::").skip(1).filter_map(|p| lemma(p.split(',').next()?)).collect();
    Some(Function { proof: format!("proofs/{}", path.join("/")), uses })
}

/// The folder of a function's own proof, where a file of proofs/ is part of one.
pub fn proof_of(file: &str) -> Option<&str> {
    let (folder, name) = file.rsplit_once('/')?;
    (folder.contains('/') && ["Answers.antt", "Invariants.antt", "Proof.antt"].contains(&name)).then_some(folder)
}

#[cfg(test)]
mod tests {
    use super::*;

    const TEXT: &str = "const A: u8 = 1;\n\n#[tactic(auto, using(crate::proofs::Laws::a, crate::proofs::m::Laws::b))]\n\
fn f(a: u8) -> u8\n    requires low { a < 9 }\n    ensures {\n        { a + 1 } ≡ result\n    }\n{\n\
    a + 1\n}\n\nimpl S {\n    fn g(self) -> u8 {\n        2\n    }\n}\n";

    #[test]
    fn clauses_on_one_line_and_on_several() {
        let found = clauses(TEXT);
        assert_eq!(found.len(), 2);
        assert_eq!((found[0].first, found[0].last, found[0].ensures, found[0].fact.trim()), (4, 4, false, "a < 9"));
        assert_eq!((found[1].first, found[1].last, found[1].ensures, found[1].fact.trim()), (5, 7, true, "{ a + 1 } ≡ result"));
        assert!(clauses("ensured { 1 }\n// ensures { 2 }\n").is_empty());
    }

    #[test]
    fn proofs_of_functions() {
        let proof_at = |file, at| function_at(file, TEXT, at).map(|f| f.proof);
        assert_eq!(proof_at("src/m.rt", 0), None);
        assert_eq!(proof_at("src/m.rt", 2).unwrap(), "proofs/m/f");
        assert_eq!(proof_at("src/m.rt", 9).unwrap(), "proofs/m/f");
        assert_eq!(proof_at("src/lib.rt", 9).unwrap(), "proofs/f");
        assert_eq!(proof_at("src/m.rt", 11), None);
        assert_eq!(proof_at("src/m.rt", 14).unwrap(), "proofs/m/S/g");
        assert_eq!(proof_at("specs/M.antt", 9), None);
        let uses = [("proofs/Laws.antt".to_string(), "a".to_string()), ("proofs/m/Laws.antt".to_string(), "b".to_string())];
        assert_eq!(function_at("src/m.rt", TEXT, 9).unwrap().uses, uses);
        assert_eq!(function_at("src/m.rt", TEXT, 14).unwrap().uses, []);
        assert_eq!(proof_of("proofs/m/f/Answers.antt"), Some("proofs/m/f"));
        assert_eq!(proof_of("proofs/m/Laws.antt"), None);
        assert_eq!(proof_of("proofs/Answers.antt"), None);
    }

    #[test]
    fn names_of_functions() {
        assert_eq!(name("    pub fn f<T>(a: T) {"), Some("f"));
        assert_eq!(name("pub extern \"C\" fn g(a: u8)"), Some("g"));
        assert_eq!(name("    // fn h("), None);
    }
}
