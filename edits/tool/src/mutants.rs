//! Wrong programs made by the tool: one number, comparison, operator or truth value of the code changed.

use crate::source::{clauses, name};
use std::fs;
use std::path::Path;

#[derive(Clone, Debug, PartialEq)]
pub struct Mutant {
    pub of: String,
    pub file: String,
    /// the function or constant that it is in
    pub item: String,
    pub line: usize,
    pub old: String,
    pub new: String,
}

impl Mutant {
    pub fn label(&self) -> String {
        format!("{} {}:{}: {}  =>  {}", self.of, self.file, self.line + 1, self.old.trim(), self.new.trim())
    }

    /// The line with a comment that makes it the only one of its file.
    fn marked(&self, line: &str) -> String {
        let comment = if self.file.ends_with(".antt") { "--" } else { "//" };
        format!("{line} {comment} line {}.", self.line + 1)
    }

    /// The file's text with its line marked, and the edit of it that `rt must-fail` reads.
    pub fn mark(&self, text: &str) -> String {
        let mut lines: Vec<String> = text.split('\n').map(str::to_string).collect();
        if lines[self.line] == self.old {
            lines[self.line] = self.marked(&self.old);
        }
        lines.join("\n")
    }

    pub fn edit(&self) -> String {
        format!("file: {}\nold: {}\nnew: {}\n", self.file, self.marked(&self.old), self.marked(&self.new))
    }
}

const SWAPS: [(&str, &str); 17] = [
    (" < ", " <= "),
    (" <= ", " < "),
    (" > ", " >= "),
    (" >= ", " > "),
    (" == ", " != "),
    (" != ", " == "),
    (" && ", " || "),
    (" || ", " && "),
    (" + ", " - "),
    (" - ", " + "),
    (" * ", " + "),
    (" / ", " % "),
    (" % ", " / "),
    ("true", "false"),
    ("false", "true"),
    ("ltb ", "leb "),
    ("leb ", "ltb "),
];

/// Every mutant of a line: each place where a swap applies, and each number one higher and one lower.
fn of_line(line: &str) -> Vec<String> {
    let with = |at: usize, length: usize, new: &str| format!("{}{new}{}", &line[..at], &line[at + length..]);
    let mut found = Vec::new();
    for (a, b) in SWAPS {
        found.extend(line.match_indices(a).map(|(at, _)| with(at, a.len(), b)));
    }
    for (at, text) in numbers(line) {
        let plain = text.replace('_', "");
        let value = match plain.strip_prefix("0x") {
            Some(hex) => u64::from_str_radix(hex, 16),
            None => plain.parse(),
        };
        let Ok(n) = value else { continue };
        found.extend(n.checked_add(1).map(|more| with(at, text.len(), &more.to_string())));
        found.extend(n.checked_sub(1).map(|less| with(at, text.len(), &less.to_string())));
    }
    found
}

/// The numbers that stand by themselves in a line, with their places: no part of a name, no field `.0`, no number with
/// a type.
fn numbers(line: &str) -> Vec<(usize, &str)> {
    let word = |c: char| c.is_alphanumeric() || c == '_';
    let mut found = Vec::new();
    let mut at = 0;
    for part in line.split_inclusive(|c: char| !word(c)) {
        let text = part.trim_end_matches(|c: char| !word(c));
        let before = &line[..at];
        let field = before.ends_with('.') && !before.ends_with("..");
        if text.starts_with(|c: char| c.is_ascii_digit()) && !field {
            found.push((at, text));
        }
        at += part.len();
    }
    found
}

/// The lines of a text that are code: no comment, no contract, no signature, no `use`; of a definition in specs/, no
/// type and no field.
fn code_in(text: &str, specs: bool) -> Vec<bool> {
    let lines: Vec<&str> = text.split('\n').collect();
    let mut code: Vec<bool> = lines.iter().map(|line| is_code(line, specs)).collect();
    if specs {
        return code;
    }
    for clause in clauses(text) {
        code[clause.first..=clause.last].fill(false);
    }
    for first in (0..lines.len()).filter(|i| name(lines[*i]).is_some()) {
        let open = (first..lines.len()).find(|i| lines[*i].trim() == "{" || lines[*i].ends_with(" {") && code_ends(lines[*i]));
        code[first..=open.unwrap_or(first)].fill(false);
    }
    code
}

/// Whether a line that ends in an opening brace opens a body, and no clause.
fn code_ends(line: &str) -> bool {
    !["requires", "ensures"].iter().any(|word| line.trim_start().starts_with(word))
}

fn is_code(line: &str, specs: bool) -> bool {
    let bare = line.trim_start();
    if specs {
        let skipped = ["--", "use ", "pub mod", "mod ", "pub record", "pub data"];
        return !bare.is_empty() && !skipped.iter().any(|s| bare.starts_with(s)) && !line.contains(" : ") && !line.contains('≡');
    }
    let skipped = ["//", "ghost ", "use ", "mod ", "pub mod", "struct", "pub struct", "pub(crate) struct", "enum", "pub enum", "impl", "#"];
    !bare.is_empty() && !skipped.iter().any(|s| bare.starts_with(s))
}

/// Whether a line begins an item: mutants are drawn over items by turns, so that no long table or function takes the
/// whole sample.
fn begins_item(line: &str, specs: bool) -> bool {
    let bare = line.trim_start();
    match specs {
        true => line.contains(" : ") && !line.starts_with(' '),
        false => name(line).is_some() || ["const ", "pub const", "pub(crate) const"].iter().any(|s| bare.starts_with(s)),
    }
}

/// The name that such a line gives: the last word before its parameters or its type.
fn item_name(line: &str) -> String {
    let bare = line.trim_start().trim_start_matches("pub(crate) ");
    let head = bare.split(['(', ':']).next().unwrap_or_default();
    head.split_whitespace().last().unwrap_or_default().to_string()
}

/// All mutants of a crate, those of one item together.
fn by_item(root: &Path, of: &str, part: &str, specs: bool) -> Vec<Vec<Mutant>> {
    let folder = root.join("crates").join(of);
    let (place, kind) = if specs { ("specs", "antt") } else { ("src", "rt") };
    let mut paths: Vec<_> = fs::read_dir(folder.join(place)).into_iter().flatten().flatten().map(|e| e.path()).collect();
    paths.sort();
    let mut items: Vec<Vec<Mutant>> = Vec::new();
    for path in paths.iter().filter(|p| p.extension().is_some_and(|e| e == kind)) {
        let name = path.file_name().unwrap_or_default().to_string_lossy().to_string();
        if !name.contains(part) || (specs && ["Bench.antt", "Lib.antt"].contains(&name.as_str())) {
            continue;
        }
        items.push(Vec::new());
        let mut item = String::new();
        let text = fs::read_to_string(path).unwrap_or_default();
        let code = code_in(&text, specs);
        for (at, line) in text.split('\n').enumerate() {
            if begins_item(line, specs) {
                items.push(Vec::new());
                item = item_name(line);
            }
            if code[at] {
                let file = format!("{place}/{name}");
                let mutant =
                    |new| Mutant { of: of.to_string(), file: file.clone(), item: item.clone(), line: at, old: line.to_string(), new };
                items.last_mut().expect("an item").extend(of_line(line).into_iter().map(mutant));
            }
        }
    }
    items.retain(|item| !item.is_empty());
    items
}

/// The mutants of a crate in the order of a seed: one of each item, then a second of each, and so on.
pub fn drawn(root: &Path, of: &str, part: &str, specs: bool, seed: u64) -> Vec<Mutant> {
    let mut rng = Rng(seed ^ of.bytes().fold(0, |a, b| a * 31 + u64::from(b)));
    let mut items = by_item(root, of, part, specs);
    rng.shuffle(&mut items);
    items.iter_mut().for_each(|item| rng.shuffle(item));
    let most = items.iter().map(Vec::len).max().unwrap_or(0);
    (0..most).flat_map(|turn| items.iter().filter_map(move |item| item.get(turn).cloned()).collect::<Vec<_>>()).collect()
}

/// A known equal program: its crate, file, and function or constant, with the old and the new line.
#[derive(Clone, Debug, Default, PartialEq)]
pub struct Equal {
    of: String,
    file: String,
    item: String,
    old: String,
    new: String,
}

impl Equal {
    /// What is wrong with it, where its old line is no longer there.
    pub fn fault(&self, root: &Path) -> Option<String> {
        let text = fs::read_to_string(root.join("crates").join(&self.of).join(&self.file)).unwrap_or_default();
        let gone = !text.lines().any(|l| l.trim() == self.old);
        gone.then(|| format!("edits/equal: {} {} has no line '{}'", self.of, self.file, self.old))
    }

    pub fn is(&self, m: &Mutant) -> bool {
        (&self.of, &self.file, &self.item) == (&m.of, &m.file, &m.item) && self.old == m.old.trim() && self.new == m.new.trim()
    }
}

/// The known equal programs: lines `crate:`, `file:`, `in:`, `old:`, `new:`, with their reason in comments.
pub fn equal(list: &str) -> Result<Vec<Equal>, String> {
    let mut now = Equal::default();
    let mut found = Vec::new();
    for line in list.lines().filter(|l| !l.is_empty() && !l.starts_with('#')) {
        let (key, rest) = line.split_once(": ").ok_or(format!("edits/equal: '{line}' is no line of it"))?;
        let rest = rest.trim().to_string();
        match key {
            "crate" => now.of = rest,
            "file" => now.file = rest,
            "in" => now.item = rest,
            "old" => now.old = rest,
            "new" => {
                now.new = rest;
                found.push(now.clone());
            }
            _ => return Err(format!("edits/equal: '{line}' is no line of it")),
        }
    }
    Ok(found)
}

/// A seeded generator (splitmix64).
struct Rng(u64);

impl Rng {
    fn next(&mut self) -> u64 {
        self.0 = self.0.wrapping_add(0x9E37_79B9_7F4A_7C15);
        let mut z = self.0;
        z = (z ^ (z >> 30)).wrapping_mul(0xBF58_476D_1CE4_E5B9);
        z = (z ^ (z >> 27)).wrapping_mul(0x94D0_49BB_1331_11EB);
        z ^ (z >> 31)
    }

    fn shuffle<T>(&mut self, items: &mut [T]) {
        for i in (1..items.len()).rev() {
            items.swap(i, (self.next() % (i as u64 + 1)) as usize);
        }
    }
}

#[cfg(test)]
mod tests {
    use super::*;

    #[test]
    fn mutants_of_a_line() {
        assert_eq!(of_line("if a < 10 {"), ["if a <= 10 {", "if a < 11 {", "if a < 9 {"]);
        assert_eq!(of_line("&b[0..510]"), ["&b[1..510]", "&b[0..511]", "&b[0..509]"]);
        assert_eq!(of_line("x = 0x10;"), ["x = 17;", "x = 15;"]);
        assert_eq!(of_line("a + b + c"), ["a - b + c", "a + b - c"]);
        assert!(of_line("let x2 = y.0;").is_empty());
        assert!(of_line("[0u8; n]").is_empty());
    }

    #[test]
    fn only_code() {
        let text =
            "#![tactic(auto)]\n// 1 < 2\nuse a::b;\npub fn f(\n    a: [u8; 10],\n) -> u8\n    ensures low {\n        1 < 2\n    }\n{\n\
    a[0] + 1\n}\n\npub extern \"C\" fn g(a: [u8; 10]) {\n    a[1]\n}\nconst A: u8 = 1;\n";
        let code = code_in(text, false);
        assert_eq!((0..code.len()).filter(|i| code[*i]).collect::<Vec<_>>(), [10, 11, 14, 15, 16]);
        assert_eq!(code_in("abbrev f : ℕ → ℕ\nf n = n + 1\n-- 1\n", true), [false, true, false, false]);
    }

    #[test]
    fn an_edit_of_the_only_line_of_its_kind() {
        let text = "fn f() {\n    i + 1\n    i + 1\n}\n";
        let (of, file, item) = ("c".into(), "src/a.rt".into(), "f".into());
        let m = Mutant { of, file, item, line: 2, old: "    i + 1".into(), new: "    i + 2".into() };
        assert_eq!(m.mark(text), "fn f() {\n    i + 1\n    i + 1 // line 3.\n}\n");
        assert_eq!(m.mark(&m.mark(text)), m.mark(text));
        assert_eq!(m.edit(), "file: src/a.rt\nold:     i + 1 // line 3.\nnew:     i + 2 // line 3.\n");
    }

    #[test]
    fn equal_programs() {
        let list = "# why\ncrate: mmc\nfile: src/a.rt\nin: f\nold:   a < 1\nnew: a <= 0\n";
        let equal_to = |item: &str| {
            let (of, file, item) = ("mmc".into(), "src/a.rt".into(), item.into());
            equal(list).unwrap()[0].is(&Mutant { of, file, item, line: 7, old: "    a < 1".into(), new: "    a <= 0".into() })
        };
        assert!(equal_to("f"));
        assert!(!equal_to("g"));
        assert_eq!(item_name("pub(crate) fn f(a: u8) -> u8"), "f");
        assert_eq!(item_name("const A: u8 = 1;"), "A");
        assert_eq!(item_name("pub(crate) const A: u8 = 1;"), "A");
        assert!(begins_item("pub(crate) const A: u8 = 1;", false));
        assert!(equal("lore\n").is_err());
    }
}
