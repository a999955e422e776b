//! Whether the conversion of addresses and times divides, takes remainders or
//! multiplies (document 02, Ask 5): in its source, in what other sources have of
//! it, and in its machine code. Each function gives the faults that it finds.

/// The conversion's source.
pub const SOURCE: &str = "mmc/src/times.rt";

/// The functions of the static library `conversion`, which is the conversion
/// alone.
pub const EXPORTED: [&str; 2] = ["conversion_time", "conversion_address"];

/// Frames in a second and in a minute: whatever computes with a time has one.
const COUNTS: [u64; 2] = [75, 4500];

/// What the conversion's source does that it may not: an operator, or a call
/// of a function that another source has, where an operator could stand unseen.
pub fn in_source(text: &str) -> Vec<String> {
    let mut faults = vec![];
    for (number, line) in code(text, &mut faults) {
        let at = |what: &str| format!("line {number}: {what}: {line}");
        if let Some(path) = line.strip_prefix("use ") {
            let names = path.split_once('{').map_or(path, |(_, names)| names);
            let names = names.trim_end_matches('}').split(',').map(str::trim);
            let mut last = names.filter_map(|name| name.rsplit("::").next());
            if last.any(|name| !name.is_empty() && !is_type(name)) {
                faults.push(at("a function of another source"));
            }
            continue;
        }
        for (operator, what) in [
            ('/', "a division"),
            ('%', "a remainder"),
            ('*', "a multiplication"),
            ('"', "a text, in which // begins no comment"),
        ] {
            if line.contains(operator) {
                faults.push(at(what));
            }
        }
        // the part of a path behind `::` is a type or one of its cases
        if line.split("::").skip(1).any(|part| !is_type(part)) {
            faults.push(at("a function of another source"));
        }
    }
    faults
}

/// What another source has of the conversion: a count of frames.
pub fn copied(text: &str) -> Vec<String> {
    let mut faults = vec![];
    for (number, line) in code(text, &mut faults) {
        let mut words = line.split(|c: char| !c.is_alphanumeric() && c != '_');
        if words.any(|word| value(word).is_some_and(|n| COUNTS.contains(&n))) {
            faults.push(format!("line {number}: a count of frames: {line}"));
        }
    }
    faults
}

/// What the disassembly of the static library (`objdump -dr
/// --no-show-raw-insn`) has that it may not: a division, a multiplication, or a
/// way to other code; and each function that it lacks.
pub fn in_machine_code(text: &str) -> Vec<String> {
    let mut faults = vec![];
    let mut returning = vec![];
    let mut function = "";
    for line in text.lines() {
        if let Some(name) = line.strip_suffix(">:").and_then(|l| l.split_once('<')) {
            function = name.1;
        }
        let Some((_, instruction)) = line.split_once(":\t") else {
            // a relocation stands for an address that the linker fills in
            if line.contains("R_X86_64") {
                faults.push(format!("{function}: other code or data: {}", line.trim()));
            }
            continue;
        };
        let words: Vec<&str> = instruction.split_whitespace().collect();
        // a prefix may stand before the operation
        let named = |part: &str| words.iter().take(2).any(|word| word.contains(part));
        let elsewhere = instruction.split_once('<').is_some_and(|(_, place)| {
            let label = place.trim_end_matches('>');
            label.split_once('+').map_or(label, |(name, _)| name) != function
        });
        if named("div") || named("mul") || named("call") || elsewhere {
            faults.push(format!("{function}: {instruction}"));
        }
        if named("ret") {
            returning.push(function);
        }
    }
    for name in EXPORTED {
        if !returning.contains(&name) {
            faults.push(format!("{name} is not there"));
        }
    }
    faults
}

/// The lines of code and their numbers, without comments, contracts, attributes
/// and what is named for contracts alone. A `use` is one line, on however many
/// it stands; what stands behind a contract or an attribute is code. A contract
/// that is not on one line is a fault, and so is what doesn't end, since code
/// could stand in it unseen.
fn code(text: &str, faults: &mut Vec<String>) -> Vec<(usize, String)> {
    let mut lines = text.lines().zip(1..).map(|(line, number)| {
        let line = line.split_once("//").map_or(line, |(before, _)| before);
        (number, line.trim().to_string())
    });
    let mut kept = vec![];
    while let Some((number, mut line)) = lines.next() {
        while let Some(skipped) = skipped(&line) {
            let mut end = skipped.end(&line);
            if end.is_none() && skipped == Skipped::Contract {
                faults.push(format!("line {number}: a contract on several lines"));
            }
            while end.is_none() {
                let Some((_, more)) = lines.next() else { break };
                line = format!("{line} {more}");
                end = skipped.end(&line);
            }
            let Some(end) = end else {
                faults.push(format!("line {number}: no end of it: {line}"));
                break;
            };
            if skipped == Skipped::Use {
                kept.push((number, line[..end].trim_end_matches(';').to_string()));
            }
            line = line[end..].trim().to_string();
        }
        let line = line.trim_end_matches(';');
        if !line.is_empty() {
            kept.push((number, line.to_string()));
        }
    }
    kept
}

/// What may stand on several lines.
#[derive(Clone, Copy, PartialEq)]
enum Skipped {
    Contract,
    Attribute,
    GhostUse,
    Use,
}

/// What a line begins, if it is something that may stand on several.
fn skipped(line: &str) -> Option<Skipped> {
    let begins = |word: &str| {
        let rest = line.strip_prefix(word);
        rest.is_some_and(|rest| rest.is_empty() || rest.starts_with([' ', '{', '*', '(']))
    };
    if begins("requires") || begins("ensures") {
        Some(Skipped::Contract)
    } else if line.starts_with("#[") || line.starts_with("#![") {
        Some(Skipped::Attribute)
    } else if begins("ghost use") {
        Some(Skipped::GhostUse)
    } else {
        begins("use").then_some(Skipped::Use)
    }
}

impl Skipped {
    /// The place behind it, if the text has its end.
    fn end(self, text: &str) -> Option<usize> {
        let (open, close) = match self {
            Skipped::Contract => ('{', '}'),
            Skipped::Attribute => ('[', ']'),
            Skipped::GhostUse | Skipped::Use => return text.find(';').map(|at| at + 1),
        };
        let mut depth = 0;
        for (at, c) in text.char_indices() {
            depth += i32::from(c == open) - i32::from(c == close);
            if c == close && depth == 0 {
                return Some(at + 1);
            }
        }
        None
    }
}

/// The number that a word is, in decimal or hex, with a type behind it or not.
fn value(word: &str) -> Option<u64> {
    let bare = word.replace('_', "");
    let (digits, radix) = match bare.strip_prefix("0x") {
        Some(hex) => (hex, 16),
        None => (bare.as_str(), 10),
    };
    let end = digits.find(|c: char| !c.is_digit(radix));
    u64::from_str_radix(&digits[..end.unwrap_or(digits.len())], radix).ok()
}

fn is_type(name: &str) -> bool {
    name.starts_with(|c: char| c.is_ascii_uppercase())
}
