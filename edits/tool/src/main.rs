//! What the gate asks of the wrong programs beside `rt ci`, which tries each edit of crates/CRATE/must-fail: see
//! edits/README.md.

#![forbid(unsafe_code)]

mod edit;
mod judge;
mod kept;
mod laws;
mod mutants;
mod rooms;
mod source;

use edit::Edit;
use judge::Verdict;
use kept::Kept;
use mutants::Mutant;
use rooms::{checked, Rooms};
use std::collections::{BTreeMap, VecDeque};
use std::fs;
use std::path::{Path, PathBuf};
use std::process::ExitCode;
use std::sync::atomic::{AtomicUsize, Ordering};
use std::time::Instant;

/// The gate's sample of mutants: so many for each crate, from this seed.
const SAMPLE: usize = 3;
const SEED: u64 = 20261116;

const USAGE: &str = "edits/try                       the laws, and a fixed sample of mutants of each crate: the gate's part
edits/try laws                  only whether each edit fits, and each law of a contract is listed and has its edit
edits/try fails [NAME..] [--roots]
                                whether of each law's edit only the proofs that it names fail by themselves; or of those of crates or
                                CRATE/LABEL; --roots prints each proof that fails by itself, also of an edit without a law
edits/try mutants [CRATE..] [--count N] [--seed S] [--file PART] [--specs] [--list]
                                N mutants of each crate, from the seed S, of the files whose name has PART; with --specs of the
                                definitions; --list only prints them";

struct Wanted {
    fails: bool,
    mutants: bool,
    names: Vec<String>,
    count: usize,
    seed: u64,
    file: String,
    specs: bool,
    list: bool,
    roots: bool,
}

fn wanted(words: &[String]) -> Option<Wanted> {
    let mut w = Wanted {
        fails: false,
        mutants: false,
        names: vec![],
        count: SAMPLE,
        seed: SEED,
        file: String::new(),
        specs: false,
        list: false,
        roots: false,
    };
    let mut words = words.iter();
    match words.next().map(String::as_str) {
        None | Some("mutants") => w.mutants = true,
        Some("fails") => w.fails = true,
        Some("laws") => {}
        Some(_) => return None,
    }
    while let Some(word) = words.next() {
        match word.as_str() {
            "--count" => w.count = words.next()?.parse().ok()?,
            "--seed" => w.seed = words.next()?.parse().ok()?,
            "--file" => w.file = words.next()?.clone(),
            "--specs" => w.specs = true,
            "--list" => w.list = true,
            "--roots" => w.roots = true,
            name if name.starts_with('-') => return None,
            name => w.names.push(name.to_string()),
        }
    }
    Some(w)
}

/// The crates of crates.txt, each with what it depends on.
fn crates_in(root: &Path) -> BTreeMap<String, Vec<String>> {
    let text = fs::read_to_string(root.join("crates.txt")).unwrap_or_default();
    let lines = text.lines().filter_map(|l| l.split('#').next().unwrap_or_default().split_once(':'));
    // a word behind the name says what kind of library it is
    let name = |head: &str| head.split_whitespace().next().unwrap_or_default().to_string();
    lines.map(|(head, deps)| (name(head), deps.split_whitespace().map(str::to_string).collect())).collect()
}

#[derive(Default)]
struct Tally {
    passed: AtomicUsize,
    failed: AtomicUsize,
}

impl Tally {
    fn pass(&self, line: &str) {
        self.passed.fetch_add(1, Ordering::Relaxed);
        println!("{line}");
    }

    fn fail(&self, line: &str) {
        self.failed.fetch_add(1, Ordering::Relaxed);
        println!("FAILED {line}");
    }
}

fn main() -> ExitCode {
    let words: Vec<String> = std::env::args().skip(1).collect();
    let root = std::env::current_dir().expect("a folder to work in");
    let Some(wanted) = wanted(&words) else {
        eprintln!("{USAGE}");
        return ExitCode::from(2);
    };
    let tally = Tally::default();
    if let Err(why) = work(&root, &wanted, &tally) {
        tally.fail(&why);
    }
    let (passed, failed) = (tally.passed.into_inner(), tally.failed.into_inner());
    if !wanted.list {
        println!("{passed} passed, {failed} failed");
    }
    ExitCode::from(u8::from(failed > 0))
}

fn work(root: &Path, wanted: &Wanted, tally: &Tally) -> Result<(), String> {
    let crates = crates_in(root);
    let names: Vec<String> = crates.keys().cloned().collect();
    let named = |of: &str, label: &str| wanted.names.is_empty() || wanted.names.iter().any(|n| n == of || *n == format!("{of}/{label}"));

    let (edits, faults) = edit::all(root, &names);
    let laws = laws::read(root, &crates);
    let list = fs::read_to_string(root.join("edits/laws")).map_err(|e| format!("edits/laws: {e}"))?;
    let equal = mutants::equal(&fs::read_to_string(root.join("edits/equal")).map_err(|e| format!("edits/equal: {e}"))?)?;
    let (count, missing) = laws.faults(&list, &edits);
    if wanted.names.is_empty() && !wanted.list {
        faults.iter().chain(&missing).for_each(|fault| tally.fail(fault));
        strays(root, &names).iter().for_each(|fault| tally.fail(fault));
        equal.iter().filter_map(|e| e.fault(root)).for_each(|fault| tally.fail(&fault));
        tally.pass(&format!("{count} laws have an edit of their own, of {} edits", edits.len()));
    }
    if wanted.fails {
        let edits: Vec<Edit> = edits.into_iter().filter(|e| named(&e.of, &e.label) && (wanted.roots || !e.laws.is_empty())).collect();
        return try_fails(root, &names, &edits, &laws, wanted.roots, tally);
    }
    let mut mutants: BTreeMap<String, Vec<Mutant>> = BTreeMap::new();
    for of in names.iter().filter(|of| wanted.mutants && named(of, "") && !(wanted.names.is_empty() && unpromised(root, of))) {
        let drawn = mutants::drawn(root, of, &wanted.file, wanted.specs, wanted.seed);
        let known = |m: &Mutant| equal.iter().any(|e| e.is(m));
        let left: Vec<Mutant> = drawn.into_iter().filter(|m| !known(m)).collect();
        // a crate of definitions and laws alone has no code to change
        if !left.is_empty() {
            mutants.insert(of.clone(), left);
        }
    }
    if wanted.list {
        mutants.values().for_each(|all| all.iter().take(wanted.count).for_each(|m| println!("{}", m.label())));
        return Ok(());
    }
    if mutants.is_empty() {
        return Ok(());
    }
    try_mutants(root, &names, mutants, wanted.count, tally)
}

fn cores() -> usize {
    let set = std::env::var("JOBS").ok().and_then(|j| j.parse().ok());
    set.unwrap_or_else(|| std::thread::available_parallelism().map_or(1, |n| n.get())).max(1)
}

/// Folders of edits that rt does not read: what lies in edits/ beside the tool, and in the folder of a crate that
/// crates.txt does not list.
fn strays(root: &Path, names: &[String]) -> Vec<String> {
    let folders = |at: PathBuf| fs::read_dir(at).into_iter().flatten().flatten().map(|e| e.path()).filter(|p| p.is_dir());
    let name = |p: &PathBuf| p.file_name().unwrap_or_default().to_string_lossy().to_string();
    let own = folders(root.join("edits")).map(|p| format!("edits/{}", name(&p))).filter(|f| f != "edits/tool");
    let of = folders(root.join("crates")).filter(|p| p.join("must-fail").is_dir() && !names.contains(&name(p)));
    own.chain(of.map(|p| format!("crates/{}/must-fail", name(&p)))).map(|f| format!("{f}: rt reads no edits there")).collect()
}

/// A program that only runs the routines of a library on requests promises nothing of its own: mutants of it say
/// nothing of a proof, and its answers are compared with the second program's.
fn unpromised(root: &Path, of: &str) -> bool {
    !root.join("crates").join(of).join("specs").is_dir()
}

/// The edits of laws, each in a room of its own: whether only the proofs fail by themselves that they name. What an
/// earlier run found so is not tried again, but where what fails is to be shown.
fn try_fails(root: &Path, names: &[String], edits: &[Edit], laws: &laws::Laws, show: bool, tally: &Tally) -> Result<(), String> {
    let kept = Kept::new(root, names);
    let (known, new): (Vec<Edit>, Vec<Edit>) = edits.iter().cloned().partition(|e| !show && kept.has(e));
    known.iter().for_each(|e| tally.pass(&format!("{}/{}: refused by its law alone, as an earlier run found", e.of, e.label)));
    let used: Vec<String> = names.iter().filter(|of| new.iter().any(|e| e.of == **of)).cloned().collect();
    if used.is_empty() {
        return Ok(());
    }
    let rooms = Rooms::new(root, names, cores())?;
    rooms.prove(&used)?;
    let began = Instant::now();
    rooms.each(&new, |room, edit| {
        let began = Instant::now();
        let verdict = checked(root, room, &edit.of, &edit.texts);
        if judge_edit(edit, verdict, laws, show, began.elapsed().as_secs_f64(), tally) {
            kept.keep(edit);
        }
    });
    println!("{} edits tried ({:.0} s)", new.len(), began.elapsed().as_secs_f64());
    Ok(())
}

/// Tells what became of an edit, and whether its laws alone refuse it.
fn judge_edit(edit: &Edit, verdict: Verdict, laws: &laws::Laws, show: bool, took: f64, tally: &Tally) -> bool {
    let name = format!("{}/{}", edit.of, edit.label);
    if let (true, Verdict::Refused { roots, functions }) = (show, &verdict) {
        roots.iter().for_each(|f| {
            let place = f.proof.as_ref().map_or(format!("{} {}", f.file, f.declaration), |p| format!("{p}/Answers.antt"));
            println!("{name}: fails: {place}: {}", f.line);
        });
        functions.iter().for_each(|f| println!("{name}: fn {f} is not proved"));
    }
    match verdict {
        Verdict::Refused { roots, functions } => match laws.alone(edit, &roots, &functions) {
            Ok(()) => {
                let by: Vec<String> = edit.laws.iter().map(|l| format!(" by {}.{}", l.record, l.field)).collect();
                tally.pass(&format!("{name}: refused{} ({took:.1} s)", by.join(" and")));
                return true;
            }
            Err(why) => tally.fail(&format!("{name}: not refused by its law alone: {why}")),
        },
        Verdict::Survives => tally.fail(&format!("{name}: NOT REFUSED: the crate is still proved with this edit")),
        Verdict::NotBuilt(line) => tally.fail(&format!("{name}: it does not compile: {line}")),
        Verdict::Shape(line) => tally.fail(&format!("{name}: refused for its shape only, which shows nothing: {line}")),
        Verdict::Limit(line) | Verdict::Unclear(line) => tally.fail(&format!("{name}: the prover could not tell: {line}")),
    }
    false
}

/// So many mutants of each crate that were refused for a fact or survived. Those that don't compile, that don't fit the
/// proofs, or that meet a limit of the prover say nothing, and the next ones of the crate are taken instead.
fn try_mutants(root: &Path, names: &[String], mutants: BTreeMap<String, Vec<Mutant>>, count: usize, tally: &Tally) -> Result<(), String> {
    let began = Instant::now();
    let rooms = Rooms::new(root, names, 1)?;
    // whatever may be tried is marked before the first try, since a change of the text makes rt try all again
    let most = 8 * count;
    rooms.mark(mutants.values().flat_map(|all| all.iter().take(most)))?;
    let mut left: BTreeMap<&String, (usize, VecDeque<&Mutant>)> =
        mutants.iter().map(|(of, all)| (of, (count, all.iter().take(most).collect()))).collect();
    let mut silent: BTreeMap<&String, usize> = mutants.keys().map(|of| (of, 0)).collect();
    loop {
        let next: Vec<Mutant> =
            left.values_mut().flat_map(|(wanted, all)| all.drain(..(*wanted).min(all.len())).cloned().collect::<Vec<_>>()).collect();
        if next.is_empty() {
            break;
        }
        for (mutant, verdict) in next.iter().zip(rooms.must_fail(&next)) {
            match verdict {
                Verdict::NotBuilt(line) | Verdict::Shape(line) | Verdict::Limit(line) => {
                    println!("says nothing: {}: {line}", mutant.label());
                    *silent.get_mut(&mutant.of).expect("its crate") += 1;
                    continue;
                }
                Verdict::Refused { .. } => tally.pass(&format!("mutant refused: {}", mutant.label())),
                Verdict::Survives => tally.fail(&format!("mutant SURVIVES: {}", mutant.label())),
                Verdict::Unclear(line) => tally.fail(&format!("mutant: the prover could not tell: {}: {line}", mutant.label())),
            }
            left.get_mut(&mutant.of).expect("its crate").0 -= 1;
        }
    }
    for (of, (lacking, _)) in left.iter().filter(|(_, (lacking, all))| *lacking > 0 && all.is_empty()) {
        println!("{of}: {lacking} fewer than wanted, as no more are there");
    }
    for (of, n) in silent {
        println!("{of}: {n} more did not compile, or were refused for their shape only");
    }
    println!("mutants tried ({:.0} s)", began.elapsed().as_secs_f64());
    Ok(())
}

#[cfg(test)]
mod tests {
    use super::*;

    #[test]
    fn crates_of_a_list() {
        let root = std::env::temp_dir().join(format!("edits-crates-{}", std::process::id()));
        fs::create_dir_all(&root).unwrap();
        fs::write(root.join("crates.txt"), "# all\nlow:\nmid staticlib: low std # why\n").unwrap();
        let crates = crates_in(&root);
        fs::remove_dir_all(&root).unwrap();
        assert_eq!(crates, BTreeMap::from([("low".into(), vec![]), ("mid".into(), vec!["low".into(), "std".into()])]));
    }
}
