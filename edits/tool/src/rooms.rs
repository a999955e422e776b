//! Copies of the repository in which changed crates are checked: by `rt check`, which says all that fails, or by `rt
//! must-fail`, which says whether each is refused, and tries nothing again that it tried before. Both begin with what
//! checks on this machine kept.

use crate::edit::Texts;
use crate::judge::{tried, verdict, Verdict};
use crate::mutants::Mutant;
use std::collections::BTreeMap;
use std::fs;
use std::path::{Path, PathBuf};
use std::process::Command;
use std::sync::Mutex;
use std::time::Instant;

/// A check that takes longer than this many seconds is broken off.
const LONGEST: &str = "1200";

pub struct Rooms {
    top: PathBuf,
    rooms: Vec<PathBuf>,
}

impl Drop for Rooms {
    fn drop(&mut self) {
        let _ = fs::remove_dir_all(&self.top);
    }
}

fn run(command: &mut Command) -> Result<(), String> {
    let done = command.output().map_err(|e| format!("{command:?}: {e}"))?;
    if !done.status.success() {
        return Err(format!("{command:?}: {}", String::from_utf8_lossy(&done.stderr)));
    }
    Ok(())
}

fn copy(from: &Path, to: &Path) -> Result<(), String> {
    fs::create_dir_all(to.parent().unwrap_or(to)).map_err(|e| e.to_string())?;
    run(Command::new("cp").arg("-R").arg(from).arg(to))
}

/// Copies kept work: what is proved by links, since the prover replaces such a file and never writes into it, and the
/// rest as it is.
fn copy_kept(from: &Path, to: &Path) -> std::io::Result<()> {
    fs::create_dir_all(to)?;
    for entry in fs::read_dir(from)? {
        let at = entry?.path();
        let goal = to.join(at.file_name().unwrap_or_default());
        let proved = at.extension().is_some_and(|e| e == "oantt");
        if at.is_dir() {
            copy_kept(&at, &goal)?;
        } else if !proved || fs::hard_link(&at, &goal).is_err() {
            fs::copy(&at, &goal)?;
        }
    }
    Ok(())
}

/// What the prover reads of the repository, as the top of one.
fn copy_sources(root: &Path, crates: &[String], room: &Path) -> Result<(), String> {
    fs::create_dir_all(room.join(".git")).map_err(|e| e.to_string())?;
    for file in ["crates.txt", "HANDLES"] {
        if root.join(file).is_file() {
            copy(&root.join(file), &room.join(file))?;
        }
    }
    for of in crates {
        for part in ["src", "specs", "proofs"] {
            let from = root.join("crates").join(of).join(part);
            if from.is_dir() {
                copy(&from, &room.join("crates").join(of).join(part))?;
            }
        }
    }
    Ok(())
}

/// Where a crate's kept work lies.
fn kept(room: &Path, of: &str) -> PathBuf {
    room.join("crates").join(of).join("out/incremental")
}

/// A command of rt in a folder: its exit status and all that it said.
fn rt(folder: &Path, longest: &str, words: &[&str]) -> (i32, String) {
    match Command::new("timeout").args([longest, "rt"]).args(words).current_dir(folder).output() {
        Ok(done) => {
            let said = String::from_utf8_lossy(&done.stdout) + String::from_utf8_lossy(&done.stderr);
            (done.status.code().unwrap_or(2), said.to_string())
        }
        Err(e) => (2, e.to_string()),
    }
}

impl Rooms {
    /// So many copies of what the prover reads. Their place stays the same from run to run, since rt notes it.
    pub fn new(root: &Path, crates: &[String], count: usize) -> Result<Rooms, String> {
        let name = root.to_string_lossy().replace('/', "-");
        let fixed = std::env::temp_dir().join(format!("edits{name}"));
        let top = match fs::create_dir(&fixed) {
            Ok(()) => fixed,
            Err(_) => fixed.with_file_name(format!("edits{name}-{}", std::process::id())),
        };
        let made = Rooms { rooms: (0..count).map(|i| top.join(i.to_string())).collect(), top };
        for room in &made.rooms {
            copy_sources(root, crates, room)?;
        }
        Ok(made)
    }

    /// Checks crates as they stand, one after another, and gives what that taught the prover to all rooms.
    pub fn prove(&self, crates: &[String]) -> Result<(), String> {
        for of in crates {
            let began = Instant::now();
            let room = &self.rooms[0];
            let (status, said) = rt(&room.join("crates").join(of), LONGEST, &["check"]);
            if verdict(status, &said, &Texts::new()) != Verdict::Survives {
                return Err(format!("{of} is not proved as it stands:\n{}", tail(&said)));
            }
            println!("{of} is proved as it stands ({:.0} s)", began.elapsed().as_secs_f64());
            let proved = self.top.join("proved").join(of);
            copy_kept(&kept(room, of), &proved).map_err(|e| e.to_string())?;
            for room in &self.rooms {
                as_proved(room, of)?;
            }
        }
        Ok(())
    }

    /// Takes each of the tasks once, in a room that is free.
    pub fn each<T: Sync>(&self, tasks: &[T], work: impl Fn(&Path, &T) + Sync) {
        let left = Mutex::new(tasks.iter());
        std::thread::scope(|scope| {
            for room in &self.rooms {
                let (left, work) = (&left, &work);
                scope.spawn(move || loop {
                    let next = left.lock().unwrap().next();
                    let Some(task) = next else { break };
                    work(room, task);
                });
            }
        });
    }

    /// Marks the lines of mutants in the first room, so that each is the only one of its file.
    pub fn mark<'a>(&self, mutants: impl Iterator<Item = &'a Mutant>) -> Result<(), String> {
        for m in mutants {
            let path = self.rooms[0].join("crates").join(&m.of).join(&m.file);
            let text = fs::read_to_string(&path).map_err(|e| format!("{}: {e}", path.display()))?;
            fs::write(&path, m.mark(&text)).map_err(|e| e.to_string())?;
        }
        Ok(())
    }

    /// The verdict of `rt must-fail` on each of some mutants.
    pub fn must_fail(&self, mutants: &[Mutant]) -> Vec<Verdict> {
        let room = &self.rooms[0];
        let mut of: BTreeMap<&str, usize> = BTreeMap::new();
        let mut labels = Vec::new();
        for m in mutants {
            let folder = room.join("crates").join(&m.of).join("must-fail");
            let count = of.entry(&m.of).or_insert_with(|| {
                let _ = fs::remove_dir_all(&folder);
                0
            });
            *count += 1;
            let label = format!("mutant_{count}");
            let written = fs::create_dir_all(&folder).and_then(|()| fs::write(folder.join(format!("{label}.edit")), m.edit()));
            written.expect("a room can be written");
            labels.push((m.of.clone(), label));
        }
        let words: Vec<&str> = std::iter::once("must-fail").chain(of.keys().copied()).collect();
        let (_, said) = rt(room, "36000", &words);
        let mut found: BTreeMap<(String, String), Verdict> = BTreeMap::new();
        found.extend(said.lines().filter_map(tried).map(|(of, label, verdict)| ((of, label), verdict)));
        labels.iter().map(|key| found.remove(key).unwrap_or_else(|| Verdict::Unclear(tail(&said)))).collect()
    }
}

/// Gives a room what the prover learnt of a crate as it stands. What it learns of a changed one it would have to learn
/// anew at the next.
fn as_proved(room: &Path, of: &str) -> Result<(), String> {
    let to = kept(room, of);
    let _ = fs::remove_dir_all(&to);
    copy_kept(&room.with_file_name("proved").join(of), &to).map_err(|e| e.to_string())
}

/// What `rt check` says of a crate with some of its files changed, which are put back.
pub fn checked(root: &Path, room: &Path, of: &str, texts: &Texts) -> Verdict {
    let folder = room.join("crates").join(of);
    for (file, text) in texts {
        fs::write(folder.join(file), text).expect("a room can be written");
    }
    let (status, said) = rt(&folder, LONGEST, &["check"]);
    let source = root.join("crates").join(of);
    // where a function begins, in a file that was changed or not
    let mut whole = texts.clone();
    for path in crate::laws::files(&source.join("src"), "rt") {
        let file = path.strip_prefix(&source).unwrap_or(&path).to_string_lossy().to_string();
        whole.entry(file).or_insert_with(|| fs::read_to_string(&path).unwrap_or_default());
    }
    for file in texts.keys() {
        fs::copy(source.join(file), folder.join(file)).expect("a room can be written");
    }
    as_proved(room, of).expect("a room can be written");
    verdict(status, &said, &whole)
}

fn tail(said: &str) -> String {
    let lines: Vec<&str> = said.lines().collect();
    lines[lines.len().saturating_sub(20)..].join("\n")
}
