//! Which edits of laws an earlier run on this machine found refused by their laws alone. A note's name is the sum of all
//! that the finding stands on, so it never goes stale; what was not found so is tried again.

use crate::edit::Edit;
use std::collections::hash_map::DefaultHasher;
use std::fs;
use std::hash::{Hash, Hasher};
use std::path::{Path, PathBuf};
use std::process::Command;

/// The sources that judge an edit.
const JUDGES: [&str; 6] = [
    include_str!("main.rs"),
    include_str!("edit.rs"),
    include_str!("judge.rs"),
    include_str!("laws.rs"),
    include_str!("rooms.rs"),
    include_str!("source.rs"),
];

pub struct Kept {
    folder: Option<PathBuf>,
    ground: u64,
}

impl Kept {
    /// Notes in the user's cache, over the crates as they stand. Without such a place nothing is kept.
    pub fn new(root: &Path, crates: &[String]) -> Kept {
        let home = |name: &str, below: &str| std::env::var(name).ok().filter(|at| !at.is_empty()).map(|at| Path::new(&at).join(below));
        let folder = home("XDG_CACHE_HOME", "cd-recorder-edits").or_else(|| home("HOME", ".cache/cd-recorder-edits"));
        let folder = folder.filter(|at| fs::create_dir_all(at).is_ok());
        Kept { folder, ground: ground(root, crates) }
    }

    /// Whether the edit was found refused by its laws alone.
    pub fn has(&self, edit: &Edit) -> bool {
        self.note(edit).is_some_and(|note| note.is_file())
    }

    /// Notes that it was.
    pub fn keep(&self, edit: &Edit) {
        if let Some(note) = self.note(edit) {
            // where it can't be written the edit is tried again
            let _ = fs::write(note, format!("{}/{}\n", edit.of, edit.label));
        }
    }

    fn note(&self, edit: &Edit) -> Option<PathBuf> {
        let name = |salt: u8| {
            let mut sum = DefaultHasher::new();
            (salt, self.ground, &edit.of, &edit.label, format!("{:?} {:?}", edit.laws, edit.fails), &edit.texts).hash(&mut sum);
            sum.finish()
        };
        Some(self.folder.as_ref()?.join(format!("{:016x}{:016x}", name(0), name(1))))
    }
}

/// The sum of the kit's identity, of what judges an edit, and of all that the prover reads.
fn ground(root: &Path, crates: &[String]) -> u64 {
    let mut sum = DefaultHasher::new();
    let version = Command::new("rt").arg("version").output().map(|done| done.stdout);
    version.unwrap_or_default().hash(&mut sum);
    JUDGES.hash(&mut sum);
    fs::read(root.join("crates.txt")).unwrap_or_default().hash(&mut sum);
    for of in crates {
        for part in ["src", "specs", "proofs"] {
            for end in ["rt", "antt"] {
                let mut files = crate::laws::files(&root.join("crates").join(of).join(part), end);
                files.sort();
                for file in files {
                    (file.strip_prefix(root).ok(), fs::read(&file).unwrap_or_default()).hash(&mut sum);
                }
            }
        }
    }
    sum.finish()
}

#[cfg(test)]
mod tests {
    use super::*;
    use std::collections::BTreeMap;

    #[test]
    fn a_change_is_no_longer_known() {
        let root = std::env::temp_dir().join(format!("edits-kept-{}", std::process::id()));
        fs::create_dir_all(root.join("crates/low/src")).unwrap();
        fs::create_dir_all(root.join("notes")).unwrap();
        fs::write(root.join("crates/low/src/lib.rt"), "fn f() {}\n").unwrap();
        let low = ["low".to_string()];
        let kept = |root: &Path| Kept { folder: Some(root.join("notes")), ground: ground(root, &low) };
        let edit = |text: &str| Edit {
            of: "low".into(),
            label: "law_f".into(),
            laws: vec![],
            fails: vec![],
            texts: BTreeMap::from([("src/lib.rt".to_string(), text.to_string())]),
        };
        let first = kept(&root);
        assert!(!first.has(&edit("a")));
        first.keep(&edit("a"));
        assert!(kept(&root).has(&edit("a")) && !kept(&root).has(&edit("b")));
        fs::write(root.join("crates/low/src/lib.rt"), "fn g() {}\n").unwrap();
        assert!(!kept(&root).has(&edit("a")));
        fs::remove_dir_all(&root).unwrap();
    }
}
