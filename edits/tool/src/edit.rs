//! An edit file of a crate's must-fail/: replacements in its files that the prover must refuse, in the form of `rt ci`;
//! and which laws refuse it, where it is one that the code's equations let pass.

use crate::source::proof_of;
use std::collections::BTreeMap;
use std::fs;
use std::path::Path;

/// Files of a crate, by their path in it, with what they are to hold.
pub type Texts = BTreeMap<String, String>;

/// `# law: RECORD.FIELD`
#[derive(Clone, Debug, PartialEq)]
pub struct Law {
    pub record: String,
    pub field: String,
}

#[derive(Clone, Debug)]
pub struct Edit {
    pub of: String,
    pub label: String,
    pub laws: Vec<Law>,
    /// `# fails: FILE [DECLARATION ..]`: where alone a proof may fail by itself
    pub fails: Vec<(String, Vec<String>)>,
    pub texts: Texts,
}

/// The edit in a file's text, applied to the crate in `folder`. Any line that the form doesn't have is an error.
pub fn parse(of: &str, label: &str, text: &str, folder: &Path) -> Result<Edit, String> {
    let mut file = String::new();
    let mut old: Option<String> = None;
    let mut laws = Vec::new();
    let mut fails = Vec::new();
    let mut texts = Texts::new();
    let mut changed = false;
    for line in text.lines() {
        if let Some(name) = line.strip_prefix("# law: ") {
            let (record, field) = name.trim().split_once('.').ok_or(format!("'{line}' names no RECORD.FIELD"))?;
            laws.push(Law { record: record.to_string(), field: field.to_string() });
        } else if let Some(place) = line.strip_prefix("# fails: ") {
            fails.push(place_in(place, folder)?);
        } else if let Some(name) = line.strip_prefix("file: ") {
            file = name.to_string();
            if !(file.starts_with("src/") || file.starts_with("specs/")) || file.contains("..") {
                return Err(format!("{file} is no file of src/ or specs/"));
            }
        } else if let Some(rest) = line.strip_prefix("old: ") {
            old = Some(rest.to_string());
        } else if let Some(rest) = line.strip_prefix("new:") {
            let new = rest.strip_prefix(' ').unwrap_or(rest);
            let was = old.take().ok_or("a 'new:' line stands behind no 'old:' line")?;
            let now = match texts.get(&file) {
                Some(text) => text.clone(),
                None => fs::read_to_string(folder.join(&file)).map_err(|e| format!("{file}: {e}"))?,
            };
            if now.matches(&was).count() != 1 {
                return Err(format!("{file}: '{was}' is there {} times", now.matches(&was).count()));
            }
            changed |= was != new;
            texts.insert(file.clone(), now.replace(&was, new));
        } else if !line.is_empty() && !line.starts_with('#') {
            return Err(format!("'{line}' is no line of an edit"));
        }
    }
    if !changed || old.is_some() {
        return Err("an 'old:' line and a 'new:' line are wanted that differ".to_string());
    }
    if laws.is_empty() != fails.is_empty() {
        return Err("'# law:' goes with '# fails:'".to_string());
    }
    Ok(Edit { of: of.to_string(), label: label.to_string(), laws, fails, texts })
}

/// `FILE [DECLARATION ..]`. A function's own proof, which may be in no file, is named by its Answers.antt alone.
fn place_in(place: &str, folder: &Path) -> Result<(String, Vec<String>), String> {
    let mut words = place.split_whitespace().map(str::to_string);
    let file = words.next().ok_or("a '# fails:' line names no file")?;
    let names: Vec<String> = words.collect();
    if proof_of(&file).is_some() {
        return match names.first() {
            Some(name) => Err(format!("a '# fails:' line names {name} of a function's own proof, which counts as one")),
            None => Ok((file, names)),
        };
    }
    if !file.starts_with("proofs/") || !folder.join(&file).is_file() {
        return Err(format!("a '# fails:' line names {file}, which is not there"));
    }
    Ok((file, names))
}

/// All edits in `crates/CRATE/must-fail/*.edit`, by name; and what is wrong with those that can't be applied.
pub fn all(root: &Path, crates: &[String]) -> (Vec<Edit>, Vec<String>) {
    let (mut edits, mut faults) = (Vec::new(), Vec::new());
    for of in crates {
        let folder = root.join("crates").join(of);
        let Ok(entries) = fs::read_dir(folder.join("must-fail")) else {
            continue;
        };
        let mut paths: Vec<_> = entries.flatten().map(|e| e.path()).collect();
        paths.sort();
        for path in paths {
            let label = path.file_stem().unwrap_or_default().to_string_lossy().to_string();
            if path.extension().is_none_or(|e| e != "edit") {
                faults.push(format!("{of}/{label}: no .edit file"));
                continue;
            }
            let text = fs::read_to_string(&path).unwrap_or_default();
            match parse(of, &label, &text, &folder) {
                Ok(edit) => edits.push(edit),
                Err(why) => faults.push(format!("{of}/{label}: BAD EDIT: {why}")),
            }
        }
    }
    (edits, faults)
}

#[cfg(test)]
mod tests {
    use super::*;

    /// A crate's folder, which goes when its test ends.
    struct Folder(std::path::PathBuf);

    impl Drop for Folder {
        fn drop(&mut self) {
            let _ = fs::remove_dir_all(&self.0);
        }
    }

    fn folder(name: &str) -> Folder {
        let at = Folder(std::env::temp_dir().join(format!("edits-test-{}-{name}", std::process::id())));
        fs::create_dir_all(at.0.join("src")).unwrap();
        fs::create_dir_all(at.0.join("proofs")).unwrap();
        fs::write(at.0.join("src/lib.rt"), "a = 1;\nb = 1;\n").unwrap();
        fs::write(at.0.join("proofs/Laws.antt"), "").unwrap();
        at
    }

    #[test]
    fn pairs_apply_one_after_another() {
        let at = folder("pairs");
        let text = "# why\nfile: src/lib.rt\nold: a = 1;\nnew: a = 2;\nold: b = 1\nnew: b = 3\n";
        let edit = parse("c", "l", text, &at.0).unwrap();
        assert_eq!(edit.texts, Texts::from([("src/lib.rt".to_string(), "a = 2;\nb = 3;\n".to_string())]));
        assert!(edit.laws.is_empty());
    }

    #[test]
    fn laws_and_where_proofs_may_fail() {
        let at = folder("laws");
        let text = |fails: &str| format!("# law: A.b\n# fails: {fails}\nfile: src/lib.rt\nold: a = 1;\nnew: a = 2;\n");
        let edit = parse("c", "l", &text("proofs/Laws.antt b c"), &at.0).unwrap();
        assert_eq!(edit.laws, [Law { record: "A".into(), field: "b".into() }]);
        assert_eq!(edit.fails, [("proofs/Laws.antt".into(), vec!["b".into(), "c".into()])]);
        assert_eq!(parse("c", "l", &text("proofs/f/Answers.antt"), &at.0).unwrap().fails.len(), 1);
        assert!(parse("c", "l", &text("proofs/f/Answers.antt returns"), &at.0).is_err());
        assert!(parse("c", "l", &text("proofs/None.antt"), &at.0).is_err());
    }

    #[test]
    fn what_does_not_apply_is_refused() {
        let at = folder("refused");
        for text in [
            "",
            "file: src/lib.rt\nold: c\nnew: d\n",
            "file: src/lib.rt\nold: = 1;\nnew: = 2;\n",
            "file: src/lib.rt\nold: a = 1;\nnew: a = 1;\n",
            "file: proofs/lib.antt\nold: a\nnew: b\n",
            "file: src/lib.rt\nold: a = 1;\n",
            "file: src/lib.rt\nafter: a = 1;\nold: = 1;\nnew: = 2;\n",
            "file: src/lib.rt\nold: a = 1;\nnew: a = 2;\nlore: x\n",
            "law: A.b\n# fails: proofs/Laws.antt\nfile: src/lib.rt\nold: a = 1;\nnew: a = 2;\n",
            "# law: A.b\nfile: src/lib.rt\nold: a = 1;\nnew: a = 2;\n",
        ] {
            assert!(parse("c", "l", text, &at.0).is_err(), "{text}");
        }
    }
}
