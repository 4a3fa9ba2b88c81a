//! Writes one copy of the plain judge for each mutant, with that mutant's edit made in it.
//!
//! So the plain judge itself holds no switch and pays for none. An edit whose text doesn't stand exactly once in
//! the judge stops the build: a mutant can't silently become the right judge.

include!("src/edits.rs");

use std::path::Path;

/// The judge's files besides lib.rs, each with those of them that it uses.
const MODULES: [(&str, &[&str]); 7] = [
    ("bundle", &[]),
    ("text", &[]),
    ("report", &[]),
    ("sound", &["bundle"]),
    ("common", &["bundle", "text"]),
    ("openssl", &["bundle", "text", "report", "common"]),
    ("chrome", &["bundle", "text", "report", "common"]),
];

fn main() {
    let judge = Path::new(env!("CARGO_MANIFEST_DIR")).join("../plain/src");
    println!("cargo::rerun-if-changed={}", judge.display());
    println!("cargo::rerun-if-changed=src/edits.rs");
    let mut copies = module("", "base", &copy(&judge, None));
    let mut table = String::from("pub const MUTANTS: &[Mutant] = &[\n");
    for (at, edit) in EDITS.iter().enumerate() {
        let name = format!("mutant_{}", at + 1);
        copies += &module("", &name, &copy(&judge, Some(edit)));
        table += &format!(
            "Mutant {{ name: {:?}, judge_openssl: {name}::judge_openssl, judge_chrome: {name}::judge_chrome }},\n",
            edit.name
        );
    }
    let out = std::env::var("OUT_DIR").expect("cargo sets it");
    std::fs::write(Path::new(&out).join("mutants.rs"), copies + &table + "];\n").expect("the folder can be written");
}

/// A copy is private, so that of its public functions only the two judges are compiled.
fn module(visibility: &str, name: &str, inside: &str) -> String {
    format!("#[allow(warnings)]\n{visibility} mod {name} {{\n{inside}\n}}\n")
}

/// The judge as one module. Files that the edit can't reach aren't copied again: they are taken from `base`.
fn copy(judge: &Path, edit: Option<&Edit>) -> String {
    let mut whole = source(judge, "lib", edit);
    for (name, uses) in MODULES {
        let copied = edit.is_none_or(|edit| reaches(edit.file, name, uses));
        let inside = if copied {
            module("pub", name, &source(judge, name, edit).replace("crate::", "super::"))
        } else {
            format!("use super::base::{name};")
        };
        whole = whole.replace(&format!("mod {name};"), &inside);
    }
    whole
}

/// Whether a change of one file changes what another means.
fn reaches(changed: &str, name: &str, uses: &[&str]) -> bool {
    name == changed || uses.contains(&changed)
}

fn source(judge: &Path, file: &str, edit: Option<&Edit>) -> String {
    let text = std::fs::read_to_string(judge.join(file).with_extension("rs")).expect("the judge's files can be read");
    let Some(edit) = edit.filter(|edit| edit.file == file) else {
        return text;
    };
    let times = text.matches(edit.right).count();
    assert_eq!(times, 1, "mutant \"{}\": its text stands {times} times in {file}.rs", edit.name);
    text.replace(edit.right, edit.wrong)
}
