//! The stored inputs of tests/plan, tests/explain and tests/plan_tree: the outputs stored for them are what this
//! implementation prints.

use reference::{explanations, program, tree_program};
use std::fs;
use std::path::{Path, PathBuf};

/// The folder of this name beside this crate.
fn folder(name: &str) -> PathBuf {
    Path::new(env!("CARGO_MANIFEST_DIR")).join("..").join(name)
}

/// Name and content of each stored input of a folder.
fn inputs(name: &str) -> Vec<(String, Vec<u8>)> {
    let files = fs::read_dir(folder(name)).unwrap().map(|entry| entry.unwrap().path());
    let inputs = files.filter(|path| path.extension().is_some_and(|extension| extension == "in"));
    inputs.map(|path| (path.file_stem().unwrap().to_str().unwrap().to_string(), fs::read(path).unwrap())).collect()
}

fn output(name: &str, input: &str) -> Vec<u8> {
    let path = folder(name).join(input).with_extension("out");
    fs::read(&path).unwrap_or_else(|error| panic!("{}: {error}", path.display()))
}

#[test]
fn plans() {
    let inputs = inputs("plan");
    assert!(!inputs.is_empty());
    for (name, input) in inputs {
        assert!(program(&input) == output("plan", &name), "{name}");
    }
}

/// Those of tests/plan have outputs of both programs.
#[test]
fn lines() {
    let (shared, own) = (inputs("plan"), inputs("explain"));
    assert!(!own.is_empty() && own.iter().all(|(name, _)| shared.iter().all(|(other, _)| name != other)));
    for (name, input) in shared.into_iter().chain(own) {
        assert!(explanations(&input) == output("explain", &name), "{name}");
    }
}

/// The arguments stand in a file of their own, on one line with spaces between; `''` is an empty one.
#[test]
fn trees() {
    let inputs = inputs("plan_tree");
    assert!(!inputs.is_empty());
    for (name, input) in inputs {
        let line = fs::read_to_string(folder("plan_tree").join(&name).with_extension("args")).unwrap();
        let words = line.split_ascii_whitespace().map(|word| if word == "''" { "" } else { word });
        let arguments: Vec<&[u8]> = words.map(str::as_bytes).collect();
        assert!(tree_program(&arguments, &input) == output("plan_tree", &name), "{name}");
    }
}
