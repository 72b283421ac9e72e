//! No two files import each other, and no more of them in a ring.

use std::collections::{BTreeMap, BTreeSet};
use std::path::Path;

/// The texts of the program's files, each under its path as `crate::folder::file`; a folder's
/// own file is `crate::folder`.
fn files() -> BTreeMap<String, String> {
    let root = Path::new(env!("CARGO_MANIFEST_DIR")).join("src");
    let mut files = BTreeMap::new();
    let mut folders = vec![root.clone()];
    while let Some(folder) = folders.pop() {
        for entry in std::fs::read_dir(folder).expect("a folder") {
            let path = entry.expect("an entry").path();
            if path.is_dir() {
                folders.push(path);
                continue;
            }
            let inside = path.strip_prefix(&root).expect("a file of the program");
            let name = inside.with_extension("").display().to_string();
            let module = format!("crate::{}", name.replace('/', "::"));
            let module = module.trim_end_matches("::mod").to_string();
            files.insert(module, std::fs::read_to_string(path).expect("a text"));
        }
    }
    files
}

/// The files that a file names: in paths from the crate or from its own folder, and a folder's
/// own file in paths to those of the folder.
fn named_by(module: &str, files: &BTreeMap<String, String>) -> BTreeSet<String> {
    let is_folder = files.keys().any(|file| file.starts_with(&format!("{module}::")));
    let folder = match is_folder {
        true => module,
        false => module.rsplit_once("::").map_or(module, |(folder, _)| folder),
    };
    let mut text = files[module].replace("super::", &format!("{folder}::"));
    if is_folder {
        text = text.replace("    ", &format!("{module}::"));
    }
    let paths = text.split("crate::").skip(1).map(|path| {
        let ends = |next: char| !next.is_alphanumeric() && next != '_' && next != ':';
        let path = path.split(ends).next().unwrap_or_default();
        let names: Vec<&str> = path.split("::").take(2).collect();
        format!("crate::{}", names.join("::"))
    });
    let file_of = |path: String| match files.contains_key(&path) {
        true => path,
        false => path.rsplit_once("::").map_or_else(String::new, |(folder, _)| folder.to_string()),
    };
    paths.map(file_of).filter(|file| file != module).collect()
}

#[test]
fn files_import_each_other_in_one_direction_only() {
    let files = files();
    let named = |module: &String| (module.clone(), named_by(module, &files));
    let mut left: BTreeMap<String, BTreeSet<String>> = files.keys().map(named).collect();
    assert!(left["crate::lives::few_keys"].contains("crate::lives::ground"));
    assert!(left["crate::lives"].contains("crate::lives::few_keys"));
    assert!(left["crate::calls::reading"].contains("crate::calls"));
    // What names nothing that is left can go; a ring would stay.
    while let Some(free) =
        left.iter().find(|(_, named)| !named.iter().any(|file| left.contains_key(file)))
    {
        let free = free.0.clone();
        left.remove(&free);
    }
    assert_eq!(left, BTreeMap::new());
}
