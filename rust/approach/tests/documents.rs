//! What the documents show and name is there.
use std::collections::BTreeSet;
use std::fs;
use std::path::Path;

const README: &str = include_str!("../../../README.md");
const PROMISES: &str = include_str!("../../../docs/PROMISES.md");
const PAPERS: &str = include_str!("../../../docs/PAPERS.md");
const DECISIONS: &str = include_str!("../../../docs/DECISIONS.md");
const ROOT: &str = concat!(env!("CARGO_MANIFEST_DIR"), "/../..");

/// What stands between backquotes in a line.
fn quoted(line: &str) -> impl Iterator<Item = &str> {
    line.split('`').skip(1).step_by(2)
}

/// Each file that the README shows, in a block of its own.
#[test]
fn files_shown() {
    for (kind, file) in [
        ("c", include_str!("../../../c/example.c")),
        ("text", include_str!("../examples/makers-table.txt")),
        ("text", include_str!("../examples/makers-table.out")),
        ("text", include_str!("../examples/walk.out")),
        ("text", include_str!("../../../crates/approach_sheet/stdout")),
    ] {
        assert!(README.contains(&format!("```{kind}\n{file}```\n")), "{file}");
    }
}

/// README's map has every crate, in the order of crates.txt.
#[test]
fn crates_named() {
    let listed =
        include_str!("../../../crates.txt").lines().filter_map(|line| line.split_once(':')?.0.split(' ').next());
    let listed: Vec<&str> = listed.filter(|name| !name.starts_with('#')).collect();
    let (_, map) = README.split_once("**Arithmetic**").expect("the map");
    let named: Vec<&str> = map.lines().flat_map(quoted).filter(|word| listed.contains(word)).collect();
    assert_eq!(named, listed);
}

/// `*` stands for any name, and what `make` makes is not there yet.
fn is_path(word: &str) -> bool {
    ["crates/", "docs/", "rust/", "include/", "c/", "tools/"].iter().any(|top| word.starts_with(top))
        && !word.contains(['*', ' '])
}

#[test]
fn paths_named() {
    let lines = [README, PROMISES, PAPERS, DECISIONS].into_iter().flat_map(str::lines);
    let paths: Vec<&str> = lines.flat_map(quoted).filter(|word| is_path(word)).collect();
    assert!(paths.len() > 350, "{}", paths.len());
    for path in paths {
        assert!(Path::new(ROOT).join(path).exists(), "{path}");
    }
}

/// Names behind a file of Rattle or antt, up to the next cell, are in that file.
#[test]
fn definitions_named() {
    let mut names = 0;
    for cell in PAPERS.lines().flat_map(|line| line.split(" | ")) {
        let mut file: Option<(&str, String)> = None;
        for word in quoted(cell) {
            if is_path(word) {
                let is_source = word.ends_with(".antt") || word.ends_with(".rt");
                file = is_source.then(|| (word, fs::read_to_string(Path::new(ROOT).join(word)).expect(word)));
            } else if let Some((path, text)) = &file {
                assert!(text.contains(word), "{word} is not in {path}");
                names += 1;
            }
        }
    }
    assert!(names > 250, "{names}");
}

/// The must-fail edits of all crates, as `crate/edit`.
fn edits() -> BTreeSet<(String, String)> {
    let names = |folder: &Path| -> Vec<String> {
        let Ok(entries) = fs::read_dir(folder) else { return Vec::new() };
        entries.map(|entry| entry.expect("an entry").file_name().into_string().expect("a name")).collect()
    };
    let crates = Path::new(ROOT).join("crates");
    let of_crate = |name: String| {
        let files = names(&crates.join(&name).join("must-fail"));
        files.into_iter().map(move |file| (name.clone(), file.trim_end_matches(".edit").to_owned()))
    };
    names(&crates).into_iter().flat_map(of_crate).collect()
}

/// The edits that the promises name. In a column "Refused" every word is one; without its crate it is of the crate before it in
/// the cell, or of the first that the heading names.
fn named_edits(crates: &BTreeSet<String>) -> BTreeSet<(String, String)> {
    let (mut named, mut heading, mut refused) = (BTreeSet::new(), None, false);
    for line in PROMISES.lines() {
        if line.starts_with('#') {
            heading = quoted(line).find_map(|word| word.strip_prefix("crates/"));
        }
        refused = line.starts_with('|') && (refused || line.ends_with(" Refused |"));
        let mut of = heading.filter(|_| refused);
        for word in quoted(line.rsplit(" | ").next().expect("a cell")) {
            let whole = word.split_once('/').filter(|(name, _)| crates.contains(*name));
            of = whole.map(|(name, _)| name).or(of);
            let edit = whole.map_or(word, |(_, edit)| edit);
            named.extend(of.map(|name| (name.to_owned(), edit.to_owned())));
        }
    }
    named
}

/// Each wrong program that a promise names is there, and each that is there is named.
#[test]
fn wrong_programs_named() {
    let edits = edits();
    let crates = edits.iter().map(|(name, _)| name.clone()).collect();
    let named = named_edits(&crates);
    assert!(edits.len() > 200, "{}", edits.len());
    let missing: Vec<_> = named.difference(&edits).collect();
    assert!(missing.is_empty(), "named in docs/PROMISES.md and not there: {missing:?}");
    let unnamed: Vec<_> = edits.difference(&named).collect();
    assert!(unnamed.is_empty(), "not named in docs/PROMISES.md: {unnamed:?}");
}
