//! What the documents say of names, files and lengths.

use documents::sources::Sources;
use documents::{DOCUMENTS, cited, root, table, text, words};
use std::collections::BTreeSet;
use std::fmt::Debug;
use std::fs;

/// Names of C, libc and the kit, which no source of the repository declares.
const ELSEWHERE: [&str; 4] = ["rattle_arg", "rattle_errno", "rattle_set_errno", "uint32_t"];

#[test]
fn every_document_is_looked_at() {
    let outside_docs = ["README.md", "bindings/rust/README.md"];
    let mut there: BTreeSet<String> = outside_docs.map(str::to_string).into();
    for folder in ["docs", "docs/landings"] {
        for entry in fs::read_dir(root().join(folder)).expect("a folder") {
            let name = entry
                .expect("an entry")
                .file_name()
                .into_string()
                .expect("a name");
            // A page on what changed names what is not there any more.
            let on_changes = ["PORT.md", "DESIGN-PASS.md", "LOOK-BACK.md"].contains(&name.as_str())
                || name.starts_with(|c: char| c.is_ascii_digit());
            if name.ends_with(".md") && !on_changes {
                there.insert(format!("{folder}/{name}"));
            }
        }
    }
    assert_eq!(there, DOCUMENTS.map(str::to_string).into());
}

/// What the documents cite and is not there, of at least so many.
fn missing<T: Debug>(
    cite: fn(&str) -> BTreeSet<T>,
    least: usize,
    there: impl Fn(&T) -> bool,
) -> Vec<String> {
    let mut count = 0;
    let mut missing = Vec::new();
    for document in DOCUMENTS {
        for cited in cite(&text(document)) {
            count += 1;
            if !there(&cited) {
                missing.push(format!("{document}: {cited:?}"));
            }
        }
    }
    assert!(count >= least, "only {count}");
    missing
}

const NONE: [&str; 0] = [];

#[test]
fn every_file_of_definitions_that_is_cited_is_there() {
    let sources = Sources::new();
    assert_eq!(
        missing(cited::files, 150, |file| sources.files.contains(file)),
        NONE
    );
}

#[test]
fn every_path_that_is_cited_is_there() {
    assert_eq!(
        missing(cited::paths, 20, |path| root().join(path).exists()),
        NONE
    );
}

/// A path of modules may start at a module of the crate at hand.
#[test]
fn every_item_of_code_that_is_cited_is_there() {
    let sources = Sources::new();
    let there = |path: &Vec<String>| match sources.crates.get(&path[0]) {
        Some(names) => path[1..].iter().all(|part| names.contains(part)),
        None => path.iter().all(|part| sources.has(part)),
    };
    assert_eq!(missing(cited::items, 50, there), NONE);
}

#[test]
fn every_word_that_can_only_be_a_name_is_one() {
    let sources = Sources::new();
    let there = |name: &String| sources.has(name) || ELSEWHERE.contains(&name.as_str());
    assert_eq!(missing(cited::names, 300, there), NONE);
}

#[test]
fn every_crate_has_a_place_in_the_architecture() {
    let sources = Sources::new();
    let document = text("docs/ARCHITECTURE.md");
    let named = words(&document, "## What is where");
    for name in sources.crates.keys() {
        let group = named.iter().filter_map(|word| word.strip_suffix('*'));
        let there = named.contains(&name.as_str())
            || group.into_iter().any(|start| name.starts_with(start));
        assert!(there, "{name}");
    }
}

#[test]
fn every_word_of_the_table_of_names_is_declared() {
    let sources = Sources::new();
    let document = text("docs/READING.md");
    let words = words(&document, "## Names");
    assert!(words.len() > 100, "{} words", words.len());
    // Letters of document 01 and words of texts, which stand for themselves.
    let letters = |word: &&str| word.len() < 3 || word.chars().all(|c| c.is_ascii_uppercase());
    let unknown: Vec<&str> = words
        .into_iter()
        .filter(|word| !letters(word) && !word.contains("::") && !sources.has(word))
        .collect();
    assert_eq!(unknown, NONE);
}

#[test]
fn the_readme_is_short() {
    assert!(text("README.md").lines().count() <= 150);
}

/// A step of the order of reading: its number, the files and the lines that it is said to have.
type Step = (usize, BTreeSet<(String, String)>, usize);

fn steps(document: &str) -> Vec<Step> {
    let table = table(document, "| step | what it says | files | lines |");
    let rows = table.lines().filter_map(|line| line.strip_prefix("| "));
    rows.map(|row| {
        let cells: Vec<&str> = row.trim_end_matches(" |").split(" | ").collect();
        let [title, _, files, lines] = cells[..] else {
            panic!("cells of {row}");
        };
        let (number, _) = title.split_once(". ").expect("a number");
        (
            number.parse().expect("a number"),
            cited::files(files),
            lines.parse().expect("a number"),
        )
    })
    .collect()
}

/// A file stands in `proofs` where what it rests on is a definition that an edit changes.
fn definitions((owner, file): &(String, String)) -> String {
    let part = |part| format!("crates/{owner}/{part}/{file}.antt");
    match root().join(part("specs")).exists() {
        true => text(&part("specs")),
        false => text(&part("proofs")),
    }
}

#[test]
fn the_order_of_reading_is_as_long_as_it_says() {
    let document = text("docs/READING.md");
    let mut total = 0;
    let steps = steps(&document);
    let numbers: Vec<usize> = steps.iter().map(|(number, _, _)| *number).collect();
    assert_eq!(numbers, (1..=13).collect::<Vec<_>>());
    for (number, files, said) in steps {
        let lines: usize = files
            .iter()
            .map(|file| definitions(file).lines().count())
            .sum();
        assert!(
            lines > 0 && lines.abs_diff(said) * 10 <= lines,
            "step {number}: {lines} lines"
        );
        total += lines;
    }
    let said = document
        .split(" lines, ")
        .next()
        .and_then(|text| text.rsplit(' ').next());
    let said: usize = said
        .expect("a total")
        .replace(',', "")
        .parse()
        .expect("a number");
    assert!(total.abs_diff(said) * 10 <= total, "{total} lines");
}

/// What a definition to be believed rests on is a step of the reading too, laws apart. What a promise rests on is named in the
/// document.
#[test]
fn the_order_of_reading_leaves_no_definition_out() {
    let document = text("docs/READING.md");
    let named = cited::files(&document);
    let steps = steps(&document);
    let listed: BTreeSet<(String, String)> = steps
        .iter()
        .flat_map(|(_, files, _)| files.clone())
        .collect();
    let sources = Sources::new();
    let mut left_out = BTreeSet::new();
    for file in &listed {
        for used in cited::imports(&definitions(file)) {
            let there = match file.0.as_str() {
                "promises" => named.contains(&used),
                _ => used.1.ends_with("Laws") || listed.contains(&used),
            };
            // The kit's own files are none of the repository's.
            if !there && sources.crates.contains_key(&used.0) {
                left_out.insert((file.clone(), used));
            }
        }
    }
    assert!(left_out.is_empty(), "{left_out:#?}");
}

#[test]
fn what_is_not_there_is_found() {
    let sources = Sources::new();
    let wrong =
        "`text`: Parts, NoSuchFile; `drawing::no_such_item`; `noSuchName`; `docs/NOWHERE.md`";
    let files = cited::files(wrong);
    let missing: Vec<_> = files.difference(&sources.files).collect();
    assert_eq!(missing, [&("text".to_string(), "NoSuchFile".to_string())]);
    let items = cited::items(wrong);
    assert_eq!(
        items,
        BTreeSet::from([vec!["drawing".to_string(), "no_such_item".to_string()]])
    );
    assert!(!sources.crates["drawing"].contains("no_such_item"));
    assert!(sources.crates["drawing"].contains("draw"));
    assert!(cited::names(wrong).contains("noSuchName") && !sources.has("noSuchName"));
    assert!(cited::paths(wrong).contains("docs/NOWHERE.md"));
}
