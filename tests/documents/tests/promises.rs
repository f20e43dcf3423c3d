//! `docs/PROMISES.md` against the crate of promises and the must-fail edits.

use documents::sources::Sources;
use documents::{cited, text, words};
use std::collections::BTreeSet;

/// The ids that are owed, by demand: as many as there are.
const OWED: [(usize, usize); 3] = [(1, 5), (2, 14), (3, 4)];

fn document() -> String {
    text("docs/PROMISES.md")
}

#[test]
fn every_edit_is_cited_and_every_cited_edit_is_there() {
    let sources = Sources::new();
    let cited = cited::edits(&document());
    let uncited: Vec<_> = sources.edits.difference(&cited).collect();
    let missing: Vec<_> = cited.difference(&sources.edits).collect();
    assert!(uncited.is_empty(), "not cited: {uncited:?}");
    assert!(missing.is_empty(), "not there: {missing:?}");
    assert!(sources.edits.len() > 200, "{} edits", sources.edits.len());
}

/// The ids that are owed, in their order; those of requests that landed follow.
fn owed() -> Vec<String> {
    let ids = OWED.iter();
    let ids = ids.flat_map(|(demand, count)| (1..=*count).map(move |k| format!("{demand}.{k}")));
    let requests = (1..=13).map(|k| format!("R{k}"));
    let declared = Sources::new().crates["promises"].clone();
    let landed = requests.filter(|id| declared.contains(&name_of(id)));
    ids.chain(landed).collect()
}

fn name_of(id: &str) -> String {
    format!("promise_{}", id.replace('.', "_"))
}

#[test]
fn every_promise_has_one_name_in_both() {
    let sources = Sources::new();
    let declared = sources.crates["promises"].iter();
    let declared: BTreeSet<String> = declared
        .filter(|name| name.starts_with("promise_"))
        .cloned()
        .collect();
    assert_eq!(cited::promises(&document()), declared);
    let owed: BTreeSet<String> = owed().iter().map(|id| name_of(id)).collect();
    let missing: Vec<_> = owed.difference(&declared).collect();
    assert!(missing.is_empty(), "without a name: {missing:?}");
}

/// The rows of a document that start with an id, each as its cells.
fn rows(document: &str) -> Vec<Vec<String>> {
    let rows = document.lines().filter_map(|line| line.strip_prefix("| "));
    let rows = rows.map(|row| {
        row.trim_end_matches(" |")
            .split(" | ")
            .map(str::to_string)
            .collect()
    });
    rows.filter(|cells: &Vec<String>| {
        let id = cells[0].strip_prefix('R').unwrap_or(&cells[0]);
        id.starts_with(|c: char| c.is_ascii_digit())
            && id.chars().all(|c| c.is_ascii_digit() || c == '.')
    })
    .collect()
}

#[test]
fn every_id_has_one_row_with_a_sentence_its_name_and_edits() {
    let sources = Sources::new();
    let rows = rows(&document());
    let ids: Vec<&String> = rows.iter().map(|cells| &cells[0]).collect();
    assert_eq!(ids, owed().iter().collect::<Vec<_>>());
    for cells in &rows {
        let [id, sentence, name, edits] = &cells[..] else {
            panic!("cells of {cells:?}");
        };
        assert!(
            sentence.ends_with('.') && sentence.len() > 20,
            "sentence of {id}"
        );
        assert_eq!(*name, format!("`{}`", name_of(id)), "name of {id}");
        let cited = cited::edits(edits);
        assert!(
            !cited.is_empty() && cited.is_subset(&sources.edits),
            "edits of {id}"
        );
    }
}

#[test]
fn every_public_call_is_listed_with_a_function_and_a_definition() {
    let sources = Sources::new();
    let document = document();
    let words = words(&document, "| call | function | what it answers |");
    let (functions, definitions): (Vec<&str>, Vec<&str>) =
        words.into_iter().partition(|word| word.contains("::"));
    assert!(
        functions.len() >= 27 && definitions.len() >= 20,
        "{functions:?} {definitions:?}"
    );
    for word in definitions {
        assert!(sources.has(word), "{word}");
    }
    // Each has its field among the promises, by what is proved of its code.
    let promised: String = sources
        .files
        .iter()
        .filter(|(owner, _)| owner == "promises")
        .map(|(_, file)| text(&format!("crates/promises/specs/{file}.antt")))
        .collect();
    for function in &functions {
        let (owner, path) = function.split_once("::").expect("a path");
        let name = path.rsplit("::").next().expect("a name");
        let start = format!("use Rattle.{owner}.proofs.");
        let end = format!(".{name}.Met as ");
        let proved = promised
            .lines()
            .any(|line| line.starts_with(&start) && line.contains(&end));
        assert!(proved, "{function}");
    }
    // Those for C and Rust are all that the archive exports.
    let listed: BTreeSet<&str> = functions
        .iter()
        .filter_map(|function| function.strip_prefix("cundarivo::"))
        .collect();
    for owner in ["cundarivo", "cundarivo_c"] {
        let exported = sources.crates[owner].iter();
        let exported = exported
            .filter(|name| name.starts_with("cundarivo_"))
            .map(String::as_str);
        assert_eq!(listed, exported.collect(), "{owner}");
    }
}

/// The functions of a crate's module: each one's text from its name to its end, without what makes it an export.
fn functions(owner: &str, module: &str) -> Vec<String> {
    let source = text(&format!("crates/{owner}/src/{module}.rt"));
    let starts = source.split("\npub ").skip(1);
    starts
        .filter_map(|function| {
            let plain = function.strip_prefix("fn ");
            let (function, _) = plain
                .or(function.strip_prefix("extern \"C\" fn "))?
                .split_once("\n}\n")
                .expect("an end");
            Some(function.to_string())
        })
        .collect()
}

/// What is promised of the library's calls holds of what the archive exports: the same parameters and clauses, and a body that is
/// the library's call.
#[test]
fn every_export_states_the_call_that_it_makes() {
    let mut count = 0;
    for module in [
        "lib",
        "alert_trial_text",
        "chart_numbers",
        "programs",
        "reading_text",
        "record_text",
        "reference_text",
    ] {
        let path = match module {
            "lib" => "cundarivo::".to_string(),
            _ => format!("cundarivo::{module}::"),
        };
        let calls = functions("cundarivo", module);
        let exports = functions("cundarivo_c", module);
        assert_eq!(calls.len(), exports.len(), "{module}");
        for (call, export) in calls.iter().zip(&exports) {
            let [call, export] = [call, export].map(|function| {
                let parts = function.split_once("\n{\n");
                parts.expect("a body")
            });
            assert_eq!(call.0, export.0);
            let (name, rest) = call.0.split_once('(').expect("parameters");
            let (parameters, _) = rest.split_once(") ->").expect("a result");
            let names: Vec<&str> = parameters
                .split(',')
                .filter_map(|parameter| parameter.split_once(':'))
                .map(|(name, _)| name.trim())
                .collect();
            // However it is laid out.
            let words: Vec<&str> = export.1.split_whitespace().collect();
            let body = words.join(" ").replace("( ", "(").replace(", )", ")");
            assert_eq!(body, format!("{path}{name}({})", names.join(", ")));
            count += 1;
        }
    }
    assert_eq!(count, 18);
}

#[test]
fn a_missing_edit_a_wrong_crate_and_a_renamed_promise_are_found() {
    let sources = Sources::new();
    let text = "| 2.9 | A sentence. | `promise_2_99` | drawing: `moves_invented`, `no_such_edit`; ball: `moves_invented` |";
    let missing: Vec<_> = cited::edits(text)
        .difference(&sources.edits)
        .cloned()
        .collect();
    let named = |owner: &str, name: &str| (owner.to_string(), name.to_string());
    assert_eq!(
        missing,
        [
            named("ball", "moves_invented"),
            named("drawing", "no_such_edit")
        ]
    );
    assert_eq!(
        cited::promises(text),
        BTreeSet::from(["promise_2_99".to_string()])
    );
    assert!(!sources.has("promise_2_99"));
}
