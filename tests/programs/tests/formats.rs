//! `docs/FORMATS.md` against the command: every example of a refusal is answered as it says, its tables are
//! those that the command prints, and its texts are accepted.

use programs::folder::Folder;
use programs::process::{command, end};
use programs::script::{envelope, path};

fn document() -> String {
    let path = programs::root().join("docs/FORMATS.md");
    std::fs::read_to_string(path).expect("a document")
}

/// The rows of the table with this heading, each as its cells.
fn rows(document: &str, heading: &str) -> Vec<Vec<String>> {
    let table = document.split(heading).nth(1).expect("a table");
    let rows = table
        .lines()
        .skip(2)
        .map_while(|row| row.strip_prefix("| "));
    let cells = |row: &str| {
        let cells = row.trim_end_matches(" |").split(" | ");
        cells.map(|cell| cell.to_string()).collect()
    };
    rows.map(cells).collect()
}

/// A cell's text, `⏎` being a line end.
fn text(cell: &str) -> String {
    match cell {
        "no byte" => String::new(),
        _ => cell.trim_matches('`').replace('⏎', "\n"),
    }
}

const REFERENCE: &str = "REF,1,TOC\nA,5\n";
const RECORD: &str = "ENV,1,TOC\nC,327680\nR,0,0,0,S\nW,1,65536\n";

#[test]
fn every_example_of_a_refusal_is_answered_as_it_says() {
    let refusals = rows(&document(), "| no. | when | text | example | answer |");
    let mut numbers = Vec::new();
    for row in &refusals {
        let [number, _, kind, example, answer] = &row[..] else {
            panic!("cells of {row:?}");
        };
        let (folder, example) = (Folder::new(), text(example));
        folder.write("x.ref", REFERENCE);
        folder.write("x.env", RECORD);
        folder.write("x.readings", "A,TOC,5\n");
        let (calls, status): (&[&[&str]], i32) = match kind.as_str() {
            "reference" => (&[&["draw"], &["plain"]], 1),
            "record" => (&[&["verify", "x.ref"]], 1),
            "settings" => (&[&["alerts", "x.ref", "x.env", "-", "x.readings"]], 1),
            _ => (&[&["judge", "x.ref", "x.env"]], 3),
        };
        for words in calls {
            let mut command = command(path());
            command.args(*words).current_dir(folder.path());
            let ended = end(&mut command, example.as_bytes());
            assert_eq!(
                (ended.text(), ended.status),
                (&*text(&format!("{answer}⏎")).replace('`', ""), status),
                "{row:?}"
            );
        }
        assert!(
            answer
                .trim_matches('`')
                .starts_with(&format!("NO,{number},"))
        );
        numbers.push(number.parse::<u32>().expect("a number"));
    }
    numbers.dedup();
    assert_eq!(numbers, [1, 2, 3, 4, 5, 6, 10, 11, 12, 14]);
}

#[test]
fn the_types_are_those_that_the_command_prints() {
    let types = rows(
        &document(),
        "| code | tag | what | step | lowest | highest | in units |",
    );
    assert_eq!(types.len(), 8);
    let printed = envelope(&["types"], b"");
    for row in types {
        let line = printed
            .text()
            .lines()
            .find(|line| line.split_whitespace().nth(1) == Some(row[1].as_str()));
        let line = line.unwrap_or_else(|| panic!("no line of {}", row[1]));
        for cell in &row {
            assert!(line.contains(cell.as_str()), "{line} has no {cell}");
        }
    }
}

#[test]
fn its_texts_are_those_of_an_example() {
    let document = document();
    let reference = programs::example("purified-water", "ref");
    let record = programs::example("purified-water", "env");
    let readings = programs::example("purified-water", "readings");
    let parts = |start: &str| -> Vec<String> {
        let texts = document.split("```text\n").skip(1);
        let texts = texts.filter_map(|rest| rest.split("```").next());
        let texts = texts.filter(|text| text.starts_with(start));
        texts.map(str::to_string).collect()
    };
    let part = |start: &str| parts(start).swap_remove(0);
    let rows = part("REF,");
    assert!(reference.starts_with(rows.lines().next().expect("a heading").as_bytes()));
    let drawn = envelope(&["draw"], rows.as_bytes());
    assert_eq!(drawn.status, 0, "{}", drawn.messages);
    let plain = envelope(&["plain"], rows.as_bytes());
    assert_eq!((plain.text(), plain.status), (&*parts("REF,")[1], 0));
    assert!(plain.messages.contains(": 1 value below detection "));
    assert_eq!(part("ENV,").as_bytes(), record);
    let reading = part("PW1-");
    assert!(
        String::from_utf8(readings)
            .expect("a text")
            .contains(&reading)
    );
    assert_eq!(part("1,1\n").as_bytes(), programs::month()[2]);
    let printed = programs::example("purified-water", "alerts");
    assert_eq!(part("1,1,").as_bytes(), printed);
}

/// Of rows 6 and 10, which carry weight, another value is another record.
#[test]
fn a_record_holds_where_its_figures_are_those_of_the_rows() {
    let reference = String::from_utf8(programs::example("purified-water", "ref")).expect("a text");
    let record = String::from_utf8(programs::example("purified-water", "env")).expect("a text");
    let verify = |reference: &str, record: &str| {
        let folder = Folder::new();
        let reference = folder.write("x.ref", reference);
        let words = ["verify".as_ref(), reference.as_os_str()];
        envelope(&words, record.as_bytes()).text().to_string()
    };
    let changed = |text: &str, from: &str, to: &str| {
        assert_eq!(text.matches(from).count(), 1, "{from}");
        text.replace(from, to)
    };
    let inside = changed(&reference, "PW1-0302-06,48,", "PW1-0302-06,49,");
    assert_eq!(verify(&inside, &record), "OK\n");
    let moves = changed(&record, ",2,S\n", ",3,S\n");
    assert_eq!(verify(&reference, &moves), "OK\n");
    let outside = changed(&reference, "PW1-0302-06,48,", "PW1-0302-06,948,");
    assert_eq!(verify(&outside, &record), "NO,12,0\n");
    let label = reference.lines().nth(6).expect("row 6").split(',');
    let label = label.take(1).collect::<String>() + ",";
    let weighted = changed(&reference, &label, &format!("{label}1"));
    assert_eq!(verify(&weighted, &record), "NO,12,0\n");
    let centre = changed(&record, "C,3178496,", "C,3178497,");
    assert_eq!(verify(&reference, &centre), "NO,12,0\n");
}

#[test]
fn every_status_is_said_in_help_too() {
    let statuses = rows(&document(), "| status | when |");
    let said: Vec<&str> = statuses.iter().map(|row| row[0].as_str()).collect();
    assert_eq!(said, ["0", "1", "2", "3"]);
    let help = envelope(&["help"], b"");
    let after = help.text().split("tatus").nth(1).expect("statuses");
    for status in said {
        let starts = |line: &str| line.split_whitespace().any(|word| word == status);
        assert!(after.lines().any(starts), "help does not say {status}");
    }
}
