//! `show`: every number against the outside implementation and the inequalities that it must meet, on the
//! examples, on seeded texts and where one value is mistyped.

use outside::program_inputs::Source;
use outside::programs::BUDGET;
use outside::random::{Random, count_from_environment, seed_from_environment};
use outside::reference::{self, ChannelType};
use outside::rules;
use outside::texts::Draft;
use programs::call::Way;
use programs::folder::Folder;
use programs::presented::{
    assert_nearest, assert_printable, cells, channel_name, farthest, steps, types, whole,
};
use programs::process::{Ended, end};
use programs::{EXAMPLES, RECORD, REFERENCE, example, root};
use std::path::PathBuf;

const SEED: u64 = 180;
const INPUTS: u64 = 150;
const TOTAL: i128 = 65_536;
/// How many rows are taken away in turn.
const HEAVIEST: usize = 16;

/// A reference text with the figures and weights of an envelope of it.
struct Expected {
    text: Vec<u8>,
    labels: Vec<String>,
    types: Vec<ChannelType>,
    rows: Vec<Vec<i32>>,
    weights: Vec<u32>,
    figures: rules::Figures,
    moves: u32,
    /// M of the ball that is drawn round all rows.
    drawn: i128,
}

impl Expected {
    /// The envelope of these weights, or the one that is drawn.
    fn new(text: &[u8], weights: Option<(&[u32], u32)>) -> Expected {
        let read = reference::read(text).expect("an accepted text");
        let (table, m, n) = (read.table(), read.rows.len(), read.types.len());
        let drawing = rules::draw(&table, m, n, BUDGET).expect("rows within limits");
        let drawn_weights: Vec<u32> = drawing.weights.iter().map(|&one| one as u32).collect();
        let (weights, moves) = weights.unwrap_or((&drawn_weights, drawing.moves));
        let label = |row: &reference::Row| {
            let part = row.label;
            String::from_utf8(text[part.start..part.start + part.length].to_vec()).expect("ASCII")
        };
        Expected {
            text: text.to_vec(),
            labels: read.rows.iter().map(label).collect(),
            types: types(&read.types),
            figures: rules::check(&table, m, n, &weights[..m]).expect("weights of sum D"),
            weights: weights[..m].to_vec(),
            rows: read.rows.into_iter().map(|row| row.values).collect(),
            moves,
            drawn: drawing.figures.scaled_squared_radius,
        }
    }

    /// M of the ball that is drawn without a row.
    fn without(&self, row: usize) -> i128 {
        let mut rows = self.rows.clone();
        rows.remove(row);
        let drawing = rules::draw(&rows.concat(), rows.len(), self.types.len(), BUDGET);
        drawing
            .expect("rows within limits")
            .figures
            .scaled_squared_radius
    }

    /// Asserts every section of an output.
    fn assert_shown(&self, ended: &Ended, envelope: &str) {
        assert_eq!((&*ended.messages, ended.status), ("", 0));
        assert_printable(ended.text());
        let sections: Vec<&str> = ended.text().split("\n\n").collect();
        let [origin, channels, ball, rows] = sections[..] else {
            panic!("{}", ended.text());
        };
        let (m, n) = (self.rows.len().to_string(), self.types.len().to_string());
        assert_eq!(
            (named(origin, "rows"), named(origin, "channels")),
            (&*m, &*n)
        );
        assert!(named(origin, "envelope").starts_with(envelope), "{origin}");
        self.assert_channels(channels);
        self.assert_ball(ball, envelope);
        self.assert_rows(rows);
    }

    fn assert_channels(&self, section: &str) {
        let lines: Vec<&str> = section.lines().skip(1).collect();
        assert_eq!(lines.len(), self.types.len(), "{section}");
        for (channel, line) in lines.iter().enumerate() {
            let (kind, place) = (&self.types[channel], self.figures.scaled_centre[channel]);
            let cells = cells(line);
            assert_eq!(cells[0], channel_name(&self.types, channel));
            assert_nearest(cells[2], kind, place, TOTAL);
            self.assert_reach(&steps(cells[3], kind, 1), place);
            let values = || self.rows.iter().map(|row| i128::from(row[channel]));
            let extremes = [
                values().min().expect("a row"),
                values().max().expect("a row"),
            ];
            assert_eq!(steps(cells[4], kind, 0), extremes, "{line}");
        }
    }

    /// The tenths of a step are the nearest ones outside the centre less or plus the radius.
    fn assert_reach(&self, tenths: &[i128], place: i128) {
        let square = 100 * self.figures.scaled_squared_radius;
        let holds = |distance: i128| distance >= 0 && distance * distance >= square;
        let [low, high] = tenths[..] else {
            panic!("{tenths:?}");
        };
        let (below, above) = (10 * place - TOTAL * low, TOTAL * high - 10 * place);
        assert!(holds(below) && holds(above), "{tenths:?}");
        assert!(!holds(below - TOTAL) && !holds(above - TOTAL), "{tenths:?}");
    }

    fn assert_ball(&self, section: &str, envelope: &str) {
        let rules::Figures {
            scaled_squared_radius: radius,
            scaled_lower_bound: bound,
            settled,
            ..
        } = self.figures;
        assert_radius(named(section, "radius"), radius);
        let squared = named(section, "squared radius");
        let (tenths, exact) = squared.split_once(" square steps ").expect("square steps");
        assert_eq!(exact, format!("(M = {radius})"));
        let difference = whole(tenths, 1) * TOTAL * TOTAL - 10 * radius;
        assert!(2 * difference.abs() <= TOTAL * TOTAL, "{squared}");
        assert_gap(named(section, "gap"), radius, bound);
        let word = if self.moves == 1 { "move" } else { "moves" };
        let ending = if settled {
            "settled after"
        } else {
            "not settled, the budget used up, after"
        };
        let stated = match envelope.starts_with("record") {
            true => " (as many as the record states)",
            false => "",
        };
        let ending = format!("{ending} {} {word}{stated}", self.moves);
        assert_eq!(named(section, "ending"), ending);
    }

    /// The rows of weight above 0, the heaviest and of equals the first one first.
    fn heaviest_first(&self) -> Vec<usize> {
        let mut rows: Vec<usize> = (0..self.rows.len()).collect();
        rows.retain(|&row| self.weights[row] > 0);
        rows.sort_by(|&one, &other| {
            let heavier = self.weights[other].cmp(&self.weights[one]);
            heavier.then(one.cmp(&other))
        });
        rows
    }

    fn assert_rows(&self, section: &str) {
        let rows = self.heaviest_first();
        let lines: Vec<&str> = section.lines().collect();
        let differs = self.drawn != self.figures.scaled_squared_radius;
        assert_eq!(lines[0].contains("Drawn now with every row"), differs);
        assert_eq!(lines[0].contains("only row"), self.rows.len() == 1);
        assert_eq!(lines[0].contains("the first 16"), rows.len() > HEAVIEST);
        let mut questions = Vec::new();
        for (place, &row) in rows.iter().enumerate() {
            let without = (place < HEAVIEST && self.rows.len() > 1).then(|| self.without(row));
            let is_less = without.is_some_and(|without| 4 * without < self.drawn);
            let is_marked = is_less && self.rows.len() > 2;
            self.assert_row(lines[place + 2], row, without, is_marked);
            if is_marked {
                let label = &self.labels[row];
                questions.push(format!(
                    "Without row {}, {label}, the radius is less than half: is one of its values mistyped?",
                    row + 1
                ));
            }
        }
        assert_eq!(lines[rows.len() + 2..], questions);
    }

    fn assert_row(&self, line: &str, row: usize, without: Option<i128>, is_marked: bool) {
        let cells = cells(line);
        assert_eq!(cells[0], (row + 1).to_string(), "{line}");
        assert_eq!(cells[1], self.labels[row], "{line}");
        assert_weight(cells[2], self.weights[row].into());
        match without {
            Some(radius) => assert_radius(cells[3], radius),
            None => assert_eq!(cells[3], "-"),
        }
        let (channel, place) = farthest(&self.rows[row], &self.figures.scaled_centre);
        let name = channel_name(&self.types, channel);
        let deviation = cells[4].strip_prefix(&format!("{name} "));
        let deviation = deviation.unwrap_or_else(|| panic!("{line} for {name}"));
        assert_nearest(deviation, &self.types[channel], place, TOTAL);
        assert_eq!(cells[5], self.below_detection(row), "{line}");
        let mark = is_marked.then_some("LOOK AT THIS ROW");
        assert_eq!(cells.get(6).copied(), mark, "{line}");
    }

    fn below_detection(&self, row: usize) -> String {
        let text = std::str::from_utf8(&self.text).expect("ASCII");
        let line = text.lines().nth(row + 1).expect("a row");
        let fields = line.split(',').skip(1).enumerate();
        let fields = fields.filter(|(_, field)| field.contains('<'));
        let named = |(channel, field)| format!("{} {field}", channel_name(&self.types, channel));
        let named: Vec<String> = fields.map(named).collect();
        match named.len() {
            0 => "-".to_string(),
            _ => named.join(", "),
        }
    }
}

/// What stands behind a name at the start of a line.
fn named<'t>(section: &'t str, name: &str) -> &'t str {
    let start = format!("{name}  ");
    let mut values = section.lines().filter_map(|line| line.strip_prefix(&start));
    values
        .next()
        .unwrap_or_else(|| panic!("{section} has no {name}"))
        .trim_start()
}

/// A radius in tenths of a step, not rounded down.
fn assert_radius(text: &str, radius: i128) {
    let tenths = whole(text.strip_suffix(" steps").expect("steps"), 1) * TOTAL;
    let is_least = tenths == 0 || (tenths - TOTAL) * (tenths - TOTAL) < 100 * radius;
    let is_enough = tenths >= 0 && tenths * tenths >= 100 * radius;
    assert!(is_least && is_enough, "{text} for M = {radius}");
}

/// The gap, and the least number of millionths p with (1 - p)² M at most L.
fn assert_gap(text: &str, radius: i128, bound: i128) {
    let gap = radius - bound;
    if gap == 0 {
        assert_eq!(text, "0 (M - L): no ball round the rows is smaller");
        return;
    }
    let start = format!("{gap} (M - L): the least radius is smaller by at most ");
    let share = text.strip_prefix(&start).expect("the gap");
    let share = share.strip_suffix('%').expect("a share");
    let rest = 1_000_000 - whole(share, 4);
    let holds = |rest: i128| rest * rest * radius <= 1_000_000_000_000 * bound;
    assert!(holds(rest) && !holds(rest + 1), "{text}");
}

/// A weight in hundredths of a percent.
fn assert_weight(text: &str, weight: i128) {
    if text == "<0.01%" {
        assert!(20_000 * weight < TOTAL, "{weight}");
        return;
    }
    let hundredths = whole(text.strip_suffix('%').expect("a percent"), 2);
    let difference = hundredths * TOTAL - 10_000 * weight;
    assert!(2 * difference.abs() <= TOTAL, "{text} for {weight}");
}

fn show<Text: AsRef<[u8]>>(texts: &[Text]) -> Ended {
    let folder = Folder::new();
    let files = folder.write_texts(texts);
    end(&mut Way::Command.command("show", &files), b"")
}

fn stored(name: &str) -> PathBuf {
    root().join("tests/programs/stored-command/show").join(name)
}

fn assert_drawn(text: &[u8]) -> Ended {
    let ended = show(&[text]);
    let origin = "drawn from it now, with a budget of 10,000 moves";
    Expected::new(text, None).assert_shown(&ended, origin);
    ended
}

#[test]
fn the_examples() {
    for point in EXAMPLES {
        let text = example(point, "ref");
        assert_drawn(&text);
        let ended = show(&[&text, &example(point, "env")]);
        Expected::new(&text, None).assert_shown(&ended, "record '");
    }
}

#[test]
fn the_stored_outputs_of_the_examples() {
    for point in EXAMPLES {
        let [reference, record] = ["ref", "env"].map(|kind| format!("{point}.{kind}"));
        for (files, kind) in [
            (&[reference.clone()][..], "drawn"),
            (&[reference, record], "record"),
        ] {
            let mut command = Way::Command.command("show", files);
            let ended = end(command.current_dir(root().join("examples")), b"");
            let output = std::fs::read_to_string(stored(&format!("{point}.{kind}")));
            ended.assert_printed(&output.expect("a stored output"), 0);
        }
    }
}

/// One value, 142 for 1427: the ball is ten times as wide, and the row is named.
#[test]
fn a_mistyped_row_stands_out() {
    let text = std::fs::read(stored("mistyped.ref")).expect("a stored text");
    let ended = assert_drawn(&text);
    let shown = ended.text();
    assert!(shown.contains("\nradius          670.2 steps\n"), "{shown}");
    let marked: Vec<&str> = shown.lines().filter(|line| line.contains("LOOK")).collect();
    let cells = cells(marked[0]);
    assert_eq!(cells[..4], ["4", "GL-02B", "50.00%", "67.7 steps"]);
    assert_eq!(marked.len(), 1, "{shown}");
    assert!(shown.ends_with(
        "\nWithout row 4, GL-02B, the radius is less than half: is one of its values mistyped?\n"
    ));
    let mended = String::from_utf8(text).expect("ASCII");
    let mended = mended.replace(",142,", ",1427,");
    let ended = assert_drawn(mended.as_bytes());
    assert!(!ended.text().contains("LOOK"), "{}", ended.text());
}

/// Envelopes that are drawn, and records drawn with any budget or of any weights.
#[test]
fn seeded_texts() {
    let seed = seed_from_environment(SEED);
    let mut random = Random::new(seed);
    let (mut marked, mut budget, mut below) = (0, 0, 0);
    for input in 0..count_from_environment("INPUTS", INPUTS) {
        println!("seed {seed}, input {input}");
        let source = Source::new(&mut random);
        let text = source.reference.bytes();
        if random.once_in(3) {
            marked += usize::from(assert_drawn(&text).text().contains("LOOK"));
            continue;
        }
        let envelope = &source.enveloped.envelope;
        let weights = (&envelope.weights[..], envelope.figures.moves);
        let ended = show(&[&text, &source.enveloped.text()]);
        Expected::new(&text, Some(weights)).assert_shown(&ended, "record '");
        marked += usize::from(ended.text().contains("LOOK"));
        budget += usize::from(ended.text().contains("not settled, the budget used up"));
        below += usize::from(ended.text().contains(" <"));
    }
    let met = [marked, budget, below];
    assert!(met.iter().all(|&count| count > 0), "seed {seed}: {met:?}");
}

#[test]
fn the_fullest_reference_text() {
    let mut random = Random::new(SEED);
    let reference = Draft::new(&mut random, 256, 8);
    assert_drawn(&reference.bytes());
}

/// Every row carries weight: the ball is drawn without the first 16 alone.
#[test]
fn more_rows_with_weight_than_are_taken_away() {
    let rows: String = (0..32).map(|row| format!("R-{row},{row},<3\n")).collect();
    let text = format!("REF,2,FLW,FLW\n{rows}");
    let weights = [2_048; 32];
    let figures = rules::check(
        &reference::read(text.as_bytes()).expect("rows").table(),
        32,
        2,
        &weights,
    )
    .expect("weights of sum D");
    let lines: String = (1..=32).map(|row| format!("W,{row},2048\n")).collect();
    let (radius, bound) = (figures.scaled_squared_radius, figures.scaled_lower_bound);
    let record = format!(
        "ENV,2,FLW,FLW\nC,{},{}\nR,{radius},{bound},7,B\n{lines}",
        figures.scaled_centre[0], figures.scaled_centre[1]
    );
    let ended = show(&[text.as_bytes(), record.as_bytes()]);
    let expected = Expected::new(text.as_bytes(), Some((&weights, 7)));
    expected.assert_shown(&ended, "record '");
    assert_eq!(ended.text().matches("  -  FLW (1)").count(), 16);
}

#[test]
fn one_row_and_equal_rows() {
    for rows in ["A,-7,0\n", "A,-7,1\nB,-7,<3\nC,-7,<2\n"] {
        let text = format!("REF,2,ORP,TOC\n{rows}");
        let ended = assert_drawn(text.as_bytes());
        assert!(ended.text().contains("\nradius          0.0 steps\n"));
        assert!(ended.text().contains("-7.0 to -7.0 mV"));
    }
}

/// The budget is that of `draw`, whose record states the same moves.
#[test]
fn a_drawing_that_uses_its_budget_up() {
    let text = root().join("tests/programs/stored/draw/budget-used-up.ref");
    let ended = show(&[&std::fs::read(text).expect("a stored text")]);
    let ending =
        format!("\nending          not settled, the budget used up, after {BUDGET} moves\n");
    assert!(ended.text().contains(&ending), "{}", ended.text());
}

/// Without either of two rows the radius is 0, whatever they are.
#[test]
fn of_two_rows_none_is_marked() {
    let ended = assert_drawn(b"REF,1,TMP\nA,-7\nB,-8\n");
    assert!(!ended.text().contains("LOOK"), "{}", ended.text());
    let ended = assert_drawn(b"REF,1,TMP\nA,-7\nB,-8\nC,900\n");
    assert_eq!(ended.text().matches("LOOK").count(), 1);
}

/// Standard input can be either text; without a record the reference text is drawn.
#[test]
fn texts_from_standard_input() {
    let folder = Folder::new();
    let files = folder.write_texts(&[REFERENCE, RECORD]);
    let files: Vec<&str> = files
        .iter()
        .map(|file| file.to_str().expect("UTF-8"))
        .collect();
    let run = |words: &[&str], input: &str| {
        let ended = end(&mut Way::Command.command("show", words), input.as_bytes());
        assert_eq!((ended.status, &*ended.messages), (0, ""), "{words:?}");
        ended.text().to_string()
    };
    let drawn = run(&["-"], REFERENCE);
    assert!(
        drawn.starts_with("reference text  standard input\n"),
        "{drawn}"
    );
    assert!(drawn.contains("drawn from it now"), "{drawn}");
    let record = run(&["-", files[1]], REFERENCE);
    assert!(record.contains("record '") && record.contains("standard input"));
    let record = run(&[files[0], "-"], RECORD);
    assert!(record.contains("record standard input, which agrees with it"));
}

#[test]
fn refused_texts() {
    let disagreeing = RECORD.replace("2,S", "2,B");
    for (texts, answer) in [
        (&[""][..], "NO,1,0\n"),
        (&["REF,0\n"], "NO,2,1\n"),
        (&["REF,1,TOC\nA,05\n", RECORD], "NO,3,2\n"),
        (&[REFERENCE, ""], "NO,1,0\n"),
        (&[REFERENCE, "ENV,0\n"], "NO,11,1\n"),
        (&[REFERENCE, &disagreeing], "NO,12,0\n"),
    ] {
        let ended = show(texts);
        assert_eq!((ended.text(), ended.status), (answer, 1));
        ended.assert_words();
        assert_eq!(ended.messages.lines().count(), 2, "a reason and a hint");
    }
}
