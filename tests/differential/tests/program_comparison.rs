//! The product compared with the outside implementation on seeded inputs of the six programs, whole
//! and changed, with buffers of every kind of length, and on full sweeps. CUNDARIVO_SEED and
//! CUNDARIVO_INPUTS in the environment give another seed and a larger number of inputs of each program.

use differential::compare_program::Run;
use differential::reached::Reached;
use differential::seeded::seeded;
use outside::known_programs;
use outside::program_inputs::{self, Change, Source};
use outside::programs::{PROGRAMS, Program, TextKind};
use outside::random::Random;
use outside::reference::TEXT_LIMIT;
use outside::sweeps;
use std::cmp::Ordering;
use std::collections::BTreeSet;
use std::fmt::Display;

const SEED: u64 = 20_260_112;
const INPUTS: u64 = 110_000;
/// Each kind of line of accepted texts and each kind of buffer is met in at least one of so many
/// inputs of a program.
const ANSWER_SHARE: u64 = 20;
/// Each refusal of each text and each change is met in at least one of so many.
const KIND_SHARE: u64 = 2_500;
/// A drawing that ends with its budget.
const BUDGET_SHARE: u64 = 5_000;
const LEAST_SWEPT: u64 = 100_000;

struct Comparison {
    random: Random,
    compared: u64,
    reached: Reached,
}

fn main() {
    seeded(SEED, "INPUTS", INPUTS, compare_all);
}

fn compare_all(random: Random, inputs: u64) {
    let mut comparison = Comparison {
        random,
        compared: 0,
        reached: Reached::default(),
    };
    for _ in 0..inputs {
        let source = Source::new(&mut comparison.random);
        for program in PROGRAMS {
            comparison.compare_seeded(program, &source);
        }
    }
    println!("seeded inputs of each program: {inputs}");
    comparison.reached.print();
    comparison.require(inputs);
    comparison.compare_sweeps();
    println!("inputs in all: {}", comparison.compared);
}

impl Comparison {
    /// Texts within the rules but for single readings, or changed ones.
    fn compare_seeded(&mut self, program: Program, source: &Source) {
        let random = &mut self.random;
        let (texts, changes) = if random.below(5) < 2 {
            (source.whole(random, program), Vec::new())
        } else {
            source.changed(random, program)
        };
        let run = self.compare(program, &texts);
        for change in changes {
            self.reached.count(change_name(program, change));
        }
        for answer in answers(program, &texts, &run.output) {
            self.reached.count(answer_name(program, &answer));
        }
        if program == Program::Plain && run.output != texts[0] {
            self.compare_again(&run.output);
        }
    }

    /// What `plain` prints of a text that it accepts, it prints as it is.
    fn compare_again(&mut self, output: &[u8]) {
        if !output.starts_with(b"NO,") {
            let again = self.compare(Program::Plain, &[output.to_vec()]);
            assert_eq!(again.output, output, "{}", again.shown());
            self.reached.count(answer_name(Program::Plain, AGAIN));
        }
    }

    /// With a buffer of the output's length, a longer one, or one of any length.
    fn compare(&mut self, program: Program, texts: &[Vec<u8>]) -> Run {
        let run = Run::new(program, texts);
        let length = run.output.len();
        let random = &mut self.random;
        let any = random.index(length + 2);
        let places = random.pick(&[length, length + 1, length + 40, any]);
        let number = run.compare(random, places);
        assert_eq!(number == 13, places < length, "{}", run.shown());
        if random.once_in(16) {
            run.compare_wrapper();
        }
        self.reached.count(buffer_name(program, places, length));
        self.compared += 1;
        run
    }

    /// Stops the tests where an answer, a change or a length of a buffer was not met often enough.
    fn require(&self, inputs: u64) {
        for program in PROGRAMS {
            for saying in sayings(program) {
                let name = answer_name(program, saying);
                self.reached.require(&name, inputs / ANSWER_SHARE);
            }
            for refusal in refusals(program) {
                let name = answer_name(program, &refusal);
                self.reached.require(&name, inputs / KIND_SHARE);
            }
            for places in 0..3 {
                let name = buffer_name(program, places, 1);
                self.reached.require(&name, inputs / ANSWER_SHARE);
            }
            for change in program_inputs::changes(program) {
                let name = change_name(program, change);
                self.reached.require(&name, inputs / KIND_SHARE);
            }
        }
        let name = answer_name(Program::Draw, "Budget");
        self.reached.require(&name, inputs / BUDGET_SHARE);
    }

    /// Texts of which one differs from document 01's in a byte or in the order of lines.
    fn compare_sweeps(&mut self) {
        let before = self.compared;
        let examples = known_programs::examples().into_iter();
        for (program, texts) in examples.flat_map(|known| known.runs) {
            for place in 0..texts.len() {
                let mut changed = texts.clone();
                let mut visit = |text: &[u8]| {
                    changed[place] = text.to_vec();
                    self.compare(program, &changed);
                };
                sweeps::one_byte_changes(&texts[place], &mut visit);
                sweeps::line_changes(&texts[place], &mut visit);
            }
        }
        let swept = self.compared - before;
        println!("inputs of sweeps: {swept}");
        assert!(swept >= LEAST_SWEPT, "the sweeps are whole");
    }
}

/// The refusals of single readings; no text is refused by one of these.
const ON_READINGS: [&str; 3] = ["NO,3,1", "NO,4,1", "NO,10,1"];

fn text_name(kind: TextKind) -> &'static str {
    match kind {
        TextKind::Reference => "reference text",
        TextKind::Record => "record",
        TextKind::Settings => "settings",
        TextKind::Readings => "readings",
    }
}

/// What a program answers: the refusal of a text, or what its lines say, each once.
fn answers(program: Program, texts: &[Vec<u8>], output: &[u8]) -> BTreeSet<String> {
    let output = std::str::from_utf8(output).expect("a text");
    let first = output.lines().next().expect("a line");
    let on_reading = program == Program::Judge && ON_READINGS.contains(&first);
    let refusal = first.strip_prefix("NO,").filter(|_| !on_reading);
    if let Some((number, _)) = refusal.and_then(|refusal| refusal.split_once(',')) {
        let refused = refused_text(program, texts, number);
        return [refusal_name(refused, number)].into();
    }
    let lines = output.lines();
    match program {
        Program::Draw if output.contains(",S\n") => [String::from("Settled")].into(),
        Program::Draw => [String::from("Budget")].into(),
        Program::Panel => lines.map(sign).collect(),
        Program::Plain => [String::from(as_it_was(&texts[0], output))].into(),
        Program::Alerts => lines.map(alerts_said).collect(),
        _ => lines.map(without_excess).collect(),
    }
}

/// The text that is refused by a number. No settings are refused by 1.
fn refused_text(program: Program, texts: &[Vec<u8>], number: &str) -> TextKind {
    let of_length = |text: &Vec<u8>| (1..=TEXT_LIMIT).contains(&text.len());
    let mut kinds = program.kinds().iter().zip(texts);
    match number {
        "1" => {
            let refused = |(kind, text): &(&TextKind, &Vec<u8>)| {
                **kind != TextKind::Settings && !of_length(text)
            };
            *kinds.find(refused).expect("a text of such a length").0
        }
        "11" | "12" => TextKind::Record,
        "14" => TextKind::Settings,
        _ => TextKind::Reference,
    }
}

fn refusal_name(text: TextKind, number: impl Display) -> String {
    format!("{} refused by {number}", text_name(text))
}

/// What `plain` says of an accepted text.
const AS_IT_WAS: &str = "as it was";
const PLAINLY: &str = "below detection written plainly";
/// Of its own output.
const AGAIN: &str = "as it is, again";

fn as_it_was(text: &[u8], output: &str) -> &'static str {
    let own = text == output.as_bytes();
    assert_eq!(own, !text.contains(&b'<'), "{output}");
    if own { AS_IT_WAS } else { PLAINLY }
}

/// The sign of the step in a line of the panel.
fn sign(line: &str) -> String {
    let (_, step) = line.split_once(',').expect("tag and step");
    let sign = match step.parse::<i32>().expect("a step") {
        0 => "0",
        1.. => "above 0",
        _ => "below 0",
    };
    format!("step {sign}")
}

/// What `alerts` says in a line of a setting or in the last one, of which the third number counts alerts
/// or Quiets and the fourth readings passed or turned back.
fn alerts_said(line: &str) -> String {
    let numbers: Vec<&str> = line.split(',').collect();
    let [_, _, third, fourth] = numbers[..] else {
        panic!("four numbers, not {line}");
    };
    let said = |number| if number == "0" { "none" } else { "some" };
    format!("third {}, fourth {}", said(third), said(fourth))
}

fn without_excess(line: &str) -> String {
    let verdict = line.strip_prefix("ALARM,").map_or(line, |_| "ALARM");
    String::from(verdict)
}

fn answer_name(program: Program, answer: &str) -> String {
    format!("{program:?}: {answer}")
}

fn change_name(program: Program, change: Change) -> String {
    let Change { kind, text } = change;
    let text = text_name(program.kinds()[text]);
    format!("{program:?}, {text}: {kind:?}")
}

fn buffer_name(program: Program, places: usize, length: usize) -> String {
    let kind = match places.cmp(&length) {
        Ordering::Less => "shorter",
        Ordering::Equal => "exact",
        Ordering::Greater => "longer",
    };
    format!("{program:?}, buffer: {kind}")
}

/// What programs say of texts that are accepted.
fn sayings(program: Program) -> &'static [&'static str] {
    match program {
        Program::Draw => &["Settled"],
        Program::Verify => &["OK"],
        Program::Judge => &["QUIET", "ALARM", "NO,3,1", "NO,4,1", "NO,10,1"],
        Program::Panel => &["step above 0", "step 0", "step below 0"],
        Program::Plain => &[AS_IT_WAS, PLAINLY, AGAIN],
        Program::Alerts => &[
            "third none, fourth none",
            "third some, fourth some",
            "third none, fourth some",
            "third some, fourth none",
        ],
    }
}

/// Every refusal of every text.
fn refusals(program: Program) -> Vec<String> {
    let of_kind = |kind: &TextKind| -> Vec<String> {
        let numbers: &[u32] = match kind {
            TextKind::Reference => &[1, 2, 3, 4, 5, 6],
            TextKind::Record => &[1, 11, 12],
            TextKind::Settings => &[14],
            TextKind::Readings => &[1],
        };
        let numbers = numbers.iter();
        numbers.map(|number| refusal_name(*kind, number)).collect()
    };
    let kinds = program.kinds().iter();
    kinds.flat_map(of_kind).collect()
}
