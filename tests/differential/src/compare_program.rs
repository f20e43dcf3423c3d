//! One run of a program through the product and through the outside implementation.

use crate::lent::{self, Followed};
use crate::product::{compare_written, number};
use cundarivo::Refusal;
use cundarivo::programs::{self as product, Call};
use outside::programs::{Program, TextKind};
use outside::random::Random;

/// What follows a text in memory. A product that read past an end would take it for the byte 10 of
/// the last line, for an empty line, for one more line, or for one more text.
pub fn behind(kind: TextKind) -> &'static [u8] {
    match kind {
        TextKind::Settings => b"\n2,2\n3,3\n",
        _ => b"\nW,256,1\n\nA,TOC,1\n",
    }
}

/// Texts in memory, each by itself, with what both must print of them.
#[derive(Clone, Debug)]
pub struct Run {
    program: Program,
    texts: Vec<Followed<u8>>,
    /// The output by the rules.
    pub output: Vec<u8>,
}

impl Run {
    pub fn new(program: Program, texts: &[Vec<u8>]) -> Run {
        let kinds = program.kinds().iter();
        let followed = |(text, &kind): (&Vec<u8>, _)| Followed::new(text, behind(kind));
        Run {
            program,
            texts: texts.iter().zip(kinds).map(followed).collect(),
            output: program.run(texts),
        }
    }

    /// Runs both into a buffer of this length, and stops the tests where they differ in any number or
    /// place. Gives the number on which both agree.
    pub fn compare(&self, random: &mut Random, length: usize) -> u32 {
        let texts = self.texts.clone();
        let print = |buffer: &mut [u8]| in_product(self.program, &texts).answer(buffer);
        let answer = compare_written(random, length, Ok(&self.output), print, || self.shown());
        assert!(texts == self.texts, "a text changed, {}", self.shown());
        number(answer)
    }

    /// The same through the wrapper, into an output of its own and into lent ones.
    pub fn compare_wrapper(&self) {
        let (call, length) = (in_product(self.program, &self.texts), self.output.len());
        let own = own_output(call);
        assert!(own == self.output, "wrapper, {}", self.shown());
        let mut output = vec![0; length];
        assert_eq!(lent_output(call, &mut output), Ok(length));
        assert!(output == self.output, "lent to, {}", self.shown());
        let refusal = Refusal {
            number: 13,
            line: 0,
        };
        assert_eq!(lent_output(call, &mut output[1..]), Err(refusal));
    }

    /// The program and the beginnings of texts and output, for messages.
    pub fn shown(&self) -> String {
        let texts = self.texts.iter().map(|text| lent::shown(text.slice()));
        let texts: Vec<String> = texts.collect();
        let output = lent::shown(&self.output);
        format!("{:?} of {}, owed {output}", self.program, texts.join("; "))
    }
}

/// The program with its texts, as the product takes them.
fn in_product(program: Program, texts: &[Followed<u8>]) -> Call<'_> {
    let texts: Vec<&[u8]> = texts.iter().map(Followed::slice).collect();
    match (program, &texts[..]) {
        (Program::Draw, &[reference]) => Call::Draw { reference },
        (Program::Verify, &[reference, record]) => Call::Verify { reference, record },
        (Program::Panel, &[reference, record]) => Call::Panel { reference, record },
        (Program::Plain, &[reference]) => Call::Plain { reference },
        (Program::Judge, &[reference, record, readings]) => Call::Judge {
            reference,
            record,
            readings,
        },
        (Program::Alerts, &[reference, record, settings, readings]) => Call::Alerts {
            reference,
            record,
            settings,
            readings,
        },
        _ => panic!("{program:?} does not take {} texts", texts.len()),
    }
}

fn own_output(call: Call) -> Vec<u8> {
    match call {
        Call::Draw { reference } => product::draw(reference),
        Call::Verify { reference, record } => product::verify(reference, record),
        Call::Panel { reference, record } => product::panel(reference, record),
        Call::Plain { reference } => product::plain(reference),
        Call::Judge {
            reference,
            record,
            readings,
        } => product::judge(reference, record, readings),
        Call::Alerts {
            reference,
            record,
            settings,
            readings,
        } => product::alerts(reference, record, settings, readings),
    }
}

fn lent_output(call: Call, output: &mut [u8]) -> Result<usize, Refusal> {
    match call {
        Call::Draw { reference } => product::draw_into(reference, output),
        Call::Verify { reference, record } => product::verify_into(reference, record, output),
        Call::Panel { reference, record } => product::panel_into(reference, record, output),
        Call::Plain { reference } => product::plain_into(reference, output),
        Call::Judge {
            reference,
            record,
            readings,
        } => product::judge_into(reference, record, readings, output),
        Call::Alerts {
            reference,
            record,
            settings,
            readings,
        } => product::alerts_into(reference, record, settings, readings, output),
    }
}
