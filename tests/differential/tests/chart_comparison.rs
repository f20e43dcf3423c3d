//! The product compared with the outside implementation on charts and panels of seeded figures, whole
//! and with faults, and of envelopes that are drawn and checked, whose rows must lie in the disc.
//! CUNDARIVO_SEED and CUNDARIVO_CHARTS in the environment give another seed and a larger number of
//! charts and of panels.

use differential::compare_chart::{Chart, Panel};
use differential::reached::Reached;
use differential::seeded::seeded;
use outside::chart_figures::{self, CHANNEL_FAULTS, ChannelFault, PLACES, RADII};
use outside::charts::Mark;
use outside::envelopes::{self, FIGURE_FAULTS, Fitted};
use outside::projections::{self, Tested};
use outside::random::Random;
use outside::readings::EnvelopeFigures;
use outside::rules::{CHANNEL_LIMIT, OUTSIDE_LIMITS, ROW_LIMIT, Vector};
use outside::sets::{self, SHAPES};

const SEED: u64 = 20_260_112;
/// How many charts and how many panels of seeded figures.
const CHARTS: u64 = 500_000;
/// Envelopes of few rows that the outside implementation draws or checks, and envelopes of any rows
/// that the product draws.
const FITTED: u64 = 10_000;
const DRAWINGS: u64 = 2_000;
const BUDGETS: [u32; 5] = [0, 1, 2, 60, 10_000];
/// Each answer and each kind of X and M is met in at least one of so many.
const ANSWER_SHARE: u64 = 25;
/// Each fault and each length of the steps is met in at least one of so many.
const KIND_SHARE: u64 = 500;

struct Comparison {
    random: Random,
    charts: u64,
    panels: u64,
    reached: Reached,
}

fn main() {
    seeded(SEED, "CHARTS", CHARTS, compare_all);
}

fn compare_all(random: Random, charts: u64) {
    let mut comparison = Comparison {
        random,
        charts: 0,
        panels: 0,
        reached: Reached::default(),
    };
    while comparison.charts.min(comparison.panels) < charts {
        comparison.compare_seeded();
    }
    println!("seeded charts: {}", comparison.charts);
    println!("seeded panels: {}", comparison.panels);
    comparison.reached.print();
    comparison.require(charts);
    comparison.compare_fitted();
    comparison.compare_drawings();
    println!("charts in all: {}", comparison.charts);
    println!("panels in all: {}", comparison.panels);
}

impl Comparison {
    /// Figures within the limits in both calls, or with a fault of the figures, of a channel, or of
    /// both.
    fn compare_seeded(&mut self) {
        let made = chart_figures::any(&mut self.random);
        let figures = made.figures;
        match self.random.below(8) {
            0..5 => {
                for kind in made.places {
                    self.reached.count(format!("place: {kind:?}"));
                }
                self.reached.count(format!("radius: {:?}", made.radius));
                self.compare_whole(&figures);
            }
            5..7 => self.compare_figures_outside(figures),
            _ => self.compare_channel_outside(&figures),
        }
    }

    fn compare_whole(&mut self, figures: &EnvelopeFigures) {
        let channels = chart_figures::channels(&mut self.random, figures.n);
        let same = if channels.0 == channels.1 {
            "the same"
        } else {
            "different"
        };
        let chart = self.compare_chart(figures, channels);
        assert!(chart.outcome.is_ok(), "{}", chart.shown());
        self.reached.count(format!("channels: {same}"));
        let panel = self.compare_panel(figures);
        assert!(panel.outcome.is_ok(), "{}", panel.shown());
    }

    /// One figure outside its limits, the channels within 1 to n or not.
    fn compare_figures_outside(&mut self, mut figures: EnvelopeFigures) {
        let random = &mut self.random;
        let mut channels = chart_figures::channels(random, figures.n);
        if random.once_in(4) {
            let fault = random.pick(&CHANNEL_FAULTS);
            channels.0 = chart_figures::channel_outside(random, figures.n, fault);
        }
        let fault = random.pick(&FIGURE_FAULTS);
        let place = random.index(figures.n);
        envelopes::put(random, &mut figures, fault, place);
        let chart = self.compare_chart(&figures, channels);
        assert_eq!(chart.outcome, Err(OUTSIDE_LIMITS), "{}", chart.shown());
        let panel = self.compare_panel(&figures);
        assert_eq!(panel.outcome, Err(OUTSIDE_LIMITS), "{}", panel.shown());
        self.reached.count(format!("figure: {fault:?}"));
    }

    /// One or both channels outside 1 to n; the panel has none.
    fn compare_channel_outside(&mut self, figures: &EnvelopeFigures) {
        let random = &mut self.random;
        let (horizontal, vertical) = chart_figures::channels(random, figures.n);
        let fault = random.pick(&CHANNEL_FAULTS);
        let outside = chart_figures::channel_outside(random, figures.n, fault);
        let (axis, channels) = random.pick(&[
            ("horizontal", (outside, vertical)),
            ("vertical", (horizontal, outside)),
            ("both", (outside, outside)),
        ]);
        let chart = self.compare_chart(figures, channels);
        assert_eq!(chart.outcome, Err(OUTSIDE_LIMITS), "{}", chart.shown());
        let panel = self.compare_panel(figures);
        assert!(panel.outcome.is_ok(), "{}", panel.shown());
        self.reached.count(fault_name(axis, fault));
    }

    fn compare_chart(&mut self, figures: &EnvelopeFigures, channels: (usize, usize)) -> Chart {
        let chart = Chart::new(figures, channels);
        chart.compare();
        if self.random.once_in(16) {
            chart.compare_wrapper();
        }
        self.charts += 1;
        let answer = match chart.outcome {
            Ok(Mark::Dot(_)) => "dot",
            Ok(Mark::Disc { .. }) => "disc",
            Err(_) => "refusal 8",
        };
        self.reached.count(format!("chart: {answer}"));
        chart
    }

    /// With steps enough, or of any length up to two more than n.
    fn compare_panel(&mut self, figures: &EnvelopeFigures) -> Panel {
        let panel = Panel::new(figures);
        let n = figures.n.min(CHANNEL_LIMIT);
        let any = self.random.index(n + 3);
        let length = self.random.pick(&[n, CHANNEL_LIMIT, n + 40, any]);
        let number = panel.compare(&mut self.random, length);
        if self.random.once_in(16) {
            panel.compare_wrapper();
        }
        self.panels += 1;
        self.reached.count(panel_name(number));
        if panel.outcome.is_ok() && length <= n + 2 {
            self.reached.count(length_name(n, length));
        }
        panel
    }

    /// Stops the tests where an answer, a kind of X or M, a fault or a length of the steps was not
    /// met often enough.
    fn require(&self, charts: u64) {
        for name in answers() {
            self.reached.require(&name, charts / ANSWER_SHARE);
        }
        for name in faults() {
            self.reached.require(&name, charts / KIND_SHARE);
        }
        for n in 1..=CHANNEL_LIMIT {
            for length in 0..=n + 2 {
                let name = length_name(n, length);
                self.reached.require(&name, charts / (2 * KIND_SHARE));
            }
        }
    }

    /// Both calls on the figures of an envelope of these rows, for one pair of channels; every row
    /// lies in the disc of every pair.
    fn compare_envelope(&mut self, rows: &[Vector], figures: &EnvelopeFigures) -> Tested {
        self.compare_whole(figures);
        projections::test(rows, figures)
    }

    fn compare_fitted(&mut self) {
        let makers: [fn(&mut Random) -> Fitted; 2] = [envelopes::drawn, envelopes::checked];
        let mut tested = Tested::default();
        for make in makers {
            for _ in 0..FITTED {
                let Fitted { reference, figures } = make(&mut self.random);
                let rows = envelopes::set_of(&reference).rows();
                tested += self.compare_envelope(&rows, &figures);
            }
        }
        println!("drawn and checked envelopes: {}, {tested:?}", 2 * FITTED);
        assert!(tested.on_one > FITTED * 10 && tested.on_two > FITTED * 20);
        assert!(tested.reaching > FITTED / 2, "{tested:?}");
    }

    /// Envelopes of every shape that the product draws.
    fn compare_drawings(&mut self) {
        let (mut tested, mut full) = (Tested::default(), 0);
        for _ in 0..DRAWINGS {
            let random = &mut self.random;
            let (shape, (m, n)) = (random.pick(&SHAPES), sets::size(random));
            let set = sets::set(random, shape, m, n);
            let codes: Vec<u8> = (0..n).map(|_| random.between(1, 8) as u8).collect();
            let budget = random.pick(&BUDGETS);
            let drawing = cundarivo::draw(&set.places, m, n, budget).expect("rows within limits");
            let figures = lent(&drawing.figures(&codes));
            tested += self.compare_envelope(&set.rows(), &figures);
            full += u64::from((m, n) == (ROW_LIMIT, CHANNEL_LIMIT));
        }
        println!("drawings: {DRAWINGS}, of 256 rows and 8 channels: {full}, {tested:?}");
        assert!(full > 0, "no drawing of 256 rows and 8 channels");
        assert!(
            tested.on_two > DRAWINGS * 50 && tested.reaching > DRAWINGS / 2,
            "{tested:?}"
        );
    }
}

/// The product's figures as the outside implementation takes them.
fn lent(figures: &cundarivo::Figures) -> EnvelopeFigures {
    let given = figures.given();
    EnvelopeFigures {
        n: given.n,
        types: figures.codes.clone(),
        scaled_centre: figures.scaled_centre.clone(),
        scaled_squared_radius: given.scaled_squared_radius,
        scaled_lower_bound: given.scaled_lower_bound,
        settled: given.settled,
        moves: given.moves,
    }
}

fn panel_name(number: u32) -> String {
    match number {
        0 => String::from("panel: accepted"),
        _ => format!("panel: refusal {number}"),
    }
}

fn length_name(n: usize, length: usize) -> String {
    format!("steps: {length} of {n}")
}

fn fault_name(axis: &str, fault: ChannelFault) -> String {
    format!("channel: {axis} {fault:?}")
}

fn answers() -> Vec<String> {
    let mut names: Vec<String> = [0, 8, 13].map(panel_name).into();
    names.extend(["dot", "disc", "refusal 8"].map(|mark| format!("chart: {mark}")));
    names.extend(["the same", "different"].map(|kind| format!("channels: {kind}")));
    names.extend(PLACES.map(|kind| format!("place: {kind:?}")));
    names.extend(RADII.map(|kind| format!("radius: {kind:?}")));
    names
}

fn faults() -> Vec<String> {
    let mut names: Vec<String> = FIGURE_FAULTS
        .map(|fault| format!("figure: {fault:?}"))
        .into();
    for axis in ["horizontal", "vertical", "both"] {
        names.extend(CHANNEL_FAULTS.map(|fault| fault_name(axis, fault)));
    }
    names
}
