//! Bad figures and channels of charts and panels, those at the limits and the examples of document
//! 01, each by a test of its own; and every count, length, code and edge in turn.

use differential::compare_chart::{Chart, Panel};
use differential::named;
use differential::product::given;
use outside::chart_figures;
use outside::envelopes;
use outside::known_charts::{self, KnownChart, eight_channels, one_channel};
use outside::known_readings::record;
use outside::random::Random;
use outside::readings::{CENTRE_LIMIT, DISTANCE_LIMIT, EnvelopeFigures};
use outside::rules::OUTSIDE_LIMITS;

/// The product gives both answers that are written down, the panel in every length of steps that is
/// enough.
fn holds(list: Vec<KnownChart>, name: &str) {
    let known = list.into_iter().find(|known| known.name == name);
    let known = known.expect("a known chart");
    let chart = Chart::new(&known.figures, known.channels);
    let mark = known.mark.map(|mark| mark.map(f64::to_bits));
    assert_eq!(chart.outcome, mark, "the outside implementation");
    chart.compare();
    chart.compare_wrapper();
    let panel = Panel::new(&known.figures);
    assert_eq!(panel.outcome, known.panel, "the outside implementation");
    let shown = known.panel.as_ref().map_or(0, Vec::len);
    let owed = known.panel.map_or_else(|refusal| refusal.number, |_| 0);
    for length in [shown, shown + 1, 8, 11] {
        assert_eq!(panel.compare(&mut Random::new(61), length), owed);
    }
    panel.compare_wrapper();
}

named!(examples, outside::known_charts::examples:
    record record_exchanged record_1_twice record_2_twice record_budget_1 rows_0_10 rows_0_1
    one_row_7 rows_5_5
);

named!(dots_above, outside::known_charts::dots_above:
    x_0 x_1 x_2 x_32767 x_32768 x_32769 x_65535 x_65536 x_65537 x_98303 x_98304 x_98305 x_163840
    x_one_less x_most
);

named!(dots_below, outside::known_charts::dots_below:
    minus_1 minus_2 minus_32767 minus_32768 minus_32769 minus_65535 minus_65536 minus_65537
    minus_98303 minus_98304 minus_98305 minus_163840 one_more least
);

named!(small_radii, outside::known_charts::small_radii:
    m_1 m_2 m_3 m_4 m_5 m_8 m_9 m_10 m_15 m_16
);

named!(squares, outside::known_charts::squares:
    d_less_1 d_squared d_more_1 wide_less_1 wide_squared wide_more_1 last_less_1 last_squared
    last_more_1 limit_less_1 limit
);

named!(channels, outside::known_charts::channels:
    first_and_last last_and_first last_twice first_twice third_and_fourth
);

named!(channels_outside, outside::known_charts::channels_outside:
    horizontal_0 vertical_0 both_0 horizontal_3_of_2 vertical_3_of_2 both_3_of_2 horizontal_most
    vertical_most both_most horizontal_in_8_bits vertical_in_8_bits horizontal_in_32_bits
    vertical_in_32_bits horizontal_wraps vertical_wraps horizontal_past_n vertical_past_n
    horizontal_9_of_8 vertical_9_of_8
);

named!(figures_outside, outside::known_charts::figures_outside:
    channels_0 channels_9 channels_in_32_bits channels_most code_0 code_9 code_0_last code_9_last
    code_255 centre_above centre_below centre_above_last centre_below_last centre_least
    centre_most radius_above radius_most bound_above bound_most moves_1000001 moves_most settled_2
    settled_most types_short types_none centre_short centre_none
);

named!(figures_at_the_limits, outside::known_charts::figures_at_the_limits:
    radius_limit bound_limit bound_0 moves_1000000 moves_0 settled_0 places_past_the_channels
);

/// Both calls on the same figures, which they accept or refuse by 8.
fn compare_both(figures: &EnvelopeFigures, channels: (usize, usize), accepted: bool) {
    let chart = Chart::new(figures, channels);
    let panel = Panel::new(figures);
    assert_eq!(chart.outcome.is_ok(), accepted, "{}", chart.shown());
    assert_eq!(panel.outcome.is_ok(), accepted, "{}", panel.shown());
    chart.compare();
    chart.compare_wrapper();
    let number = panel.compare(&mut Random::new(62), 9);
    assert_eq!(number, if accepted { 0 } else { 8 }, "{}", panel.shown());
    panel.compare_wrapper();
}

/// The first n of eight channels, nothing lent past them.
fn first_channels(n: usize) -> EnvelopeFigures {
    let mut figures = eight_channels();
    figures.n = n;
    figures.types.truncate(n);
    figures.scaled_centre.truncate(n);
    figures
}

/// The calls of document 01's record, in numbers.
#[test]
fn answers_in_numbers() {
    let figures = given(&record());
    let (types, centre) = ([1, 4], [196_608, 262_144]);
    let chart = |figures, horizontal, vertical| {
        let answer = cundarivo::chart_given(figures, &types, &centre, horizontal, vertical);
        let numbers = (answer.number, answer.line, answer.mark);
        let [x, y, radius] = [answer.horizontal, answer.vertical, answer.radius];
        (numbers, [x.to_bits(), y.to_bits(), radius.to_bits()])
    };
    let bits = |numbers: [f64; 3]| numbers.map(f64::to_bits);
    assert_eq!(chart(figures, 1, 2), ((0, 0, 2), bits([3.0, 4.0, 5.0])));
    assert_eq!(chart(figures, 2, 2), ((0, 0, 2), bits([4.0, 4.0, 5.0])));
    assert_eq!(chart(figures, 0, 2), ((8, 0, 0), [0; 3]));
    assert_eq!(chart(figures, 1, 3), ((8, 0, 0), [0; 3]));
    let dot = cundarivo::FiguresGiven {
        scaled_squared_radius: 0,
        ..figures
    };
    assert_eq!(chart(dot, 2, 1), ((0, 0, 1), bits([4.0, 3.0, 0.0])));
    let panel = |length: usize| {
        let mut steps = [9; 4];
        let answer = cundarivo::panel_into(figures, &types, &centre, &mut steps[..length]);
        (answer.number, answer.line, steps)
    };
    assert_eq!(panel(0), (13, 0, [9; 4]));
    assert_eq!(panel(1), (13, 0, [9; 4]));
    assert_eq!(panel(2), (0, 0, [3, 4, 9, 9]));
    assert_eq!(panel(4), (0, 0, [3, 4, 9, 9]));
}

/// Every n from 0 to 9, and as large as n can be, with ten places of each list.
#[test]
fn every_count_of_channels() {
    let mut refused = 0;
    for n in (0..=9).chain(envelopes::largest_counts(2)) {
        let figures = EnvelopeFigures {
            n,
            types: vec![1; 10],
            scaled_centre: (0..10).map(|step| 98_304 * step).collect(),
            ..record()
        };
        let accepted = (1..=8).contains(&n);
        compare_both(&figures, (1, 1), accepted);
        refused += u32::from(!accepted);
    }
    assert_eq!(refused, 8);
}

/// Types and X of every length from none to two more than n.
#[test]
fn every_length_of_types_and_centre() {
    let mut accepted = 0;
    for n in 1..=8 {
        for (types, centre) in (0..=n + 2).flat_map(|a| (0..=n + 2).map(move |b| (a, b))) {
            let mut figures = first_channels(n);
            figures.types.resize(types, 255);
            figures.scaled_centre.resize(centre, i64::MIN);
            let enough = types >= n && centre >= n;
            compare_both(&figures, (n, 1), enough);
            accepted += u32::from(enough);
        }
    }
    assert_eq!(accepted, 8 * 9);
}

/// Every code in every channel.
#[test]
fn every_type_code() {
    let mut accepted = 0;
    for n in 1..=8 {
        for (channel, code) in (0..n).flat_map(|c| (0..=255).map(move |code| (c, code))) {
            let mut figures = first_channels(n);
            figures.types[channel] = code;
            let known = (1..=8).contains(&code);
            compare_both(&figures, (1, n), known);
            accepted += u32::from(known);
        }
    }
    assert_eq!(accepted, 8 * (1 + 2 + 3 + 4 + 5 + 6 + 7 + 8));
}

/// M, L, the moves and the ending, each within its limits, at them and outside.
#[test]
fn every_figure_about_its_limit() {
    let within = |value: u64, limit: u64| value <= limit;
    let distances = [0, 1, DISTANCE_LIMIT - 1, DISTANCE_LIMIT, DISTANCE_LIMIT + 1];
    let mut compared = 0;
    let mut compare = |change: &dyn Fn(&mut EnvelopeFigures), accepted: bool| {
        let mut figures = eight_channels();
        change(&mut figures);
        compare_both(&figures, (8, 7), accepted);
        compared += 1;
    };
    for distance in distances.into_iter().chain([1 << 63, u64::MAX]) {
        let accepted = within(distance, DISTANCE_LIMIT);
        compare(
            &|figures| figures.scaled_squared_radius = distance,
            accepted,
        );
        compare(&|figures| figures.scaled_lower_bound = distance, accepted);
    }
    for moves in [0, 1, 999_999, 1_000_000, 1_000_001, u32::MAX] {
        let accepted = within(moves.into(), 1_000_000);
        compare(&|figures| figures.moves = moves, accepted);
    }
    for settled in [0, 1, 2, 3, 255, 256, 257, 1 << 31, u32::MAX] {
        compare(&|figures| figures.settled = settled, settled <= 1);
    }
    assert_eq!(compared, 14 + 6 + 9);
}

/// X at every edge and outside its limits, in every channel of every n, charted on both axes.
#[test]
fn every_edge_of_the_centre() {
    let outside = [CENTRE_LIMIT + 1, 1 << 32, i64::MAX, (1 << 32) + 1];
    let edges = chart_figures::centre_edges().into_iter();
    let refused = outside.into_iter().flat_map(|place| [place, -place]);
    let mut compared = 0;
    for place in edges.chain(refused).chain([i64::MIN]) {
        let accepted = (-CENTRE_LIMIT..=CENTRE_LIMIT).contains(&place);
        for (n, channel) in (1..=8).flat_map(|n| (1..=n).map(move |c| (n, c))) {
            let mut figures = first_channels(n);
            figures.scaled_centre[channel - 1] = place;
            compare_both(&figures, (channel, n), accepted);
            compare_both(&figures, (n, channel), accepted);
            compared += 1;
        }
    }
    assert_eq!(compared, (29 + 9) * 36);
}

/// M at every edge: the small ones, squares and the numbers beside them, the limit.
#[test]
fn every_edge_of_the_radius() {
    let edges = chart_figures::radius_edges();
    assert!(edges.len() > 240);
    for radius in edges {
        let chart = Chart::new(&one_channel(-1, radius), (1, 1));
        assert!(chart.outcome.is_ok());
        chart.compare();
        chart.compare_wrapper();
    }
}

/// Every pair of channels from 0 to n + 2 and of the largest numbers, with places past n lent.
#[test]
fn every_pair_of_channels() {
    let (mut accepted, mut refused) = (0, 0);
    for n in 1..=8 {
        let mut figures = first_channels(n);
        figures.types.extend([1; 4]);
        figures.scaled_centre.extend([65_536; 4]);
        let channels: Vec<usize> = (0..=n + 2).chain(envelopes::largest_counts(n)).collect();
        for (&a, &b) in channels
            .iter()
            .flat_map(|a| channels.iter().map(move |b| (a, b)))
        {
            let chart = Chart::new(&figures, (a, b));
            let within = (1..=n).contains(&a) && (1..=n).contains(&b);
            assert_eq!(chart.outcome.is_ok(), within, "{}", chart.shown());
            chart.compare();
            chart.compare_wrapper();
            accepted += u32::from(within);
            refused += u32::from(!within);
        }
    }
    assert_eq!(accepted, 1 + 4 + 9 + 16 + 25 + 36 + 49 + 64);
    assert!(refused > 1_000, "{refused}");
}

/// Every known panel in steps of every length from none to two more than n: 13 comes after 8.
#[test]
fn every_length_of_steps() {
    let random = &mut Random::new(63);
    let (mut short, mut refused) = (0, 0);
    let every_n = (1..=8).map(first_channels);
    let known = known_charts::all().into_iter().map(|known| known.figures);
    for figures in every_n.chain(known) {
        let panel = Panel::new(&figures);
        for length in 0..=figures.n.min(8) + 2 {
            let number = panel.compare(random, length);
            let owed = match &panel.outcome {
                Err(refusal) => refusal.number,
                Ok(shown) if length < shown.len() => 13,
                Ok(_) => 0,
            };
            assert_eq!(number, owed, "{}", panel.shown());
            short += u32::from(number == 13);
            refused += u32::from(number == 8);
        }
    }
    assert!(short > 100 && refused > 100, "{short}, {refused}");
}

/// Places past n change no answer, whatever stands there.
#[test]
fn places_past_the_channels_do_not_count() {
    let random = &mut Random::new(65);
    let (mut marks, mut panels) = (0, 0);
    for known in known_charts::all() {
        let EnvelopeFigures { n, ref types, .. } = known.figures;
        if n != types.len() || n != known.figures.scaled_centre.len() {
            continue;
        }
        let mut longer = known.figures.clone();
        longer.types.extend([0, 9, 255]);
        let past = [i64::MIN, CENTRE_LIMIT + 1, i64::MAX];
        longer.scaled_centre.extend(past);
        let (chart, panel) = (Chart::new(&longer, known.channels), Panel::new(&longer));
        let mark = known.mark.map(|mark| mark.map(f64::to_bits));
        assert_eq!(chart.outcome, mark, "{}", known.name);
        assert_eq!(panel.outcome, known.panel, "{}", known.name);
        chart.compare();
        panel.compare(random, n.min(8));
        marks += u32::from(mark.is_ok());
        panels += u32::from(known.panel.is_ok());
    }
    assert!(marks > 60 && panels > 70, "{marks}, {panels}");
}

/// Channels outside 1 to n and figures outside their limits, both at once: 8 all the same.
#[test]
fn figures_and_channels_outside() {
    let list = known_charts::figures_outside();
    assert!(list.len() > 20);
    for known in list {
        for channels in [(0, 0), (1, 3), (usize::MAX, 2), (9, 9)] {
            let chart = Chart::new(&known.figures, channels);
            assert_eq!(chart.outcome, Err(OUTSIDE_LIMITS), "{}", known.name);
            chart.compare();
        }
    }
}
