//! The outside implementation of charts and the panel held to answers that were written down or are
//! known from how a call was made.

use outside::chart_figures::{self, CHANNEL_FAULTS, PLACES, RADII, ROOT_LIMIT};
use outside::charts::{self, Mark};
use outside::envelopes::{self, FIGURE_FAULTS, Fitted};
use outside::fractions::Fraction;
use outside::known_charts;
use outside::known_readings::record;
use outside::projections::{self, Tested};
use outside::random::Random;
use outside::readings::{CENTRE_LIMIT, DISTANCE_LIMIT, EnvelopeFigures};
use outside::rules::{self, BUFFER_TOO_SHORT, OUTSIDE_LIMITS};
use std::collections::BTreeSet;

fn fraction(numerator: i128, denominator: i128) -> Fraction {
    Fraction {
        numerator,
        denominator,
    }
}

/// Bits written down by hand: sign, eleven bits of the exponent, mantissa.
#[test]
fn bits_of_known_fractions() {
    let list = [
        (0, 1, 0),
        (0, 65_536, 0),
        (1, 1, 0x3FF0_0000_0000_0000),
        (-1, 1, 0xBFF0_0000_0000_0000),
        (65_536, 65_536, 0x3FF0_0000_0000_0000),
        (32_768, 65_536, 0x3FE0_0000_0000_0000),
        (196_608, 65_536, 0x4008_0000_0000_0000),
        (262_144, 65_536, 0x4010_0000_0000_0000),
        (327_680, 65_536, 0x4014_0000_0000_0000),
        (1, 65_536, 0x3EF0_0000_0000_0000),
        (-1, 65_536, 0xBEF0_0000_0000_0000),
        (32_767, 65_536, 0x3FDF_FFC0_0000_0000),
        (262_144_000, 65_536, 0x40AF_4000_0000_0000),
        (-262_144_000, 65_536, 0xC0AF_4000_0000_0000),
        (1_482_910_401, 65_536, 0x40D6_18DA_B040_0000),
        (3, 12, 0x3FD0_0000_0000_0000),
        ((1 << 53) - 1, 1, 0x433F_FFFF_FFFF_FFFF),
        (1 << 53, 1, 0x4340_0000_0000_0000),
        ((1 << 53) + 2, 1, 0x4340_0000_0000_0001),
        (i128::MIN, 1, 0xC7E0_0000_0000_0000),
        (1, 1 << 126, 0x3810_0000_0000_0000),
    ];
    for (numerator, denominator, bits) in list {
        let given = fraction(numerator, denominator).binary64();
        assert_eq!(given, Some(bits), "{numerator}/{denominator}");
    }
}

/// The compiler's own reading of all the decimals ends in the same bits.
#[test]
#[allow(clippy::excessive_precision)]
fn bits_of_decimals() {
    for (numerator, decimal) in [
        (1, 0.000_015_258_789_062_5_f64),
        (-32_769, -0.500_015_258_789_062_5),
        (98_303, 1.499_984_741_210_937_5),
        (262_143_999, 3_999.999_984_741_210_937_5),
        (1_482_910_401, 22_627.417_007_446_289_062_5),
    ] {
        let given = fraction(numerator, 65_536).binary64();
        assert_eq!(given, Some(decimal.to_bits()), "{numerator}");
    }
}

#[test]
fn fractions_that_no_binary64_equals() {
    let list = [
        (1, 3),
        (1, 10),
        (-65_537, 65_535),
        ((1 << 53) + 1, 1),
        ((1 << 53) + 1, 65_536),
        (-(1 << 60) - 1, 2),
        (i128::MAX, 1),
    ];
    for (numerator, denominator) in list {
        let given = fraction(numerator, denominator).binary64();
        assert_eq!(given, None, "{numerator}/{denominator}");
    }
}

/// What the bits say, taken apart in whole numbers, is the fraction: mantissa times 2^power times D
/// is the numerator, and zero has no sign.
fn stands_for(bits: u64, numerator: i128) {
    let (sign, exponent, mantissa) = (bits >> 63, bits >> 52 & 0x7FF, bits & ((1 << 52) - 1));
    if numerator == 0 {
        assert_eq!(bits, 0);
        return;
    }
    assert!((1..0x7FF).contains(&exponent), "a normal number");
    let power = exponent as i64 - 1_023 - 52 + 16;
    let whole = i128::from(mantissa) + (1 << 52);
    match power {
        0.. => assert_eq!(whole << power, numerator.abs()),
        _ => assert_eq!(whole, numerator.abs() << -power),
    }
    assert_eq!(sign == 1, numerator < 0);
}

/// Every numerator that a chart can have, at the edges and at random.
#[test]
fn bits_stand_for_their_fraction() {
    let mut random = Random::new(51);
    let mut numerators: BTreeSet<i128> = chart_figures::centre_edges()
        .into_iter()
        .map(i128::from)
        .collect();
    numerators.extend(-100_000..100_000);
    for _ in 0..200_000 {
        let kind = random.pick(&PLACES);
        numerators.insert(chart_figures::place(&mut random, kind).into());
        numerators.insert(i128::from(random.below(ROOT_LIMIT + 2)));
    }
    assert!(numerators.len() > 400_000, "{}", numerators.len());
    for numerator in numerators {
        let bits = fraction(numerator, 65_536).binary64();
        stands_for(bits.expect("a fraction of binary64"), numerator);
    }
}

/// The root's square is at least M, and that of the number below it is not.
fn is_root(square: u64) {
    let (root, square) = (charts::root_above(square.into()), u128::from(square));
    assert!(root * root >= square, "{square}: {root}");
    assert!(
        root == 0 || (root - 1) * (root - 1) < square,
        "{square}: {root}"
    );
}

#[test]
fn roots() {
    assert_eq!(
        [0, 1, 2, 4, 5, 9, 10, 99, 100, 101].map(charts::root_above),
        [0, 1, 2, 2, 3, 3, 4, 10, 10, 11]
    );
    assert_eq!(charts::root_above(107_374_182_400), 327_680);
    assert_eq!(charts::root_above(223_338_299_392), 472_587);
    assert_eq!(charts::root_above(DISTANCE_LIMIT.into()), 1_482_910_401);
    (0..1_000_000).for_each(is_root);
    chart_figures::radius_edges().into_iter().for_each(is_root);
    let mut random = Random::new(52);
    for kind in RADII {
        for _ in 0..50_000 {
            is_root(chart_figures::radius(&mut random, kind));
        }
    }
}

/// Of a square and the numbers beside it, the roots are known without a method.
#[test]
fn roots_beside_squares() {
    let mut random = Random::new(53);
    for _ in 0..200_000 {
        let root = 2 + u128::from(random.below(ROOT_LIMIT - 1) >> random.below(30));
        let square = root * root;
        let roots = [square - 1, square, square + 1].map(charts::root_above);
        assert_eq!(roots, [root, root, root + 1], "{square}");
    }
}

#[test]
fn known_charts_hold() {
    let list = known_charts::all();
    assert!(list.len() >= 100, "{}", list.len());
    for known in list {
        let (horizontal, vertical) = known.channels;
        let mark = charts::chart(&known.figures, horizontal, vertical).map(Mark::binary64);
        let owed = known.mark.map(|mark| mark.map(f64::to_bits));
        assert_eq!(mark, owed, "{}", known.name);
        assert_eq!(charts::panel(&known.figures), known.panel, "{}", known.name);
    }
}

/// Document 01: X = -32,768 shows -1; -32,767 shows 0; 32,768 shows 1.
#[test]
fn trial_figures_of_the_panel() {
    let figures = EnvelopeFigures {
        n: 3,
        types: vec![8; 3],
        scaled_centre: vec![-32_768, -32_767, 32_768],
        ..record()
    };
    assert_eq!(charts::panel(&figures), Ok(vec![-1, 0, 1]));
}

/// A step is at most half a step from the centre, and at exactly half it is farther from zero.
#[test]
fn steps_are_nearest() {
    let mut random = Random::new(54);
    let mut halves = 0;
    for _ in 0..50_000 {
        let figures = chart_figures::any(&mut random).figures;
        let steps = charts::panel(&figures).expect("figures within the limits");
        assert_eq!(steps.len(), figures.n);
        for (&step, &place) in steps.iter().zip(&figures.scaled_centre) {
            let shown = 65_536 * i64::from(step);
            let aside = (shown - place).abs();
            assert!(aside <= 32_768, "{place} shows {step}");
            assert!(aside < 32_768 || shown.abs() > place.abs(), "{place}");
            halves += u32::from(aside == 32_768);
        }
    }
    assert!(halves > 20_000, "{halves}");
}

/// Every place from -3 to 3 steps, with the steps written down: -2.5 to 2.5 go outwards.
#[test]
fn steps_near_zero() {
    let mut changes = Vec::new();
    let mut last = -4;
    for place in -200_000..=200_000_i64 {
        let shown = charts::panel(&known_charts::one_channel(place, 0)).expect("within limits");
        if shown != [last] {
            changes.push((place, shown[0]));
            last = shown[0];
        }
    }
    let owed = [
        (-200_000, -3),
        (-163_839, -2),
        (-98_303, -1),
        (-32_767, 0),
        (32_768, 1),
        (98_304, 2),
        (163_840, 3),
    ];
    assert_eq!(changes, owed);
}

/// The mark of every pair of channels has X over D of these two, whatever stands past n.
#[test]
fn marks_of_every_pair_of_channels() {
    let mut random = Random::new(55);
    let (mut dots, mut discs) = (0, 0);
    for _ in 0..5_000 {
        let figures = chart_figures::any(&mut random).figures;
        for (a, b) in pairs(figures.n) {
            let mark = charts::chart(&figures, a, b).expect("channels within 1 to n");
            match mark {
                Mark::Dot(_) => dots += 1,
                Mark::Disc { .. } => discs += 1,
            }
            is_mark_of(mark, &figures, [a, b]);
        }
    }
    assert!(dots > 10_000 && discs > 50_000, "{dots}, {discs}");
}

fn is_mark_of(mark: Mark<Fraction>, figures: &EnvelopeFigures, channels: [usize; 2]) {
    let squared = u128::from(figures.scaled_squared_radius);
    let (centre, radius) = match mark.binary64() {
        Mark::Dot(centre) => (centre, None),
        Mark::Disc { centre, radius } => (centre, Some(radius)),
    };
    assert_eq!(radius.is_some(), squared > 0);
    if let Some(bits) = radius {
        stands_for(bits, charts::root_above(squared) as i128);
    }
    let coordinates = [centre.horizontal, centre.vertical];
    for (bits, channel) in coordinates.into_iter().zip(channels) {
        stands_for(bits, figures.scaled_centre[channel - 1].into());
    }
}

fn pairs(n: usize) -> impl Iterator<Item = (usize, usize)> {
    (1..=n).flat_map(move |a| (1..=n).map(move |b| (a, b)))
}

#[test]
fn channels_outside_are_refused() {
    let mut random = Random::new(56);
    let mut refused = 0;
    for fault in CHANNEL_FAULTS {
        for _ in 0..2_000 {
            let figures = chart_figures::any(&mut random).figures;
            let outside = chart_figures::channel_outside(&mut random, figures.n, fault);
            assert!(!(1..=figures.n).contains(&outside), "{fault:?}");
            let within = 1 + random.index(figures.n);
            for (a, b) in [(outside, within), (within, outside), (outside, outside)] {
                let outcome = charts::chart(&figures, a, b);
                assert_eq!(outcome.map(Mark::binary64), Err(OUTSIDE_LIMITS));
                refused += 1;
            }
            assert!(charts::panel(&figures).is_ok());
        }
    }
    assert_eq!(refused, 4 * 2_000 * 3);
}

#[test]
fn figures_outside_are_refused() {
    let mut random = Random::new(57);
    let mut refused = 0;
    for fault in FIGURE_FAULTS {
        for _ in 0..500 {
            let mut figures = chart_figures::any(&mut random).figures;
            let channel = random.index(figures.n);
            envelopes::put(&mut random, &mut figures, fault, channel);
            let outcome = charts::chart(&figures, 1, 1).map(Mark::binary64);
            assert_eq!(outcome, Err(OUTSIDE_LIMITS), "{fault:?}");
            assert_eq!(charts::panel(&figures), Err(OUTSIDE_LIMITS), "{fault:?}");
            refused += 1;
        }
    }
    assert_eq!(refused, 21 * 500);
}

/// Steps of every length from none: filled in the first places alone, or not at all.
#[test]
fn steps_are_handed_out() {
    let shown = charts::panel(&known_charts::eight_channels()).expect("within limits");
    let mut short = 0;
    for length in 0..=10 {
        let mut steps = vec![77; length];
        let outcome = rules::hand_out(&shown, &mut steps);
        if length < 8 {
            assert_eq!(outcome, Err(BUFFER_TOO_SHORT));
            assert!(steps.iter().all(|&step| step == 77));
            short += 1;
        } else {
            assert_eq!(outcome, Ok(()));
            assert_eq!(steps[..8], [1, 2, 3, 4, 5, 6, 7, 8]);
            assert!(steps[8..].iter().all(|&step| step == 77));
        }
    }
    assert_eq!(short, 8);
}

/// X and M of every kind are within their limits, and near what their kind says.
#[test]
fn kinds_of_figures() {
    let mut random = Random::new(58);
    let (mut limits, mut most) = (0, 0);
    for _ in 0..5_000 {
        for kind in PLACES {
            let place = chart_figures::place(&mut random, kind);
            assert!(place.abs() <= CENTRE_LIMIT);
            limits += u32::from(place.abs() == CENTRE_LIMIT);
        }
        for kind in RADII {
            let radius = chart_figures::radius(&mut random, kind);
            assert!(radius <= DISTANCE_LIMIT);
            most += u32::from(radius == DISTANCE_LIMIT);
        }
    }
    assert!(limits > 5_000 && most > 10, "{limits}, {most}");
    let edges = chart_figures::centre_edges();
    assert_eq!(edges.iter().collect::<BTreeSet<_>>().len(), 29);
    let edges: BTreeSet<u64> = chart_figures::radius_edges().into_iter().collect();
    assert!(edges.len() > 240 && edges.contains(&DISTANCE_LIMIT));
}

/// In the chart of two channels every row lies in the disc, and in that of one within the radius.
#[test]
fn rows_lie_in_the_disc() {
    let mut random = Random::new(59);
    let makers: [fn(&mut Random) -> Fitted; 2] = [envelopes::drawn, envelopes::checked];
    let mut tested = Tested::default();
    for make in makers {
        for _ in 0..2_000 {
            let Fitted { reference, figures } = make(&mut random);
            let rows = envelopes::set_of(&reference).rows();
            tested += projections::test(&rows, &figures);
        }
    }
    let Tested {
        on_one,
        on_two,
        reaching,
    } = tested;
    assert!(
        on_one > 40_000 && on_two > 100_000 && reaching > 1_000,
        "{tested:?}"
    );
}

/// A root less by 1 would leave rows out, so that the test of the projections is not empty.
#[test]
#[should_panic(expected = "(1, 2)")]
fn a_smaller_radius_leaves_a_row_out() {
    let smaller = EnvelopeFigures {
        scaled_squared_radius: 327_679 * 327_679,
        ..record()
    };
    projections::test(&[vec![3, 4], vec![6, 0]], &smaller);
}
