//! One trial of alert settings through the product and through the outside implementation.

use crate::compare_reading::BEHIND_TEXT;
use crate::lent::{self, Followed};
use crate::product::{LentFigures, compare_written, given, number, owned, refused};
use cundarivo::AlertSetting;
use outside::alerts::{self, Said};
use outside::programs;
use outside::random::Random;
use outside::readings::EnvelopeFigures;
use outside::rules::Refusal;

/// What follows the settings in memory: a product that read past their end would take it for more settings,
/// and for the c of a last k.
const BEHIND_SETTINGS: [u32; 4] = [1; 4];

/// Figures, settings and readings in memory, with what both must say of them.
#[derive(Clone, Debug)]
pub struct Trial {
    figures: EnvelopeFigures,
    lent: LentFigures,
    settings: Followed<u32>,
    readings: Followed<u8>,
    /// The answer by the rules, before any output is too short.
    pub outcome: Result<Vec<u8>, Refusal>,
}

impl Trial {
    pub fn new(figures: &EnvelopeFigures, settings: &[u32], readings: &[u8]) -> Trial {
        Trial {
            lent: LentFigures::new(figures),
            settings: Followed::new(settings, &BEHIND_SETTINGS),
            readings: Followed::new(readings, BEHIND_TEXT),
            outcome: alerts::try_settings(figures, settings, readings),
            figures: figures.clone(),
        }
    }

    /// The bytes that are printed, of a refused trial none.
    pub fn length(&self) -> usize {
        self.outcome.as_ref().map_or(0, Vec::len)
    }

    /// Tries the settings through both into an output of this length, and stops the tests where they differ
    /// in any number or place. Gives the number on which both agree.
    pub fn compare(&self, random: &mut Random, length: usize) -> u32 {
        let (lent, settings) = (self.lent.clone(), self.settings.clone());
        let readings = self.readings.clone();
        let tried = |output: &mut [u8]| {
            cundarivo::try_settings_into(
                given(&self.figures),
                lent.types.slice(),
                lent.centre.slice(),
                settings.slice(),
                readings.slice(),
                output,
            )
        };
        let outcome = self.outcome.as_deref().map_err(|refusal| *refusal);
        let answer = compare_written(random, length, outcome, tried, || self.shown());
        let unchanged = lent == self.lent && settings == self.settings && readings == self.readings;
        assert!(unchanged, "a place lent to be read, {}", self.shown());
        number(answer)
    }

    /// The same through the wrapper, which takes settings as pairs, no other endings than the two, and
    /// answers with a text of its own. Gives whether there are such settings and endings.
    pub fn compare_wrapper(&self) -> bool {
        let figures = owned(&self.figures);
        let (pairs, rest) = self.settings.slice().as_chunks();
        let (Some(figures), []) = (figures, rest) else {
            return false;
        };
        let setting = |&[k, c]: &[u32; 2]| AlertSetting { k, c };
        let settings: Vec<AlertSetting> = pairs.iter().map(setting).collect();
        let tried = cundarivo::try_settings(&figures, &settings, self.readings.slice());
        let expected = self.outcome.clone().map_err(refused);
        assert_eq!(tried, expected, "wrapper, {}", self.shown());
        true
    }

    /// An accepted trial is what the verdicts of the product on each line give.
    pub fn compare_verdicts(&self) {
        let settings = alerts::settings_of(self.settings.slice()).expect("accepted settings");
        let lines = programs::lines(self.readings.slice());
        let said: Vec<Said> = lines.map(|line| self.said(line)).collect();
        let printed = alerts::print(&said, &settings);
        assert_eq!(self.outcome, Ok(printed), "verdicts, {}", self.shown());
    }

    /// What the product says of a reading.
    fn said(&self, line: &[u8]) -> Said {
        let (types, centre) = (self.lent.types.slice(), self.lent.centre.slice());
        let answer = cundarivo::judge_given(given(&self.figures), types, centre, line);
        match (answer.number, answer.verdict) {
            (0, 1) => Said::Quiet,
            (0, 2) => Said::Alarm,
            (1.., 0) => Said::TurnedBack,
            _ => panic!("{answer:?}"),
        }
    }

    /// The figures, the settings and the beginning of the readings, for messages.
    pub fn shown(&self) -> String {
        let outcome = self.outcome.as_ref().map(|text| lent::shown(text));
        format!(
            "settings {:?}, {}, {:?}, owed {outcome:?}",
            self.settings.slice(),
            lent::shown(self.readings.slice()),
            self.figures
        )
    }
}
