//! The outside implementation: what the product is compared with. It shares no code with the
//! product and is written from documents 01 and 02; docs/DECISIONS.md says what its writers had seen.
//!
//! - `rules`: the figures, the move, the drawing, the check and their refusals.
//! - `reference`: reading a reference text and finding its labels, and the refusals of both.
//! - `readings`: the figures of an envelope, the verdict on a reading, s and the values of a measured
//!   reading, and the refusals.
//! - `records`: reading and writing the record of an envelope, and the refusals of both.
//! - `fractions`: exact fractions, and the bits of the binary64 number that equals one.
//! - `charts`: the mark of an envelope in a chart, what the panel shows, and the refusals of both.
//! - `reference_writing`: writing the reference text of labelled rows, and its refusals.
//! - `alerts`: alert settings tried on readings, the text of settings, and the refusals.
//! - `programs`: the six programs, each text by itself to output bytes.
//! - `random`: a seeded source of numbers.
//! - `sets`: reference sets of many shapes and sizes, whole and damaged.
//! - `cases`: arguments of the two calls, with budgets and weights of many kinds.
//! - `demands`: what demand 3 says of the figures, tested in whole numbers.
//! - `known`: the cases that document 01 and the list of bad input name, and directed ones.
//! - `stored`: a set of cases as the input and the output of a program.
//! - `written`: the files of such a set.
//! - `texts`: reference texts within the rules.
//! - `faults`: texts with two faults in both orders.
//! - `damage`: texts damaged in any way.
//! - `sweeps`: every text that is close to a small one.
//! - `known_texts`: the texts that document 01 and the list of bad input name.
//! - `stored_texts`: a set of texts as the input and the output of a program.
//! - `envelopes`: figures of envelopes, drawn, checked and arbitrary, and those outside the limits.
//! - `reading_texts`: readings within the rules.
//! - `reading_faults`: calls with one fault, and with two in both orders.
//! - `reading_damage`: readings damaged in any way.
//! - `reading_calls`: seeded calls of a reading of all these kinds.
//! - `known_readings`: the readings that document 01 and the list of bad input name.
//! - `known_measured`: measured readings of each answer and each length of the lent values.
//! - `record_texts`: rows, types, envelopes of them, and their records as lines of fields.
//! - `record_faults`: records out of form.
//! - `record_disagreements`: records in form that disagree with their rows or types.
//! - `record_calls`: calls that read a record with one fault, and with two in both orders.
//! - `record_damage`: records damaged in any way.
//! - `writing_faults`: envelopes with one fault, and with two.
//! - `reference_writing_faults`: labelled rows with one fault, and with two in both orders.
//! - `known_records`: the records that document 01 and the list of bad input name.
//! - `drawn_as_0`: records drawn while values below detection read as 0.
//! - `known_writings`: the envelopes that they name.
//! - `known_reference_writings`: the labelled rows that document 02 and the list of bad input name.
//! - `alert_trials`: seeded trials of alert settings, with readings at the edge of a ball.
//! - `settings_texts`: texts of alert settings, whole and damaged.
//! - `known_alerts`: the alert trials that document 02 and the list of bad input name.
//! - `known_programs`: texts of the programs with what these print.
//! - `program_inputs`: seeded texts of the programs, whole and with each text changed.
//! - `stored_programs`: the stored cases of the programs.
//! - `chart_figures`: figures for charts and the panel, and channels within the limits and outside.
//! - `projections`: what the radius of a mark says of the rows, tested in whole numbers.
//! - `known_charts`: the charts and panels that document 01 and the list of bad input name.

pub mod alert_trials;
pub mod alerts;
pub mod cases;
pub mod chart_figures;
pub mod charts;
pub mod damage;
pub mod demands;
pub mod drawn_as_0;
pub mod envelopes;
pub mod faults;
pub mod fractions;
pub mod known;
pub mod known_alerts;
pub mod known_charts;
pub mod known_measured;
pub mod known_programs;
pub mod known_readings;
pub mod known_records;
pub mod known_reference_writings;
pub mod known_texts;
pub mod known_writings;
pub mod program_inputs;
pub mod programs;
pub mod projections;
pub mod random;
pub mod reading_calls;
pub mod reading_damage;
pub mod reading_faults;
pub mod reading_texts;
pub mod readings;
pub mod record_calls;
pub mod record_damage;
pub mod record_disagreements;
pub mod record_faults;
pub mod record_texts;
pub mod records;
pub mod reference;
pub mod reference_writing;
pub mod reference_writing_faults;
pub mod rules;
pub mod sets;
pub mod settings_texts;
pub mod stored;
pub mod stored_programs;
pub mod stored_texts;
pub mod sweeps;
pub mod texts;
pub mod writing_faults;
pub mod written;
