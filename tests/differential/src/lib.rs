//! The product compared with the outside implementation.
//!
//! - `compare`: one case through both, every figure and every place of lent memory compared.
//! - `compare_text`: one reference text through both, in the same way.
//! - `compare_reading`: one reading through both, in the same way.
//! - `compare_measured`: one measured reading through both, in the same way.
//! - `compare_record`: one record read and one envelope written through both, in the same way.
//! - `compare_reference_writing`: one reference text written through both, in the same way.
//! - `compare_trial`: one trial of alert settings through both, in the same way.
//! - `compare_chart`: one chart and one panel through both, in the same way.
//! - `compare_program`: one run of a program through both, in the same way.
//! - `product`: the figures of an envelope, refusals and answers, as the product takes and gives them.
//! - `lent`: slices lent to the product, with what lies round them.
//! - `named`: tests by the names of known cases.
//! - `tally`: what was compared and which refusals were reached.
//! - `seeded`: a run of seeded comparisons.
//! - `reached`: how often each outcome and each kind of input was met.

pub mod compare;
pub mod compare_chart;
pub mod compare_measured;
pub mod compare_program;
pub mod compare_reading;
pub mod compare_record;
pub mod compare_reference_writing;
pub mod compare_text;
pub mod compare_trial;
pub mod lent;
pub mod named;
pub mod product;
pub mod reached;
pub mod seeded;
pub mod tally;
