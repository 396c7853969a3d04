//! Independent evidence for the session keeper.
//!
//! [`model`] implements document 01 and items 1 to 4 of document 02 from the
//! papers alone, [`generate`] makes random sequences of frames, reports, reply
//! buffers, images and arrivals, and [`compare`] runs one sequence against two
//! implementations and demands equal answers, equal buffers, equal tables,
//! equal images and equal bytes held. [`tally`] is demand 3's own bookkeeping, fed from frames,
//! reports and answers only. [`mutants`] shows that the comparison would
//! notice: every deliberate mistake in the model must be found.

pub mod compare;
pub mod coverage;
pub mod generate;
pub mod implementation;
#[cfg(feature = "library")]
pub mod library;
pub mod model;
pub mod mutants;
pub mod tally;

/// The library. Without the feature `library` the model stands in for it: that tests the harness and the
/// promises only.
#[cfg(feature = "library")]
pub fn under_test() -> library::Library {
    library::Library
}

#[cfg(not(feature = "library"))]
pub fn under_test() -> model::Model {
    model::Model::reference()
}
