//! What `bin/speed` measures with: calls that a receiver would make, and calls that grow in one measure alone.

mod guide;
mod inputs;

pub use inputs::{fifty_guides, growing, guide_files, of_dates, standard, with_lengths, Growth, Input, VALUES};
