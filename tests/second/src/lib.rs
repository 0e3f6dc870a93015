//! An independent second implementation of the naming service's rehearsal, written from the
//! rules document alone, to be compared answer for answer with the proved program.

pub mod answer;
pub mod demand;
pub mod events;
mod fill;
pub mod line;
pub mod noise;
pub mod order;
pub mod random;
pub mod schedule;
pub mod settle;
pub mod stream;
pub mod tables;
