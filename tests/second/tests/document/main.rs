//! What document 01 says, and wishes 1 and 2 of document 02, as tests of this
//! program.

mod chip;
mod completions;
mod cycles;
mod drivers;
mod files;
mod jobs;
mod loads;
mod marked;
mod parts;
mod recorded;
mod suspends;
