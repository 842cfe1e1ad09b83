//! The independent second program of the station: document 01, with wishes 1
//! and 2 of document 02, written down once more, from the papers alone, as the
//! oracle for the proved one.
//!
//! The modules follow the document: the parts, the bus cycle, the driver, the
//! job and its second call, the job file and `bill`.

pub mod bill;
pub mod cycle;
pub mod driver;
pub mod events;
pub mod file;
pub mod job;
pub mod load;
pub mod make;
pub mod part;
pub mod random;
pub mod speed;
pub mod station;
