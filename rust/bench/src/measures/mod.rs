pub mod ceilings;
pub mod query;
pub mod ramp;
pub mod sheet;
pub mod step;
pub mod timing;
pub mod walk;
pub mod wide;
