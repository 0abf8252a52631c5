// The root of isdbs-core.
pub mod combination;
pub mod frame;
pub mod slots;
pub mod tmcc;

pub use combination::{Combination, CombinationWord};
pub use tmcc::TmccInfo;
