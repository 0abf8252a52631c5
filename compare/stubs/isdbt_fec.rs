// The root of isdbt-fec.
pub mod conv;
