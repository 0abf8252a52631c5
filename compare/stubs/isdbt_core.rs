// The code rates of ISDB-T.
#[derive(Debug, Clone, Copy, PartialEq, Eq)]
pub enum CodeRate {
    R1_2,
    R2_3,
    R3_4,
    R5_6,
    R7_8,
}
