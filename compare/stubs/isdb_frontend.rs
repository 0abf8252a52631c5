// The label codes, which document 01 leaves out: names only.
pub mod txformat {
    pub const ZERO: u8 = 0;

    pub fn conjugate(code: u8) -> u8 {
        code
    }

    pub struct LabelCodes;

    impl LabelCodes {
        pub const TABLE_46: Self = Self;

        pub fn bpsk(&self, _: u8) -> u8 {
            ZERO
        }

        pub fn qpsk(&self, _: u8, _: u8) -> u8 {
            ZERO
        }

        pub fn label(&self, _: u8) -> u8 {
            ZERO
        }
    }
}
