// Not given: the names that the root re-exports.
pub struct Frame;
pub struct Reception;
pub struct RxOptions;
pub struct Superframe;
pub fn main_mer() {}
pub fn receive() {}
