// Not given. Here it lends out the crate's `soft`.
pub fn soft(x: f64) -> f32 {
    crate::soft(x)
}
