
// ---- compiled behind the given file: access to the decoder's private state ----

impl ViterbiDecoder {
    /// The decoder with these path values, held decisions and traceback.
    pub fn handed(pm: [f32; STATES], decisions: &[u64], traceback: usize) -> Self {
        Self {
            pm,
            decisions: decisions.to_vec(),
            ..Self::new(traceback)
        }
    }

    /// The path values.
    pub fn path_values(&self) -> &[f32; STATES] {
        &self.pm
    }

    /// The held decisions.
    pub fn held(&self) -> &[u64] {
        &self.decisions
    }
}
