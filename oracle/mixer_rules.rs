
/// What document 02's rules need of the state's private fields. Appended to mixer.rs where the oracle follows the rules.
impl State {
    /// What an empty update tells of each voice, from the state as it stands: played and consumed of one that is in use
    /// and isn't fresh, zeros of another.
    pub fn positions(&self, out: &mut [u8]) {
        for (voice, told) in self.voices.iter().zip(out.chunks_mut(VOICE_OUT)) {
            if voice.in_use && !voice.fresh {
                told[..8].copy_from_slice(&voice.played.to_le_bytes());
                told[8..12].copy_from_slice(&voice.consumed.to_le_bytes());
            }
        }
        crate::count_empty(out.iter().any(|&b| b != 0));
    }
}
