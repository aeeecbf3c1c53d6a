//! The library's calls on a renderer that the driver owns.
#[allow(dead_code)]
#[path = "../bindings/rust/src/sys/mod.rs"]
mod sys;

/// Where sample memory begins.
pub const BASE: u64 = 0x10000;

#[derive(Clone)]
pub struct Renderer {
    pub words: Vec<u32>,
    pub longs: Vec<u64>,
    pub floats: Vec<f32>,
    pub contexts: Vec<u16>,
    pub history: Vec<f32>,
}

/// What a call gives back: its number, and the reply's bytes, or the frames' bits and the rounds.
#[derive(Clone, PartialEq, Debug, Default)]
pub struct Answer {
    pub number: u32,
    pub rounds: u32,
    pub bytes: Vec<u8>,
    pub bits: Vec<u32>,
}

fn same_bits(a: &[f32], b: &[f32]) -> bool {
    a.len() == b.len() && a.iter().zip(b).all(|(x, y)| x.to_bits() == y.to_bits())
}

impl Renderer {
    /// The five slices of an open, or its refusal's number.
    pub fn open(parameters: &[u8]) -> Result<Renderer, u32> {
        let n = unsafe { sys::jeqlluna_lengths(parameters.as_ptr(), parameters.len()) };
        if n.number != 0 {
            return Err(n.number);
        }
        let mut r = Renderer {
            words: vec![0; n.words],
            longs: vec![0; n.longs],
            floats: vec![0.0; n.floats],
            contexts: vec![0; n.contexts],
            history: vec![0.0; n.history],
        };
        let number = unsafe {
            sys::jeqlluna_open(
                parameters.as_ptr(), parameters.len(), r.words.as_mut_ptr(), r.words.len(), r.longs.as_mut_ptr(), r.longs.len(),
                r.floats.as_mut_ptr(), r.floats.len(), r.contexts.as_mut_ptr(), r.contexts.len(), r.history.as_mut_ptr(), r.history.len(),
            )
        };
        if number == 0 { Ok(r) } else { Err(number) }
    }

    /// Takes over what another renderer of the same parameters holds.
    pub fn copy(&mut self, other: &Renderer) {
        self.words.copy_from_slice(&other.words);
        self.longs.copy_from_slice(&other.longs);
        self.floats.copy_from_slice(&other.floats);
        self.contexts.copy_from_slice(&other.contexts);
        self.history.copy_from_slice(&other.history);
    }

    /// Whether two hold the same, floats by their bits.
    pub fn same(&self, other: &Renderer) -> bool {
        let sound = self.contexts == other.contexts && same_bits(&self.history, &other.history);
        sound && self.words == other.words && self.longs == other.longs && same_bits(&self.floats, &other.floats)
    }

    pub fn update(&mut self, expected: u32, input: &[u8], room: usize) -> Answer {
        let mut bytes = vec![0xa5; room];
        let u = unsafe {
            sys::jeqlluna_update(
                self.words.as_mut_ptr(), self.words.len(), self.longs.as_mut_ptr(), self.longs.len(),
                self.floats.as_mut_ptr(), self.floats.len(), self.contexts.as_mut_ptr(), self.contexts.len(),
                self.history.as_mut_ptr(), self.history.len(), expected, input.as_ptr(), input.len(), bytes.as_mut_ptr(), bytes.len(),
            )
        };
        bytes.truncate(u.size);
        Answer { number: u.number, bytes, ..Answer::default() }
    }

    pub fn render(&mut self, memory: &[u8], samples: usize) -> Answer {
        let mut frames = vec![0.0f32; 2 * samples];
        let range = [BASE, 0, memory.len() as u64];
        let r = unsafe {
            sys::jeqlluna_render(
                self.words.as_mut_ptr(), self.words.len(), self.longs.as_mut_ptr(), self.longs.len(),
                self.floats.as_mut_ptr(), self.floats.len(), self.contexts.as_mut_ptr(), self.contexts.len(),
                self.history.as_mut_ptr(), self.history.len(), range.as_ptr(), range.len(), memory.as_ptr(), memory.len(),
                frames.as_mut_ptr(), frames.len(),
            )
        };
        Answer { number: r.number, rounds: r.rounds, bits: frames.iter().map(|x| x.to_bits()).collect(), ..Answer::default() }
    }
}
