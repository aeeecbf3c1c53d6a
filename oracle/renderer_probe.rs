
/// What stands around these parts in kirikae. Appended to what is taken of mod.rs.
use crate::mixer;
use std::sync::Mutex;

pub struct Renderer {
    params: Params,
    state: Mutex<mixer::State>,
}

/// The parameters as the first ten words of the state.
fn words(p: &Params) -> Vec<u32> {
    let counts = [p.sample_rate, p.sample_count, p.mix_buffers, p.sub_mixes, p.voices, p.sinks, p.effects];
    [&counts[..], &[p.splitters, p.splitter_destinations, p.revision]].concat()
}

/// A renderer whose whole state can be read and written by the rows of the port.
pub struct Probe(Renderer);

impl Probe {
    /// The ten parameters in these bytes.
    pub fn parameters(bytes: &[u8]) -> Vec<u32> {
        words(&Params::parse(bytes))
    }

    /// What opening with these parameter bytes makes.
    pub fn open(parameters: &[u8]) -> Probe {
        let params = Params::parse(parameters);
        let state = Mutex::new(mixer::State::new(params.sizes()));
        Probe(Renderer { params, state })
    }

    /// The renderer whose state has these rows. The parameters are the first ten words.
    pub fn restore(slices: &mixer::probe::Slices) -> Probe {
        let w = &slices.words;
        let params = Params {
            sample_rate: w[0],
            sample_count: w[1],
            mix_buffers: w[2],
            sub_mixes: w[3],
            voices: w[4],
            sinks: w[5],
            effects: w[6],
            splitters: w[7],
            splitter_destinations: w[8],
            revision: w[9],
        };
        let state = Mutex::new(mixer::probe::restore(params.sizes(), slices));
        Probe(Renderer { params, state })
    }

    pub fn slices(&self) -> mixer::probe::Slices {
        mixer::probe::dump(&self.0.state.lock().unwrap(), words(&self.0.params))
    }

    pub fn update(&self, input: &[u8], expected: usize) -> Vec<u8> {
        self.0.update(input, expected)
    }

    /// The length of the reply to an update with this expected size, as `update` makes it.
    pub fn reply_length(&self, expected: usize) -> usize {
        let (fixed, effects) = (self.0.params.fixed_output_size(), self.0.params.effects as usize);
        fixed + if effects > 0 { expected.saturating_sub(fixed) / effects * effects } else { 0 }
    }

    pub fn render(&self, mem: &dyn mixer::Mem) -> Vec<[f32; 2]> {
        let mut out = Vec::new();
        self.render_into(mem, &mut out);
        out
    }

    /// A render into what an earlier one left, as kirikae's thread does it.
    pub fn render_into(&self, mem: &dyn mixer::Mem, out: &mut Vec<[f32; 2]>) {
        self.0.state.lock().unwrap().render(mem, out);
    }
}
