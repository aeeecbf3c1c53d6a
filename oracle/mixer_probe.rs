
/// Reads and writes a voice by the rows of the port's state, so that both can be held together. Appended to mixer.rs.
pub mod probe {
    use super::*;

    pub const WORDS: usize = 58;
    pub const LONGS: usize = 14;
    pub const FLOATS: usize = 4;

    /// A voice's rows: words, longs, floats, ADPCM context and history.
    #[derive(Clone, Debug, PartialEq)]
    pub struct Rows {
        pub words: Vec<u32>,
        pub longs: Vec<u64>,
        pub floats: Vec<f32>,
        pub context: Vec<u16>,
        pub history: Vec<f32>,
    }

    fn play(n: u32) -> Play {
        match n {
            0 => Play::Started,
            1 => Play::Stopped,
            2 => Play::Stopping,
            _ => Play::Paused,
        }
    }

    pub struct Probe(Voice);

    impl Probe {
        pub fn new(r: &Rows) -> Probe {
            let (w, l, f) = (&r.words, &r.longs, &r.floats);
            let buffer = |b: usize| {
                let (w, l) = (&w[26 + b * 8..], &l[2 + b * 3..]);
                WaveBuffer {
                    addr: l[0],
                    size: l[1],
                    start: w[0],
                    end: w[1],
                    looping: w[2] != 0,
                    end_of_stream: w[3] != 0,
                    loop_count: w[4] as i32,
                    context: l[2],
                    loop_start: w[5],
                    loop_end: w[6],
                    pending: w[7] != 0,
                }
            };
            Probe(Voice {
                in_use: w[0] != 0,
                fresh: w[1] != 0,
                play: play(w[2]),
                format: w[3] as u8,
                sample_rate: w[4],
                channels: w[5] as usize,
                queued: w[6],
                base_index: w[7] as usize,
                flush: w[8],
                decoding: w[9] as u16,
                mix_id: w[10] as i32,
                splitter_id: w[11],
                channel_ids: std::array::from_fn(|k| w[12 + k] as usize),
                valid: std::array::from_fn(|k| w[18 + k] != 0),
                index: w[22] as usize,
                consumed: w[23],
                offset: w[24],
                loops: w[25] as i32,
                buffers: std::array::from_fn(buffer),
                data_source: l[0],
                played: l[1],
                pitch: f[0],
                volume: f[1],
                previous_volume: f[2],
                fraction: f[3],
                adpcm: AdpcmContext { pred_scale: r.context[0], history0: r.context[1] as i16, history1: r.context[2] as i16 },
                history: std::array::from_fn(|c| std::array::from_fn(|k| r.history[c * HISTORY + k])),
            })
        }

        pub fn rows(&self) -> Rows {
            let v = &self.0;
            let mut words = vec![
                u32::from(v.in_use),
                u32::from(v.fresh),
                v.play as u32,
                u32::from(v.format),
                v.sample_rate,
                v.channels as u32,
                v.queued,
                v.base_index as u32,
                v.flush,
                u32::from(v.decoding),
                v.mix_id as u32,
                v.splitter_id,
            ];
            words.extend(v.channel_ids.iter().map(|&c| c as u32));
            words.extend(v.valid.iter().map(|&b| u32::from(b)));
            words.extend([v.index as u32, v.consumed, v.offset, v.loops as u32]);
            let mut longs = vec![v.data_source, v.played];
            for b in &v.buffers {
                let flags = [b.looping, b.end_of_stream, b.pending].map(u32::from);
                words.extend([b.start, b.end, flags[0], flags[1], b.loop_count as u32, b.loop_start, b.loop_end, flags[2]]);
                longs.extend([b.addr, b.size, b.context]);
            }
            Rows {
                words,
                longs,
                floats: vec![v.pitch, v.volume, v.previous_volume, v.fraction],
                context: vec![v.adpcm.pred_scale, v.adpcm.history0 as u16, v.adpcm.history1 as u16],
                history: v.history.iter().flatten().copied().collect(),
            }
        }

        pub fn prepare(&mut self) -> bool {
            self.0.prepare()
        }

        /// `fetch` as `render_voice` calls it: each channel's row begins with its history.
        pub fn fetch(&mut self, mem: &dyn Mem, count: usize, buffers_v2: bool) -> Vec<Vec<f32>> {
            let mut src: Vec<Vec<f32>> = vec![Vec::new(); MAX_CHANNELS];
            for (c, s) in src.iter_mut().enumerate().take(self.0.channels) {
                s.extend_from_slice(&self.0.history[c]);
            }
            self.0.fetch(mem, count, &mut src, buffers_v2);
            src
        }
    }

    pub fn offsets_valid(record: &[u8], format: u8) -> bool {
        WaveBuffer::parse(record).offsets_valid(format)
    }

    /// The whole state, by the rows of the port: words are the parameters, then voices, mixes, sinks, splitters and destinations; longs the elapsed
    /// renders and voices; floats voices, channel resources, mixes, sinks and destinations. What no count of the state reaches is 0.
    #[derive(Clone, Debug, PartialEq)]
    pub struct Slices {
        pub words: Vec<u32>,
        pub longs: Vec<u64>,
        pub floats: Vec<f32>,
        pub contexts: Vec<u16>,
        pub history: Vec<f32>,
    }

    pub fn dump(state: &State, parameters: Vec<u32>) -> Slices {
        let mut s = Slices { words: parameters, longs: vec![state.elapsed_frames], floats: vec![], contexts: vec![], history: vec![] };
        for v in &state.voices {
            let r = Probe(v.clone()).rows();
            s.words.extend(r.words);
            s.longs.extend(r.longs);
            s.floats.extend(r.floats);
            s.contexts.extend(r.context);
            s.history.extend(r.history);
        }
        for c in &state.channels {
            s.floats.extend(c.mix);
            s.floats.extend(c.previous);
        }
        for m in &state.mixes {
            s.words.extend([u32::from(m.used), m.buffer_count as u32, m.destination as u32, m.splitter, m.offset as u32]);
            s.floats.push(m.volume);
            s.floats.extend(&m.volumes);
        }
        for k in &state.sinks {
            s.words.extend([u32::from(k.used), u32::from(k.device), k.inputs.len() as u32]);
            s.words.extend((0..6).map(|i| k.inputs.get(i).map_or(0, |&n| n as u32)));
            s.words.push(u32::from(k.downmix.is_some()));
            s.floats.extend(k.downmix.unwrap_or_default());
        }
        for p in &state.splitters {
            s.words.push(p.destinations.len() as u32);
            s.words.extend((0..128).map(|i| p.destinations.get(i).map_or(0, |&n| n as u32)));
        }
        for d in &state.destinations {
            s.words.extend([u32::from(d.used), d.mix as u32]);
            s.floats.extend(d.volumes);
            s.floats.extend(d.previous);
        }
        s
    }

    /// The state that has these rows.
    pub fn restore(sizes: Sizes, s: &Slices) -> State {
        let mut state = State::new(sizes);
        let (mut w, mut l, mut f) = (&s.words[10..], &s.longs[1..], &s.floats[..]);
        fn next<'a, T>(s: &mut &'a [T], n: usize) -> &'a [T] {
            let (first, rest) = s.split_at(n);
            *s = rest;
            first
        }
        state.elapsed_frames = s.longs[0];
        for (i, v) in state.voices.iter_mut().enumerate() {
            let r = Rows {
                words: next(&mut w, WORDS).to_vec(),
                longs: next(&mut l, LONGS).to_vec(),
                floats: next(&mut f, FLOATS).to_vec(),
                context: s.contexts[i * 3..i * 3 + 3].to_vec(),
                history: s.history[i * 18..i * 18 + 18].to_vec(),
            };
            *v = Probe::new(&r).0;
        }
        for c in &mut state.channels {
            c.mix = next(&mut f, 24).try_into().unwrap();
            c.previous = next(&mut f, 24).try_into().unwrap();
        }
        for m in &mut state.mixes {
            let r = next(&mut w, 5);
            (m.used, m.buffer_count, m.destination, m.splitter, m.offset) = (r[0] != 0, r[1] as usize, r[2] as i32, r[3], r[4] as usize);
            m.volume = next(&mut f, 1)[0];
            m.volumes = next(&mut f, 576).to_vec();
        }
        for k in &mut state.sinks {
            let r = next(&mut w, 10);
            (k.used, k.device) = (r[0] != 0, r[1] != 0);
            k.inputs = r[3..3 + r[2] as usize].iter().map(|&n| n as usize).collect();
            let factors: [f32; 4] = next(&mut f, 4).try_into().unwrap();
            k.downmix = (r[9] != 0).then_some(factors);
        }
        for p in &mut state.splitters {
            let r = next(&mut w, 129);
            p.destinations = r[1..1 + r[0] as usize].iter().map(|&n| n as usize).collect();
        }
        for d in &mut state.destinations {
            let r = next(&mut w, 2);
            (d.used, d.mix) = (r[0] != 0, r[1] as i32);
            d.volumes = next(&mut f, 24).try_into().unwrap();
            d.previous = next(&mut f, 24).try_into().unwrap();
        }
        state
    }
}
