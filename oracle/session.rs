//! A session as docs/QUESTIONS.md has it. Its questions are answered here, since the Rust has none; everything else is the Rust's.
use crate::mixer::probe::Slices;
use crate::ranges::{Ranges, Reason, parse, reasons, whole};
use crate::renderer::Probe;
use crate::{Memory, take_rounds};

/// The lengths of the five state slices, or the refusal's number.
pub fn lengths(parameters: &[u8]) -> Result<[usize; 5], u32> {
    let p = Probe::parameters(parameters);
    if !(1..=256).contains(&p[1]) {
        return Err(1);
    }
    let allowed = [96, 31, 64, 8, 64, 32, 128];
    if p[2..9].iter().zip(allowed).any(|(&n, most)| n > most) {
        return Err(2);
    }
    let s = Probe::open(parameters).slices();
    Ok([s.words.len(), s.longs.len(), s.floats.len(), s.contexts.len(), s.history.len()])
}

/// A renderer that was opened, and the list into which it renders.
pub struct Session {
    pub(crate) renderer: Probe,
    samples: usize,
    frames: Vec<[f32; 2]>,
}

impl Session {
    pub fn open(parameters: &[u8], given: [usize; 5]) -> Result<Session, u32> {
        if given != lengths(parameters)? {
            return Err(3);
        }
        let samples = Probe::parameters(parameters)[1] as usize;
        Ok(Session { renderer: Probe::open(parameters), samples, frames: Vec::new() })
    }

    pub fn slices(&self) -> Slices {
        self.renderer.slices()
    }

    pub fn reply_length(&self, expected: u32) -> usize {
        self.renderer.reply_length(expected as usize)
    }

    pub fn samples(&self) -> usize {
        self.samples
    }

    /// Question 6: is there room for the reply?
    pub fn question_6(&self, expected: u32, room: usize) -> Result<(), u32> {
        if room < self.reply_length(expected) {
            return Err(6);
        }
        Ok(())
    }

    /// An update with this much room for the reply.
    pub fn update(&mut self, expected: u32, input: &[u8], room: usize) -> Result<Vec<u8>, u32> {
        self.question_6(expected, room)?;
        Ok(self.renderer.update(input, expected as usize))
    }

    /// All reasons to refuse so many renders with the ranges of these numbers, so many bytes of memory and so much room.
    pub fn reasons(&self, numbers: &[u64], bytes: usize, count: u32, room: usize) -> Vec<Reason> {
        reasons(&parse(numbers), bytes, count, room, count as usize * 2 * self.samples)
    }

    /// A render with the ranges of these numbers and this much room for the frames: left and right by turns, and the rounds.
    pub fn render(&mut self, numbers: &[u64], memory: &[u8], room: usize) -> Result<(Vec<f32>, u64), u32> {
        if let Some(reason) = self.reasons(numbers, memory.len(), 1, room).first() {
            return Err(reason.number());
        }
        Ok(self.rendered(numbers, memory))
    }

    /// A render that isn't refused. All of memory at a base is read by document 01's stand-in.
    pub(crate) fn rendered(&mut self, numbers: &[u64], memory: &[u8]) -> (Vec<f32>, u64) {
        take_rounds();
        match parse(numbers)[..] {
            [r] if (r.start, r.length) == (0, memory.len() as u64) => {
                self.renderer.render_into(&Memory { base: r.base, bytes: memory }, &mut self.frames);
            }
            ref ranges => self.renderer.render_into(&Ranges { ranges, bytes: memory }, &mut self.frames),
        }
        (self.frames.iter().flatten().copied().collect(), take_rounds())
    }
}

/// A call of the session program.
enum Call<'a> {
    Update { expected: u32, input: &'a [u8] },
    Render,
}

/// The input's three sections; none where it is not complete, or something comes after it.
fn sections(input: &[u8]) -> Option<(&[u8], &[u8], Vec<Call<'_>>)> {
    fn take<'a>(rest: &mut &'a [u8], n: usize) -> Option<&'a [u8]> {
        let (first, after) = rest.split_at_checked(n)?;
        *rest = after;
        Some(first)
    }
    fn number(rest: &mut &[u8]) -> Option<u32> {
        Some(u32::from_le_bytes(take(rest, 4)?.try_into().unwrap()))
    }
    fn block<'a>(rest: &mut &'a [u8]) -> Option<&'a [u8]> {
        let n = number(rest)? as usize;
        take(rest, n)
    }
    let rest = &mut { input };
    let (parameters, memory) = (block(rest)?, block(rest)?);
    let mut calls = Vec::new();
    for _ in 0..number(rest)? {
        calls.push(match take(rest, 1)? {
            [0] => Call::Update { expected: number(rest)?, input: block(rest)? },
            [1] => Call::Render,
            _ => return None,
        });
    }
    (rest.is_empty() && parameters.len() == 0x34).then_some((parameters, memory, calls))
}

/// What the session program prints for this input. Question 10's limits on sizes can be lifted; the rest of it always holds.
pub fn program(input: &[u8], limits: bool) -> String {
    let mut out = String::new();
    if let Err(number) = run(input, limits, &mut out) {
        out.push_str(&format!("refused {number}\n"));
    }
    out
}

fn run(input: &[u8], limits: bool, out: &mut String) -> Result<(), u32> {
    let (parameters, memory, calls) = sections(input).ok_or(10u32)?;
    let p = Probe::parameters(parameters);
    let most = [(1, 64), (2, 12), (3, 3), (4, 4), (7, 8), (8, 8)];
    if limits && (input.len() > 65_536 || most.iter().any(|&(k, n)| p[k] > n)) {
        return Err(10);
    }
    let mut session = Session::open(parameters, lengths(parameters)?)?;
    for call in calls {
        match call {
            Call::Render => {
                let (frames, _) = session.render(&whole(0x10000, memory), memory, 2 * session.samples)?;
                out.push_str(&format!("frames {}", session.samples));
                for x in frames {
                    let bits = if x.is_nan() { 0x7fc0_0000 } else { x.to_bits() };
                    out.push_str(&format!(" {bits:08x}"));
                }
            }
            Call::Update { expected, input } => {
                let reply = session.update(expected, input, 16_384)?;
                out.push_str(&format!("reply {}", reply.len()));
                for (k, w) in reply.chunks(4).enumerate() {
                    let mut word = [0; 4];
                    word[..w.len()].copy_from_slice(w);
                    if word != [0; 4] {
                        out.push_str(&format!(" {:04x}:{:08x}", k * 4, u32::from_le_bytes(word)));
                    }
                }
            }
        }
        out.push('\n');
    }
    Ok(())
}

#[cfg(test)]
mod tests {
    use super::{Session, lengths, program, whole};

    fn put(d: &mut [u8], at: usize, v: u32) {
        d[at..at + 4].copy_from_slice(&v.to_le_bytes());
    }

    /// Parameters with this many samples, mix buffers, voices and sinks.
    fn parameters(samples: u32, buffers: u32, voices: u32, sinks: u32) -> [u8; 0x34] {
        let mut p = [0; 0x34];
        for (at, v) in [(0, 48000), (4, samples), (8, buffers), (0x10, voices), (0x14, sinks), (0x30, 0x3556_4552)] {
            put(&mut p, at, v);
        }
        p
    }

    /// Parameters with this many samples and voices, no memory, and these calls.
    fn input(samples: u32, voices: u32, count: u32, calls: &[u8]) -> Vec<u8> {
        [&0x34u32.to_le_bytes()[..], &parameters(samples, 0, voices, 0), &[0; 4], &count.to_le_bytes(), calls].concat()
    }

    fn update(expected: u32) -> Vec<u8> {
        [&[0][..], &expected.to_le_bytes(), &[0; 4]].concat()
    }

    #[test]
    fn worked_example() {
        let calls = [&[1][..], &update(272)].concat();
        let printed = "frames 2 00000000 00000000 00000000 00000000\n\
            reply 272 0000:35564552 0004:000000b0 0020:00000010 0028:00000010 003c:00000110 0100:00000001\n";
        assert_eq!(program(&input(2, 0, 2, &calls), true), printed);
        assert_eq!(program(&input(2, 0, 2, &calls), false), printed);
    }

    /// An update with one voice, new and started, at 48,000 Hz, with a buffer of ten samples of a format that is silence, and no route.
    fn record() -> Vec<u8> {
        let mut d = vec![0; 0x40 + 0x170];
        put(&mut d, 0x0c, 0x170);
        let voice = &mut d[0x40..];
        voice[8..10].fill(1);
        for b in 1..4 {
            voice[0x60 + b * 0x38 + 0x1a] = 1;
        }
        for (at, v) in [(0x0c, 48000), (0x18, 1), (0x1c, 1f32.to_bits()), (0x3c, 1), (0x58, 0x7fff_ffff), (0x5c, u32::MAX), (0x74, 10)] {
            put(voice, at, v);
        }
        [&[0][..], &0u32.to_le_bytes(), &(d.len() as u32).to_le_bytes(), &d].concat()
    }

    /// Document 02, L2: an empty update tells the position of a voice that has played, and the voice plays on; a byte puts it out of use.
    #[test]
    fn empty_updates() {
        let told = |elapsed: u32, played: u32, consumed: u32| {
            let header = "reply 352 0000:35564552 0004:000000b0 0008:00000040 000c:00000010 0020:00000010 0028:00000010 003c:00000160";
            let words = [(0x80, played), (0x88, consumed), (0x150, elapsed)].into_iter().filter(|w| w.1 != 0);
            format!("{header}{}\n", words.map(|(at, v)| format!(" {at:04x}:{v:08x}")).collect::<String>())
        };
        let silent = "frames 4 00000000 00000000 00000000 00000000 00000000 00000000 00000000 00000000\n";
        let byte = [&[0][..], &[0; 4], &[1, 0, 0, 0, 0]].concat();
        let calls = [&record()[..], &update(0), &[1], &update(0), &update(0), &[1, 1], &update(0), &byte, &update(0)].concat();
        let printed = [
            &told(0, 0, 0)[..],
            &told(0, 0, 0),
            silent,
            &told(1, 4, 0),
            &told(1, 4, 0),
            silent,
            silent,
            &told(3, 10, 1),
            &told(3, 0, 0),
            &told(3, 0, 0),
        ];
        assert_eq!(program(&input(4, 1, 10, &calls), true), printed.concat());
    }

    /// Document 02, L4: pitch 0.5 over the 16-bit sample 100, three samples a render, then pitch 0. The second render needs no new sample:
    /// its points are 0, 0, 100 and then 200, and each of its outputs, all at 0.5 between the second and the third, is 43.75.
    #[test]
    fn held_notes() {
        const VOICE: usize = 0x40 + 0x70;
        let (p, memory) = (parameters(3, 1, 1, 1), [100, 0, 200, 0, 44, 1, 144, 1]);
        let mut session = Session::open(&p, lengths(&p).unwrap()).unwrap();
        let mut d = vec![0; VOICE + 0x170 + 0x930 + 0x140];
        for (at, v) in [(0x0c, 0x170), (0x10, 0x70), (0x18, 0x930), (0x1c, 0x140), (0x44, 1f32.to_bits())] {
            put(&mut d, at, v);
        }
        let (voice, rest) = d[VOICE..].split_at_mut(0x170);
        let (mix, sink) = rest.split_at_mut(0x930);
        voice[8..12].copy_from_slice(&[1, 1, 0, 2]);
        let fields = [(0x0c, 48000), (0x18, 1), (0x1c, 0.5f32.to_bits()), (0x20, 1f32.to_bits()), (0x3c, 1), (0x5c, u32::MAX)];
        for (at, v) in fields.into_iter().chain([(0x60, 0x10000), (0x68, 8), (0x74, 4)]) {
            put(voice, at, v);
        }
        for b in 1..4 {
            voice[0x60 + b * 0x38 + 0x1a] = 1;
        }
        for (at, v) in [(0, 1f32.to_bits()), (8, 1), (0x0c, 1), (0x924, 0x7fff_ffff), (0x928, u32::MAX)] {
            put(mix, at, v);
        }
        sink[..2].fill(1);
        sink[0x120] = 1;
        // The frames times 32,768, the rounds and the resamples by the rule. Both renders leave the voice alike.
        let mut render = |input: &[u8]| {
            session.update(0, input, 0x1000).unwrap();
            let (frames, rounds) = session.render(&whole(0x10000, &memory), &memory, 6).unwrap();
            let s = session.slices();
            assert_eq!((s.longs[2], s.floats[3], &s.history[..3]), (1, 0.5, &[0.0, 0.0, 100.0][..]), "played, fraction, history");
            (frames.iter().map(|x| x * 32768.0).collect::<Vec<f32>>(), rounds, crate::take_fourths())
        };
        assert_eq!(render(&d), (vec![0.0, 0.0, -6.25, -6.25, 0.0, 0.0], 1, 0));
        put(&mut d, VOICE + 0x1c, 0f32.to_bits());
        (d[VOICE + 8], d[VOICE + 0x60 + 0x1a]) = (0, 1);
        assert_eq!(render(&d), (vec![43.75; 6], 0, 1));
    }

    #[test]
    fn refusals() {
        let ten = "refused 10\n";
        assert_eq!(program(&[], true), ten);
        assert_eq!(program(&input(2, 0, 2, &[1]), true), ten, "a call is missing");
        assert_eq!(program(&input(2, 0, 1, &[1, 1]), true), ten, "something comes after it");
        assert_eq!(program(&input(2, 0, 1, &[2]), true), ten, "no such call");
        assert_eq!(program(&input(65, 0, 0, &[]), true), ten, "too many samples");
        assert_eq!(program(&input(65, 0, 0, &[]), false), "");
        assert_eq!(program(&input(2, 5, 0, &[]), true), ten, "too many voices");
        assert_eq!(program(&input(2, 65, 0, &[]), false), "refused 2\n");
        assert_eq!(program(&input(0, 0, 1, &[1]), true), "refused 1\n");
        let mut short = input(2, 0, 0, &[]);
        short.remove(4);
        short[0] -= 1;
        assert_eq!(program(&short, true), ten, "other parameters");
    }
}
