//! Bad input never ends a process: a million updates with random and hostile numbers, positions, renders with any ranges, sections of any
//! count, DSP files, encodes and merges in between, under a limit of 256 MB of memory.
//!
//!     cargo build --release --example hostile && prlimit --as=268435456 target/release/examples/hostile [UPDATES]
//!
//! It prints how many calls were answered how, and fails where the process is not limited, a refusal changes something, or a kind of answer
//! never came.
use jeqlluna::{AdpcmContext, PARAMETERS, Range, Refusal, Renderer, encode_adpcm, merge_bytes, read_dsp, write_dsp};
use std::collections::BTreeMap;
use std::process::ExitCode;

const MEMORY_LIMIT: u64 = 256 << 20;
/// What the caller allows for a reply.
const LIMIT: usize = 1 << 16;

/// Numbers at which a size or a count may go wrong.
const EXTREMES: [u32; 16] =
    [0, 1, 2, 0x3f, 0x40, 0x70, 0x170, 0x930, 0xffff, 0x10000, 0x80_0000, 0x7fff_ffff, 0x8000_0000, 0xffff_ff90, u32::MAX - 1, u32::MAX];

struct Random(u64);

impl Random {
    fn next(&mut self) -> u64 {
        self.0 ^= self.0 << 13;
        self.0 ^= self.0 >> 7;
        self.0 ^= self.0 << 17;
        self.0.wrapping_mul(0x2545_f491_4f6c_dd1d)
    }

    fn below(&mut self, most: usize) -> usize {
        (((self.next() >> 32) * most as u64) >> 32) as usize
    }

    fn number(&mut self) -> u32 {
        match self.below(3) {
            0 => EXTREMES[self.below(EXTREMES.len())],
            1 => self.below(0x2000) as u32,
            _ => self.next() as u32,
        }
    }

    fn fill(&mut self, bytes: &mut [u8]) {
        for chunk in bytes.chunks_mut(8) {
            let word = self.next().to_le_bytes();
            chunk.copy_from_slice(&word[..chunk.len()]);
        }
    }
}

fn put(bytes: &mut [u8], at: usize, value: u32) {
    if let Some(field) = bytes.get_mut(at..at + 4) {
        field.copy_from_slice(&value.to_le_bytes());
    }
}

/// Parameter bytes: mostly allowed counts, small ones more often, of any revision; sometimes anything; sometimes cut.
fn parameters(r: &mut Random) -> Vec<u8> {
    let mut p = vec![0; PARAMETERS];
    let part = [1, 8, 8, 100][r.below(4)];
    for (at, most) in [(0x08, 96), (0x0c, 31), (0x10, 64), (0x14, 8), (0x18, 64), (0x24, 32), (0x28, 128)] {
        put(&mut p, at, r.below(most / part + 2).min(most) as u32);
    }
    put(&mut p, 0x00, r.number());
    put(&mut p, 0x04, 1 + r.below(256) as u32);
    put(&mut p, 0x30, u32::from_le_bytes([b'R', b'E', b'V', b'0' + r.below(12) as u8]));
    match r.below(8) {
        0 => put(&mut p, 4 * r.below(13), r.number()),
        1 => p.truncate(r.below(PARAMETERS)),
        2 => r.fill(&mut p[..]),
        _ => {}
    }
    p
}

/// An update's input: sections laid out by sizes that fit the bytes or by any, records with marks in place, then numbers put anywhere,
/// then a cut.
fn input(r: &mut Random) -> Vec<u8> {
    let mut d = vec![0; [0x40, 0x400, 0x1000, 0x4000][r.below(4)]];
    if r.below(4) > 0 {
        r.fill(&mut d);
    }
    let fits = r.below(2) == 0;
    let mut rest = d.len() - 0x40;
    for at in (0x04..0x24).step_by(4) {
        let size = r.below(rest + 1);
        put(&mut d, at, if fits { size as u32 } else { r.number() });
        rest -= if fits { size } else { 0 };
    }
    // Voices in use, and the marks of splitters, somewhere.
    for _ in 0..r.below(16) {
        let at = 0x40 + 0x10 * r.below(d.len() / 0x10);
        match r.below(4) {
            0 => put(&mut d, at, u32::from_le_bytes(*b"SNDH")),
            1 => put(&mut d, at, u32::from_le_bytes(*b"SNDI")),
            2 => put(&mut d, at, u32::from_le_bytes(*b"SNDD")),
            _ => put(&mut d, at + 8, 0x0200_0101),
        }
        put(&mut d, at + 4 * r.below(4) + 4, r.number());
    }
    for _ in 0..r.below(8) {
        let at = r.below(d.len());
        put(&mut d, at, r.number());
    }
    if r.below(4) == 0 {
        d.truncate(r.below(d.len() + 1));
    }
    d
}

/// Up to 20 ranges of a slice, mostly few: one behind the other, touching, with gaps, empty, with any part inside; or with a number of any
/// size somewhere.
fn ranges(r: &mut Random, memory: &[u8]) -> Vec<Range> {
    let mut base = if r.below(8) == 0 { r.next() >> r.below(3) } else { u64::from(r.number()) };
    let count = if r.below(4) == 0 { r.below(21) } else { r.below(5) };
    let mut made: Vec<Range> = (0..count)
        .map(|_| {
            let length = if r.below(4) == 0 { 0 } else { r.below(memory.len() + 1) };
            let start = r.below(memory.len() - length + 1) as u64;
            let range = Range { base, start, length: length as u64 };
            let gap = if r.below(2) == 0 { 0 } else { r.number() };
            base = base.saturating_add(range.length).saturating_add(gap.into());
            range
        })
        .collect();
    if count > 0 && r.below(3) == 0 {
        let (any, range) = (if r.below(2) == 0 { r.next() } else { r.number().into() }, &mut made[r.below(count)]);
        *[&mut range.base, &mut range.start, &mut range.length][r.below(3)] = any;
    }
    made
}

/// A DSP file of any bytes and any length, or one that says 0 where it must, with a sample count of any size.
fn dsp(r: &mut Random) -> Vec<u8> {
    let mut file = vec![0; r.below(400)];
    r.fill(&mut file);
    if file.len() >= 96 && r.below(4) > 0 {
        let samples = if r.below(4) == 0 { r.number() } else { r.below(2 * (file.len() - 95)) as u32 };
        file[..4].copy_from_slice(&samples.to_be_bytes());
        for zeros in [0x0e..0x10, 0x3c..0x3e, 0x4a..0x60] {
            file[zeros].fill(0);
        }
    }
    file
}

/// Reads a DSP file, and writes one of what it held, or of another header, to an output of any length.
fn files(r: &mut Random, tally: &mut BTreeMap<(&'static str, u32), u64>) {
    let file = dsp(r);
    let read = read_dsp(&file);
    count(tally, "read_dsp", &read);
    if let Ok((mut header, data)) = read {
        (header.samples, header.gain) = (header.samples / 2 * r.below(5) as u32, u16::from(r.below(8) == 0));
        let mut output = vec![0; r.below(2 * file.len())];
        count(tally, "write_dsp", &write_dsp(&header, data, &mut output));
    }
}

/// Encodes any samples with any coefficients to an output of any length.
fn encodes(r: &mut Random, tally: &mut BTreeMap<(&'static str, u32), u64>) {
    let (mut bytes, mut output) = (vec![0; 2 * (16 + r.below(40))], vec![0; r.below(40)]);
    r.fill(&mut bytes);
    let numbers: Vec<i16> = bytes.chunks(2).map(|two| i16::from_le_bytes([two[0], two[1]])).collect();
    let (coefficients, samples) = numbers.split_first_chunk::<16>().expect("so many");
    let mut context = AdpcmContext { pred_scale: r.next() as u16, history0: r.next() as i16, history1: r.next() as i16 };
    count(tally, "encode", &encode_adpcm(samples, coefficients, &mut context, &mut output));
}

/// A block of voices alone, some of them in use, each on one of a few channels or on any number.
fn voices(r: &mut Random) -> Vec<u8> {
    let mut d = vec![0; 0x40 + 8 * 0x170];
    put(&mut d, 0x0c, 8 * 0x170);
    for at in (0x40..d.len()).step_by(0x170) {
        d[at + 9] = u8::from(r.below(6) == 0);
        put(&mut d, at + 0x140, if r.below(4) == 0 { r.number() } else { r.below(8) as u32 });
    }
    d
}

/// Merges an update with another, or two blocks of voices, for any parameters, to an output of any length.
fn merges(r: &mut Random, update: &[u8], tally: &mut BTreeMap<(&'static str, u32), u64>) {
    let (given, [title, click]) = (parameters(r), if r.below(2) == 0 { [update.to_vec(), input(r)] } else { [voices(r), voices(r)] });
    let mut output = vec![0x5a; r.below(0x8000)];
    let answer = merge_bytes(&given, &title, &click, &mut output);
    count(tally, "merge", &answer);
    let beyond = answer.unwrap_or(0);
    assert!(output[beyond..].iter().all(|&b| b == 0x5a), "a byte beyond the block, or a refusal's");
}

/// Whether the process may take no more than it should.
fn limited() -> bool {
    let limits = std::fs::read_to_string("/proc/self/limits").unwrap_or_default();
    let line = limits.lines().find_map(|line| line.strip_prefix("Max address space")).unwrap_or_default().to_string();
    line.split_whitespace().next().and_then(|most| most.parse::<u64>().ok()).is_some_and(|most| most <= MEMORY_LIMIT)
}

/// What a renderer would do next: the bits of its frames and then its reply.
fn next(renderer: &Renderer, memory: &[u8]) -> (Vec<u32>, Vec<u8>) {
    let (mut r, mut frames) = (renderer.clone(), [0.0f32; 512]);
    r.render(&[Range::whole(0x10000, memory)], memory, &mut frames).expect("memory and frames are allowed");
    (frames.iter().map(|x| x.to_bits()).collect(), r.update(0, &[], LIMIT).expect("the shortest reply"))
}

/// A render, or a section of any count, with any ranges and mostly enough room; how many that were refused were looked at.
fn renders(r: &mut Random, renderer: &mut Renderer, memory: &[u8], tally: &mut BTreeMap<(&'static str, u32), u64>) -> u64 {
    let mut frames = [0.0; 2048];
    let (ranges, before) = (ranges(r, memory), (r.below(64) == 0).then(|| renderer.clone()));
    let answer = if r.below(4) == 0 {
        let (renders, room) = (if r.below(2) == 0 { r.number() } else { r.below(5) as u32 }, r.below(2049));
        let answer = renderer.render_section(renders, &ranges, memory, &mut frames[..room]);
        count(tally, "section", &answer);
        answer
    } else {
        let room = if r.below(16) == 0 { r.below(513) } else { 512 };
        let answer = renderer.render(&ranges, memory, &mut frames[..room]);
        count(tally, "render", &answer);
        answer
    };
    let (Some(before), Err(_)) = (before, answer) else { return 0 };
    assert_eq!(next(&before, memory), next(renderer, memory), "a refusal changed something");
    1
}

/// Counts an answer by its kind of call and its number.
fn count<T>(tally: &mut BTreeMap<(&'static str, u32), u64>, call: &'static str, answer: &Result<T, Refusal>) {
    *tally.entry((call, answer.as_ref().err().map_or(0, |e| e.number()))).or_default() += 1;
}

fn main() -> ExitCode {
    let updates: u64 = std::env::args().nth(1).map_or(1_000_000, |n| n.parse().expect("a number of updates"));
    if !limited() {
        eprintln!("not limited to {MEMORY_LIMIT} bytes: run it under prlimit --as={MEMORY_LIMIT}");
        return ExitCode::FAILURE;
    }
    let (r, mut tally) = (&mut Random(0x9e37_79b9_7f4a_7c15), BTreeMap::new());
    let mut memory = vec![0; 4096];
    r.fill(&mut memory);
    let (mut made, mut longest, mut looked) = (0, 0, 0);
    while made < updates {
        let opened = Renderer::open_bytes(&parameters(r));
        count(&mut tally, "open", &opened);
        let Ok(mut renderer) = opened else { continue };
        for _ in 0..64 {
            // Now and then the caller allows a long reply, or one for which there is no memory.
            let (expected, limit) = match r.below(4096) {
                0 => (r.number(), 1 << 24),
                1 => (u32::MAX, usize::MAX),
                _ => (r.number(), LIMIT),
            };
            let bytes = input(r);
            let too_long = renderer.reply_length(expected).expect("its parameters are allowed") > limit.min(MEMORY_LIMIT as usize);
            let before = (too_long && r.below(16) == 0).then(|| renderer.clone());
            let answer = renderer.update(expected, &bytes, limit);
            made += 1;
            count(&mut tally, "update", &answer);
            assert_eq!(answer.is_err(), too_long, "{answer:?}");
            longest = longest.max(answer.map_or(0, |reply| reply.len()));
            if let Some(before) = before {
                looked += 1;
                assert_eq!(next(&before, &memory), next(&renderer, &memory), "a refusal changed something");
            }
            if r.below(8) == 0 {
                count(&mut tally, "positions", &renderer.positions());
            }
            files(r, &mut tally);
            if r.below(16) == 0 {
                encodes(r, &mut tally);
            }
            if r.below(8) == 0 {
                merges(r, &bytes, &mut tally);
            }
            if r.below(4) == 0 {
                looked += renders(r, &mut renderer, &memory, &mut tally);
            }
        }
    }
    for ((call, number), n) in &tally {
        println!("{call} answered {number}: {n}");
    }
    println!("{made} updates, the longest reply {longest} bytes; of the refused {looked} were looked at, and none had changed anything");
    let due = [
        ("encode", &[0, 15][..]),
        ("merge", &[0, 2, 16, 17, 18]),
        ("open", &[0, 1, 2]),
        ("positions", &[0]),
        ("read_dsp", &[0, 11, 12]),
        ("render", &[0, 5, 7, 13]),
        ("section", &[0, 5, 7, 13, 14]),
        ("update", &[0, 6]),
        ("write_dsp", &[0, 11, 12]),
    ];
    let due: Vec<_> = due.into_iter().flat_map(|(call, numbers)| numbers.iter().map(move |&n| (call, n))).collect();
    let came: Vec<_> = tally.keys().copied().collect();
    if updates >= 10_000 && came != due {
        eprintln!("other answers than those that are due");
        return ExitCode::FAILURE;
    }
    ExitCode::SUCCESS
}
