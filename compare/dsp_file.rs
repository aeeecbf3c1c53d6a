//! Holds the two calls for DSP files, through the C interface, to a reader and a writer in plain Rust (plain_dsp.rs): number, every value
//! of the header, place and length of the data, every byte of the output, beyond the file and after a refusal too.
//!
//! `dsp_file [SEED [COUNT]]`: every length 0 to 98, every value of every byte that question 11 tests, sample counts around the ends of
//! frames, both refusals at once, all small lengths of data with all small outputs, COUNT random headers with files and writes of them, and
//! 2^32 - 1 samples over mapped zeros. What is accepted goes both ways round. It fails where a kind of case was never reached.
//! `dsp_file wrong`: the same with one error in the plain reader or writer, for many of them: each must be noticed.
mod dsp_cases;
mod dsp_tally;
mod mapped;
mod plain_dsp;
#[allow(dead_code)]
mod random;
#[allow(dead_code)]
#[path = "../bindings/rust/src/sys/mod.rs"]
mod sys;
use dsp_tally::Tally;
use plain_dsp::{FORMAT, GAIN, HEADER, SAMPLES, Values, WRONG_BOTH, WRONG_READERS, WRONG_WRITERS, Wrong};
use random::Random;
use std::time::Instant;
use sys::{AdpcmContext, DspHeader, DspRead, DspWritten, jeqlluna_read_dsp, jeqlluna_write_dsp};

/// What an output holds before a call.
const MARK: u8 = 0xa5;

/// The port's reader.
fn read(file: &[u8]) -> DspRead {
    unsafe { jeqlluna_read_dsp(file.as_ptr(), file.len()) }
}

/// The port's writer.
fn write(values: &Values, data: &[u8], output: &mut [u8]) -> DspWritten {
    unsafe { jeqlluna_write_dsp(header(values), data.as_ptr(), data.len(), output.as_mut_ptr(), output.len()) }
}

/// A header's values in the file's sequence.
fn values(h: &DspHeader) -> Values {
    let context = |c: AdpcmContext| [c.pred_scale.into(), (c.history0 as u16).into(), (c.history1 as u16).into()];
    let first = [h.samples, h.nibbles, h.rate, h.loop_flag.into(), h.format.into(), h.loop_start, h.loop_end, h.address];
    let pairs = h.coefficients.map(|c| u32::from(c as u16));
    let all = [&first[..], &pairs, &[h.gain.into()], &context(h.start_context), &context(h.loop_context)].concat();
    all.try_into().expect("so many values")
}

/// The header of such values.
fn header(v: &Values) -> DspHeader {
    let context = |at: usize| AdpcmContext { pred_scale: v[at] as u16, history0: v[at + 1] as i16, history1: v[at + 2] as i16 };
    DspHeader {
        samples: v[0],
        nibbles: v[1],
        rate: v[2],
        loop_flag: v[3] as u16,
        format: v[FORMAT] as u16,
        loop_start: v[5],
        loop_end: v[6],
        address: v[7],
        coefficients: std::array::from_fn(|k| v[8 + k] as i16),
        gain: v[GAIN] as u16,
        start_context: context(25),
        loop_context: context(28),
    }
}

/// One run: what is wrong in the plain reader and in the plain writer, and what was counted.
pub struct Run {
    reader: Wrong,
    writer: Wrong,
    pub tally: Tally,
}

impl Run {
    /// Counts a comparison, and reports it if it isn't as it should be.
    fn count(&mut self, right: bool, what: impl FnOnce() -> String) {
        self.tally.compared += 1;
        if !right {
            self.tally.differ += 1;
            if self.tally.differ < 6 && !self.over() {
                println!("differs: {}", what());
            }
        }
    }

    /// Whether the run may end: a wrong variant was noticed.
    pub fn over(&self) -> bool {
        (self.reader, self.writer) != (Wrong::Nothing, Wrong::Nothing) && self.tally.differ != 0
    }

    /// Reads a file. Gives the number that it should answer.
    pub fn read(&mut self, file: &[u8]) -> u32 {
        let r = read(file);
        let due = plain_dsp::read(file, self.reader);
        let right = (r.number, values(&r.header), r.data, r.data_len) == due;
        self.count(right, || format!("a file of {} bytes: {r:?}, due {due:?}", file.len()));
        // What is counted is by the right reader.
        let (number, v, _, bytes) = plain_dsp::read(file, Wrong::Nothing);
        self.tally.hit(match number {
            0 => "files that should be read",
            11 => "files refused by 11",
            _ => "files refused by 12",
        });
        if number != 11 {
            let samples = plain_dsp::values(file, Wrong::Nothing)[SAMPLES];
            self.tally.frame(0, samples, (file.len() - HEADER) as u64, plain_dsp::least(samples));
            if number == 12 && samples >= 1 << 31 {
                self.tally.hit("files of 2^31 samples and more, refused");
            }
        }
        if number == 0 {
            self.tally.header(&v, plain_dsp::widths());
            if bytes as u64 > plain_dsp::least(v[SAMPLES]) {
                self.tally.hit("files with data beyond the samples");
            }
            if v[SAMPLES] == 0 {
                self.tally.hit("files of no samples");
            }
        }
        number
    }

    /// Reads a file and, where it is accepted, writes what was read to an output of so many bytes more.
    pub fn file(&mut self, file: &[u8], more: usize) -> u32 {
        let number = self.read(file);
        if number == 0 {
            let r = read(file);
            let mut output = vec![MARK; file.len() + more];
            let w = write(&values(&r.header), &file[r.data..][..r.data_len], &mut output);
            let (front, beyond) = output.split_at(file.len());
            let right = (w.number, w.size) == (0, file.len()) && *front == *file && beyond.iter().all(|&b| b == MARK);
            self.count(right, || format!("a file of {} bytes read and written back: {w:?}", file.len()));
            self.tally.hit("files read and written back");
        }
        number
    }

    /// Writes a file to an output of so many bytes; where that succeeds, reads it. Gives the number that it should answer.
    pub fn write(&mut self, v: &Values, data: &[u8], room: usize) -> u32 {
        let mut output = vec![MARK; room];
        let w = write(v, data, &mut output);
        let (number, size, after) = plain_dsp::write(v, data, &vec![MARK; room], self.writer);
        let right = (w.number, w.size) == (number, size) && output == after;
        self.count(right, || format!("a write of {} bytes to {room}: {w:?}, due {number}, {size}; {v:?}", data.len()));
        self.wrote(v, data.len(), room);
        let (number, size) = plain_dsp::answer(v, data.len(), room, Wrong::Nothing);
        if (number, w.number) == (0, 0) && w.size <= room {
            let r = read(&output[..w.size]);
            let back = (r.number, values(&r.header), r.data, r.data_len) == (0, *v, HEADER, data.len()) && output[HEADER..size] == *data;
            self.count(back, || format!("a write of {} bytes, read back: {r:?}", data.len()));
            self.tally.hit("files written and read back");
        }
        number
    }

    /// Counts a write by its kinds.
    fn wrote(&mut self, v: &Values, data: usize, room: usize) {
        let (number, _) = plain_dsp::answer(v, data, room, Wrong::Nothing);
        let least = plain_dsp::least(v[SAMPLES]);
        let (short, small) = ((data as u64) < least, room < HEADER || room - HEADER < data);
        self.tally.hit(match number {
            0 => "writes that should succeed",
            11 => "writes refused by 11",
            _ => "writes refused by 12",
        });
        match (number, short, small) {
            (11, true, true) => self.tally.hit("writes with 11, data and output too short"),
            (11, true, false) => self.tally.hit("writes with 11 and data too short"),
            (11, false, true) => self.tally.hit("writes with 11 and output too short"),
            (12, true, true) => self.tally.hit("writes with data and output too short"),
            (11, false, false) if v[GAIN] == 0 => self.tally.word(0, v[FORMAT]),
            (11, false, false) if v[FORMAT] == 0 => self.tally.word(1, v[GAIN]),
            _ => {}
        }
        if number != 11 && !small {
            self.tally.frame(1, v[SAMPLES], data as u64, least);
        }
        if number == 0 && data as u64 > least {
            self.tally.hit("writes with data beyond the samples");
        }
        if number != 11 && !short {
            self.tally.hit(match room as i128 - (HEADER as i128 + data as i128) {
                _ if room == 0 => "writes with no output",
                _ if room < HEADER => "writes with less output than a header",
                _ if room == HEADER && data > 0 => "writes with a header's output, and data",
                -1 => "writes with one byte of output too little",
                0 => "writes with just enough output",
                more if more > 0 => "writes with more output",
                _ => return,
            });
        }
    }
}

/// A run over all kinds of case; with a wrong variant up to the kind that notices it.
fn run(reader: Wrong, writer: Wrong, seed: u64, count: u64) -> Tally {
    let r = &mut Random(seed);
    let mut run = Run { reader, writer, tally: Tally::new() };
    for cases in dsp_cases::ALL {
        if !run.over() {
            cases(&mut run, r, count);
        }
    }
    run.tally
}

/// Each wrong variant in turn.
fn wrong() -> bool {
    let (mut noticed, mut missed) = (0, 0);
    let right = Wrong::Nothing;
    let readers = WRONG_BOTH.iter().chain(&WRONG_READERS).map(|&w| (w, right));
    for (reader, writer) in readers.chain(WRONG_BOTH.iter().chain(&WRONG_WRITERS).map(|&w| (right, w))) {
        let tally = run(reader, writer, 1, 20_000);
        let found = tally.differ != 0;
        let name = if writer == right { format!("reader {reader:?}") } else { format!("writer {writer:?}") };
        println!("{}: {name} ({} comparisons)", if found { "noticed" } else { "MISSED" }, tally.compared);
        (noticed, missed) = (noticed + u64::from(found), missed + u64::from(!found));
    }
    println!("{noticed} noticed, {missed} missed");
    missed == 0
}

fn main() {
    let args: Vec<String> = std::env::args().skip(1).collect();
    if args.first().is_some_and(|a| a == "wrong") {
        std::process::exit(i32::from(!wrong()));
    }
    let number = |k: usize, d| args.get(k).map_or(d, |a| a.parse().expect("a number"));
    let (seed, count, start) = (number(0, 1), number(1, 200_000), Instant::now());
    let tally = run(Wrong::Nothing, Wrong::Nothing, seed, count);
    let missing = tally.print();
    println!("seed {seed}, {} seconds", start.elapsed().as_secs());
    println!("{} compared, {} differ", tally.compared, tally.differ);
    std::process::exit(i32::from(tally.differ != 0 || missing));
}
