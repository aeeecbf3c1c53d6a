//! The cases of the driver `dsp_file`, kind by kind.
use crate::dsp_tally::{FORMAT_AT, GAIN_AT, LENGTHS};
use crate::mapped::{Folded, Mapped, SEGMENT};
use crate::plain_dsp::{self, FORMAT, GAIN, HEADER, NIBBLES, PADDING, SAMPLES, Values, Wrong, answer, held, least};
use crate::random::Random;
use crate::sys::jeqlluna_write_dsp;
use crate::{MARK, Run, header};

/// All kinds of case.
pub const ALL: [fn(&mut Run, &mut Random, u64); 8] = [lengths, tested, words, frames, both, rooms, any, largest];

/// The bytes of 2^32 - 1 samples.
const MOST: usize = 2_454_267_027;

/// Values of a header that question 11 allows, with so many samples; extreme ones among them.
fn some_values(r: &mut Random, samples: u32) -> Values {
    const EXTREMES: [u32; 8] = [0, 1, 0x7fff, 0x8000, 0xffff, 0x7fff_ffff, 0x8000_0000, u32::MAX];
    let any: Values = std::array::from_fn(|_| if r.below(4) == 0 { EXTREMES[r.below(8) as usize] } else { r.next() as u32 });
    // What a header of these bytes holds, so that each value has its width.
    let mut v = plain_dsp::values(&bytes_of(&any), Wrong::Nothing);
    (v[SAMPLES], v[FORMAT], v[GAIN]) = (samples, 0, 0);
    if r.below(4) == 0 {
        v[NIBBLES] = r.below(64) as u32;
    }
    v
}

/// The bytes of such a header.
fn bytes_of(v: &Values) -> Vec<u8> {
    plain_dsp::header(v, Wrong::Nothing)
}

/// The file of such values and data.
fn file_of(v: &Values, data: &[u8]) -> Vec<u8> {
    [bytes_of(v), data.to_vec()].concat()
}

/// Every length 0 to 98: zeros, ones, headers of none to four samples cut or with what follows, any bytes.
fn lengths(run: &mut Run, r: &mut Random, _: u64) {
    for n in 0..LENGTHS {
        for samples in 0..5 {
            let v = some_values(r, samples);
            let file = file_of(&v, &r.bytes(3));
            run.file(&file[..n], 1);
        }
        for file in [vec![0; n], vec![0xff; n], r.bytes(n), r.bytes(n)] {
            run.file(&file, 0);
        }
        run.tally.lengths[n] += 9;
    }
}

/// Every value of every byte of format, gain and padding alone, in a file that has its data and in one without the last byte.
fn tested(run: &mut Run, r: &mut Random, _: u64) {
    for at in [FORMAT_AT, FORMAT_AT + 1, GAIN_AT, GAIN_AT + 1].into_iter().chain(HEADER - PADDING..HEADER) {
        for value in 1..=255 {
            let samples = r.below(30) as u32;
            let v = some_values(r, samples);
            let mut file = file_of(&v, &r.bytes(least(samples) as usize));
            file[at] = value;
            if run.file(&file, 0) == 11 {
                run.tally.alone(at, value);
            }
            if samples > 0 {
                file.pop();
                run.file(&file, 0);
                run.tally.hit(match at {
                    FORMAT_AT | 0x0f => "files with format set and data too short",
                    GAIN_AT | 0x3d => "files with gain set and data too short",
                    _ => "files with a byte of padding set and data too short",
                });
            }
        }
    }
}

/// Every value of format and of gain, in files and in writes.
fn words(run: &mut Run, r: &mut Random, _: u64) {
    for which in [FORMAT, GAIN] {
        for value in 1..=0xffff {
            let mut v = some_values(r, 3);
            v[which] = value;
            let data = r.bytes(3);
            run.write(&v, &data, HEADER + 3 + value as usize % 2);
            run.file(&file_of(&v, &data), 0);
        }
    }
}

/// Sample counts around the ends of frames, with data too short, just enough and longer.
fn frames(run: &mut Run, r: &mut Random, _: u64) {
    for k in (0..80).chain([585, 1000, 4681, 4682, 9362, 74_898, 74_899]) {
        for samples in [14 * k - 1, 14 * k, 14 * k + 1, 14 * k + r.below(14) as i64] {
            let Ok(samples) = u32::try_from(samples) else { continue };
            let v = some_values(r, samples);
            for more in [-8, -2, -1, 0, 1, 2, 7, 8, 9] {
                let Ok(n) = usize::try_from(least(samples) as i64 + more) else { continue };
                let data = r.bytes(n);
                run.file(&file_of(&v, &data), 2);
                run.write(&v, &data, HEADER + n + r.below(3) as usize);
            }
        }
    }
}

/// Both refusals at once in writes; in files, see `tested`.
fn both(run: &mut Run, r: &mut Random, _: u64) {
    for _ in 0..2000 {
        let samples = 1 + r.below(60) as u32;
        let mut v = some_values(r, samples);
        v[if r.below(2) == 0 { FORMAT } else { GAIN }] = 1 + r.below(0xffff) as u32;
        let n = least(samples) as usize;
        let data = r.bytes(n);
        let less = r.below(n as u64) as usize;
        for (data, room) in [(&data[..less], HEADER + n), (&data, HEADER + less), (&data[..less], less)] {
            run.write(&v, data, room);
        }
        (v[FORMAT], v[GAIN]) = (0, 0);
        run.write(&v, &data[..less], less);
    }
}

/// All small lengths of data with all small outputs; and lengths of data to which 96 can't be added. Nothing stands there: such a write is
/// refused before a byte is read.
fn rooms(run: &mut Run, r: &mut Random, _: u64) {
    for n in 0..=12 {
        for room in 0..HEADER + 16 {
            let samples = r.below(held(n) + 1) as u32;
            let v = some_values(r, samples);
            let data = r.bytes(n as usize);
            run.write(&v, &data, room);
        }
    }
    for less in 0..200 {
        for room in [0, 1, HEADER - 1, HEADER, HEADER + 1, 200, 300] {
            let (v, mut output) = (some_values(r, r.0 as u32), vec![MARK; room]);
            let (data, n) = ([0u8; 1], usize::MAX - less);
            let w = unsafe { jeqlluna_write_dsp(header(&v), data.as_ptr(), n, output.as_mut_ptr(), room) };
            let right = (w.number, w.size) == answer(&v, n, room, run.writer) && output.iter().all(|&b| b == MARK);
            run.count(right, || format!("a write of {n} bytes to {room}: {w:?}"));
            run.tally.hit("writes with data whose length and 96 go beyond 2^64");
            if run.over() {
                return;
            }
        }
    }
}

/// Random headers: files with and without faults, cut and longer, and writes of the same values.
fn any(run: &mut Run, r: &mut Random, count: u64) {
    for _ in 0..count {
        let most = [20, 20, 100, 1000][r.below(4) as usize];
        let n = r.below(most);
        let samples = match r.below(8) {
            0 => r.next() as u32,
            1 => held(n) as u32 + 1 + r.below(3) as u32,
            2 | 3 => (held(n) - r.below(3).min(held(n))) as u32,
            _ => r.below(held(n) + 1) as u32,
        };
        let mut v = some_values(r, samples);
        let data = r.bytes(n as usize);
        let mut file = file_of(&v, &data);
        match r.below(16) {
            0 => file.truncate(r.below(file.len() as u64 + 1) as usize),
            1 => file[HEADER - PADDING + r.below(PADDING as u64) as usize] = r.next() as u8,
            2 => v[FORMAT] = r.next() as u32 & 0xffff,
            3 => v[GAIN] = r.next() as u32 & 0xffff,
            4 => {
                let some = r.bytes(file.len());
                file.copy_from_slice(&some);
            }
            _ => {}
        }
        if v[FORMAT] != 0 || v[GAIN] != 0 {
            file = file_of(&v, &data);
        }
        run.file(&file, r.below(3) as usize);
        let room = match r.below(8) {
            0 => r.below(HEADER as u64 + n) as usize,
            1 => HEADER + n as usize - 1,
            2 | 3 => HEADER + n as usize + r.below(40) as usize,
            _ => HEADER + n as usize,
        };
        run.write(&v, &data, room);
        if run.over() {
            return;
        }
    }
}

/// 2^32 - 1 samples: a byte of data or of output less, just enough, a byte more.
fn largest(run: &mut Run, r: &mut Random, _: u64) {
    assert_eq!((least(u32::MAX), held(MOST as u64 - 1) < u32::MAX.into()), (MOST as u64, true));
    let v = some_values(r, u32::MAX);
    let map = Mapped::zeros_behind(&bytes_of(&v), HEADER + MOST + 1);
    let file = map.slice();
    for (bytes, kind) in [
        (MOST - 1, "the most samples, a byte of data too little: read"),
        (MOST, "the most samples, data just enough: read"),
        (MOST + 1, "the most samples, a byte more: read"),
    ] {
        run.read(&file[..HEADER + bytes]);
        run.tally.hit(kind);
    }
    let mut output = Folded::new(HEADER + MOST + SEGMENT / 2);
    for (bytes, room, kind) in [
        (MOST - 1, HEADER + MOST + 1, "the most samples, a byte of data too little: write"),
        (MOST, HEADER + MOST - 1, "the most samples, a byte of output too little: write"),
        (MOST, HEADER + MOST, "the most samples, just enough: write"),
        (MOST + 1, HEADER + MOST + 2, "the most samples, a byte more: write"),
    ] {
        output.segments().fill(MARK);
        let (at, last) = output.place();
        let w = unsafe { jeqlluna_write_dsp(header(&v), file[HEADER..].as_ptr(), bytes, at, room) };
        let due = answer(&v, bytes, room, run.writer);
        // The three segments: the first, all between, the last.
        let (first, rest) = output.segments().split_at(SEGMENT);
        let (between, end) = rest.split_at(SEGMENT);
        let same = |part: &[u8], byte: u8| part.iter().all(|&b| b == byte);
        let right = if due.0 == 0 {
            let (written, beyond) = end.split_at(HEADER + bytes - last);
            let (head, data) = first.split_at(HEADER);
            *head == plain_dsp::header(&v, run.writer) && same(data, 0) && same(between, 0) && same(written, 0) && same(beyond, MARK)
        } else {
            same(first, MARK) && same(between, MARK) && same(end, MARK)
        };
        run.count(right && (w.number, w.size) == due, || format!("a write of {bytes} bytes to {room}: {w:?}, due {due:?}"));
        run.tally.hit(kind);
    }
}
