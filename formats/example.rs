//! A title in which every field counts: voices of all formats, splitters, mixes that send, sinks, effects and pools.
use crate::cases::{ADPCM, COEFFICIENTS, CONTEXT, EFFECTS, FLOATS, INTEGERS, VOICES};
use crate::table::Table;
use crate::title::{Random, Rec, Title, f};

/// A new voice that is playing, with no route and an empty queue.
fn voice<'r, 'a>(t: &'r mut Title<'a>, k: usize, format: &str, channels: u64, mix: Option<u64>) -> &'r mut Rec<'a> {
    let v = t.add("voice", 0);
    for (name, value) in [("is_new", 1), ("in_use", 1), ("queued", 1), ("sample_rate", 44100), ("channels", channels)] {
        v.set(name, value);
    }
    v.set("pitch", f(1.0));
    v.set("volume", f(0.8));
    v.named("play", "start");
    v.named("format", format);
    v.named("mix", "none");
    v.named("splitter", "none");
    if let Some(mix) = mix {
        v.set("mix", mix);
    }
    for c in 0..6 {
        v.nth("channel_resources", c, ((k + c) % (VOICES - 1)) as u64);
    }
    for b in 0..4 {
        v.inner("waves", b, "sent_before", 1);
    }
    v
}

/// A wave buffer in a slot: its fields, and that it is new.
pub fn wave(v: &mut Rec, slot: usize, fields: &[(&str, u64)]) {
    v.inner("waves", slot, "sent_before", 0);
    for &(name, value) in fields {
        v.inner("waves", slot, name, value);
    }
}

fn voices(t: &mut Title) {
    // Loops twice, the second time from 5 to 20, where loops have bounds.
    let v = voice(t, 0, "adpcm", 1, Some(3));
    v.set("coefficients", COEFFICIENTS);
    let looped = [("looping", 1), ("loop_count", 1), ("loop_start", 5), ("loop_end", 20)];
    wave(v, 0, &[("address", ADPCM), ("data_size", 0x100), ("end", 40), ("context", CONTEXT)]);
    wave(v, 0, &looped);
    // Ends, and goes on with the next.
    let v = voice(t, 1, "pcm_int16", 2, Some(1));
    wave(v, 0, &[("address", INTEGERS + 8), ("data_size", 0x60), ("end", 20), ("end_of_stream", 1)]);
    wave(v, 1, &[("address", INTEGERS + 0x200), ("data_size", 0x100), ("start", 3), ("end", 30)]);
    let v = voice(t, 2, "pcm_float", 6, Some(3));
    wave(v, 0, &[("address", FLOATS), ("data_size", 2400), ("end", 90), ("looping", 1), ("loop_count", 0xffff_ffff)]);
    // By a splitter.
    let v = voice(t, 3, "pcm_int16", 1, None);
    v.set("splitter", 0);
    wave(v, 0, &[("address", INTEGERS + 0x40), ("data_size", 0x100), ("end", 50), ("looping", 1)]);
    // Nothing queued.
    let v = voice(t, 4, "pcm_int16", 1, Some(0));
    v.set("queued", 0);
    wave(v, 0, &[("address", INTEGERS + 0x80), ("data_size", 0x100), ("end", 50), ("looping", 1)]);
    // Four buffers, of which the first is flushed.
    let v = voice(t, 5, "pcm_int16", 1, Some(1));
    v.set("flush", 1);
    for b in 0..4 {
        wave(v, b, &[("address", INTEGERS + 0x100 * b as u64), ("data_size", 0x40), ("end", 20)]);
    }
    // A buffer that is too small for its samples.
    let v = voice(t, 6, "pcm_int16", 1, Some(1));
    wave(v, 0, &[("address", INTEGERS + 0x20), ("data_size", 0), ("end", 4), ("looping", 1)]);
    let v = voice(t, 7, "pcm_int16", 1, Some(2));
    v.set("pitch", f(1.25));
    wave(v, 0, &[("address", INTEGERS + 0x300), ("data_size", 0x100), ("end", 60), ("looping", 1)]);
}

/// Mix 0 has what the sink takes; mix 3 sends all its buffers to all of mix 1, that to mix 0; mix 2 goes by splitter 1.
fn mixes(t: &mut Title) {
    let mut r = t.random.clone();
    t.add("mix_header", 0).set("count", 4);
    for (id, buffers, volume) in [(0, 6, 0.9), (1, 24, 0.8), (2, 2, 1.1), (3, 24, 0.7)] {
        let m = t.add("mix", 0);
        for (name, value) in [("volume", f(volume)), ("buffer_count", buffers), ("in_use", 1), ("id", id)] {
            m.set(name, value);
        }
        m.named("destination", "none");
        m.named("splitter", "none");
        match id {
            1 => m.set("destination", 0),
            2 => m.set("splitter", 1),
            3 => m.set("destination", 1),
            _ => {}
        }
        for k in 0..576 {
            if id != 1 || k % 24 == (k / 24) % 6 {
                m.nth("gains", k, f(r.float(0.02, 0.12)));
            }
        }
    }
}

/// Splitter 0 goes to destinations 0 and 1, splitter 1 to 2 and 1; each record is followed by so many bytes.
fn splitters(t: &mut Title, padding: (usize, usize)) {
    let mut r = t.random.clone();
    let h = t.add("splitter_header", 0);
    h.named("magic", "sndh");
    h.set("splitter_count", 2);
    h.set("destination_count", 3);
    for (id, list) in [(0, [0, 1]), (1, [2, 1])] {
        let s = t.add("splitter", 4 * list.len());
        s.pad(&mut r, padding.0);
        s.named("magic", "sndi");
        s.set("id", id);
        s.set("destination_count", list.len() as u64);
        for (k, d) in list.into_iter().enumerate() {
            s.nth("destinations", k, d);
        }
    }
    for (id, mix) in [(0, 3), (1, 1), (2, 1)] {
        let d = t.add("destination", 0);
        d.pad(&mut r, padding.1);
        d.named("magic", "sndd");
        for (name, value) in [("id", id), ("mix", mix), ("in_use", 1)] {
            d.set(name, value);
        }
        for k in 0..24 {
            d.nth("gains", k, f(r.float(0.1, 0.6)));
        }
    }
}

/// A sink that is no device, and one with so many inputs.
fn sinks(t: &mut Title, inputs: u64) {
    let other = t.add("sink", 0);
    other.set("kind", 2);
    other.set("in_use", 1);
    let s = t.add("sink", 0);
    s.named("kind", "device");
    for (name, value) in [("in_use", 1), ("input_count", inputs), ("own_downmix", 1)] {
        s.set(name, value);
    }
    for k in 0..6 {
        s.nth("inputs", k, k as u64);
    }
    for (k, factor) in [0.9, 0.6, 0.3, 0.5].into_iter().enumerate() {
        s.nth("downmix", k, f(factor));
    }
}

/// A title's first update, with so many bytes behind each splitter and destination, and so many inputs of the sink.
pub fn first(table: &Table, revision: u32, padding: (usize, usize), inputs: u64) -> Title<'_> {
    let mut t = Title { table, revision, random: Random(0x5eed_0003), records: Vec::new() };
    t.add("behaviour", 0x10);
    let mut r = t.random.clone();
    for k in 0..4 * VOICES + EFFECTS {
        let pool = t.add("pool", 0);
        match k {
            0 => pool.named("state", "attach"),
            1 => pool.named("state", "detach"),
            _ => pool.set("state", r.next() & 0xffff_ffff),
        }
    }
    for _ in 0..VOICES {
        let c = t.add("channel_resource", 0);
        for k in 0..24 {
            c.nth("gains", k, f(r.float(0.1, 0.6)));
        }
    }
    voices(&mut t);
    for k in 0..EFFECTS {
        t.add("effect", 5).set("enabled", k as u64);
    }
    splitters(&mut t, padding);
    mixes(&mut t);
    sinks(&mut t, inputs);
    t
}

/// The same title later: nothing is new, nothing is flushed.
pub fn later<'a>(t: &Title<'a>) -> Title<'a> {
    let mut t = t.clone();
    for v in t.all("voice") {
        v.set("is_new", 0);
        v.set("flush", 0);
        for b in 0..4 {
            v.inner("waves", b, "sent_before", 1);
        }
    }
    t
}
