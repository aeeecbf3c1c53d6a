//! Sessions of each mode by seed, run on both sides. One that differs is made smaller and printed.
use crate::both::{Judge, Tally, run};
use crate::empty::Reached;
use crate::modes::{Call, MODES, Session};
use crate::random::Random;

/// What all modes came to.
#[derive(Default)]
pub struct Total {
    pub compared: u64,
    pub differ: u64,
    pub empty_refused: u64,
    pub reached: Reached,
    /// As in a mode's tally; and how many of the first are of the mode `slowed`.
    pub still: u64,
    pub still_sounding: u64,
    pub still_slowed: u64,
    /// What the modes with ranges and sections should have reached and never did.
    pub unreached: Vec<String>,
}

/// Leaves out calls as long as the session still differs.
fn smaller(mut session: Session, judge: Judge) -> Session {
    let mut k = session.calls.len();
    while k > 0 {
        k -= 1;
        let mut less = session.clone();
        less.calls.remove(k);
        if run(&less, judge, &mut Tally::default()).is_err() {
            session = less;
        }
    }
    session
}

fn print(session: &Session) {
    for o in &session.opens {
        println!("  open {:x?} {:?}", oracle::renderer::Probe::parameters(&o.parameters), o.off);
    }
    for c in &session.calls {
        match c {
            Call::Update { expected, input, spare } => {
                let bytes: String = input.iter().map(|b| format!("{b:02x}")).collect();
                println!("  update expected {expected:#x}, spare {spare}, input {bytes}");
            }
            Call::Render { ranges, memory, spare } => println!("  render ranges {ranges:x?}, {:#x} bytes, spare {spare}", memory.len()),
            Call::Section { count, ranges, memory, spare } => {
                println!("  section of {count}, ranges {ranges:x?}, {:#x} bytes, spare {spare}", memory.len());
            }
        }
    }
}

/// Compares `count` sessions of each mode, as `make` makes them, and prints what each mode reached.
pub fn compare(seed: u64, count: u64, modes: &[&str], judge: Judge, make: fn(&mut Random, &str) -> Session) -> Total {
    let mut total = Total::default();
    for mode in modes {
        let index = MODES.iter().position(|m| m == mode).expect("a mode") as u64;
        let mut t = Tally::default();
        let mut differing = 0;
        for k in 0..count {
            // Each session has a seed of its own, so that it can be found again.
            let r = &mut Random(seed.wrapping_mul(0x1_0000_0001).wrapping_add(k << 8).wrapping_add(index));
            let made = make(r, mode);
            if let Err((at, how)) = run(&made, judge, &mut t) {
                differing += 1;
                if differing < 3 {
                    println!("differs: {mode}, seed {seed}, session {k}, call {at}: {how}");
                    let small = smaller(made, judge);
                    if let Err((at, how)) = run(&small, judge, &mut Tally::default()) {
                        println!("  of these, call {at}: {how}");
                    }
                    print(&small);
                }
            }
        }
        let (calls, refused) = (t.updates + t.renders + t.sections, [1, 2, 3, 5, 6, 7, 13, 14].map(|n| t.refused[n]));
        let kinds = format!("{} updates, {} renders, {} sections", t.updates, t.renders, t.sections);
        println!("{mode}: {count} sessions, {} opens, {calls} calls ({kinds}); {} renders in sections", t.opens, t.joined);
        println!("  refused by 1, 2, 3, 5, 6, 7, 13, 14: {refused:?}");
        println!("  frames: {} silent, {} sounding, {} NaNs; {} rounds; {differing} differ", t.silent, t.sounding, t.nans, t.rounds);
        match judge {
            Judge::Rust => println!("  renders without answer, whose frames are not compared: {}", t.still),
            Judge::Rules => println!("  renders by the rule for a fourth point: {}, of which {} sound", t.still, t.still_sounding),
        }
        let reached = match *mode {
            "ranges" => t.ranged.reads(),
            "ranges_refused" => t.ranged.refusals(),
            "sections" => t.sectioned.reached(),
            _ => vec![],
        };
        for line in reached.chunks(3) {
            let told: Vec<String> = line.iter().map(|(what, n)| format!("{what} {n}")).collect();
            println!("  {}", told.join("; "));
        }
        total.unreached.extend(reached.into_iter().filter(|(_, n)| *n == 0).map(|(what, _)| what));
        total.compared += calls + t.opens;
        total.differ += differing;
        total.empty_refused += t.empty_refused;
        total.reached.add(&t.reached);
        total.still += t.still;
        total.still_sounding += t.still_sounding;
        total.still_slowed += if *mode == "slowed" { t.still } else { 0 };
    }
    total
}
