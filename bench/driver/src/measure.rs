//! What is measured of a load on both sides: instructions, which callgrind counts between two requests, or times.
use std::time::Instant;

#[derive(Clone, Copy)]
pub enum Side {
    Theirs,
    Ours,
}

pub struct Measure {
    counting: bool,
    runs: usize,
    times: [Vec<u64>; 2],
    pub differences: usize,
}

/// A request to callgrind; outside it nothing happens.
#[inline(always)]
fn request(code: usize, argument: usize) {
    let words: [usize; 6] = [0x4354_0000 + code, argument, 0, 0, 0, 0];
    unsafe {
        std::arch::asm!(
            "rol rdi, 3", "rol rdi, 13", "rol rdi, 61", "rol rdi, 51", "xchg rbx, rbx",
            in("rax") &words, inout("rdx") 0usize => _, inout("rdi") 0usize => _,
        );
    }
}
const ZERO: usize = 1;
const DUMP: usize = 3;

fn median(times: &mut [u64]) -> u64 {
    times.sort_unstable();
    times[times.len() / 2]
}

impl Measure {
    pub fn counting() -> Self {
        Measure { counting: true, runs: 1, times: [Vec::new(), Vec::new()], differences: 0 }
    }

    pub fn timing(runs: usize) -> Self {
        Measure { counting: false, runs: runs.max(1), times: [Vec::new(), Vec::new()], differences: 0 }
    }

    /// How often a load is run on each side, in turn.
    pub fn runs(&self, slow: bool) -> usize {
        if slow { self.runs.min(15) } else { self.runs }
    }

    /// One run on one side.
    #[inline(always)]
    pub fn run<T>(&mut self, side: Side, load: &str, work: impl FnOnce() -> T) -> T {
        if self.counting {
            let name = match side {
                Side::Theirs => "theirs",
                Side::Ours => "ours",
            };
            let label = format!("{name}|{load}\0");
            request(ZERO, 0);
            let left = work();
            request(DUMP, label.as_ptr() as usize);
            return left;
        }
        let start = Instant::now();
        let left = work();
        self.times[side as usize].push(start.elapsed().as_nanos() as u64);
        left
    }

    /// The line of a load: its name, of how many glyphs (or commands) it was, and times a glyph.
    pub fn tell(&mut self, load: &str, units: usize, compared: Result<(), String>) {
        if let Err(what) = compared {
            self.differences += 1;
            println!("DIFFERENT\t{load}\t{what}");
        }
        if self.counting {
            println!("{load}\t{units}");
        } else {
            let per = |t: &mut Vec<u64>| median(t) as f64 / units as f64;
            let [theirs, ours] = &mut self.times;
            println!("{load}\t{units}\t{:.4}\t{:.4}", per(theirs), per(ours));
        }
        self.times = [Vec::new(), Vec::new()];
    }
}
