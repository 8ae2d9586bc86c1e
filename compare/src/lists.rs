//! Lists of commands from a seed.
use crate::buffer::Buffer;
use crate::commands::{searches, Command, OPEN, OPERANDS};
use crate::theirs::Theirs;

/// xorshift64*: the same lists from the same seed, everywhere.
pub struct Random(u64);

impl Random {
    pub fn new(seed: u64) -> Self {
        Random(seed.wrapping_mul(0x9E37_79B9_7F4A_7C15) | 1)
    }

    pub fn next(&mut self) -> u64 {
        self.0 ^= self.0 >> 12;
        self.0 ^= self.0 << 25;
        self.0 ^= self.0 >> 27;
        self.0.wrapping_mul(0x2545_F491_4F6C_DD1D)
    }

    pub fn below(&mut self, n: usize) -> usize {
        ((self.next() >> 33) as usize) % n.max(1)
    }

    fn pick(&mut self, from: &[u32]) -> u32 {
        from[self.below(from.len())]
    }
}

/// A place near `top`: mostly inside, now and then past it, at times far off.
fn place(r: &mut Random, top: usize) -> u32 {
    match r.below(20) {
        0 => (top + 1 + r.below(3)) as u32,
        1 => r.pick(&[0, 255, 256, 300, 2047, 2048, 65536, 1_073_741_824]),
        _ => r.below(top + 1) as u32,
    }
}

/// Two places in order, most of the time; now and then all there is.
fn range(r: &mut Random, low: usize, top: usize) -> (u32, u32) {
    if r.below(5) == 0 {
        return (low as u32, top as u32);
    }
    let (a, b) = (place(r, top), place(r, top));
    let low = if r.below(8) == 0 { 0 } else { low as u32 };
    if r.below(10) == 0 { (a, b) } else { (a.min(b).max(low), a.max(b).max(low)) }
}

fn bounds(r: &mut Random, a: (u32, u32)) -> (u32, u32) {
    (if r.below(6) == 0 { OPEN } else { a.0 }, if r.below(6) == 0 { OPEN } else { a.1 })
}

fn cluster(r: &mut Random) -> u32 {
    if r.below(30) == 0 { r.pick(&[OPEN, 4_000_000_000, 255]) } else { r.below(6) as u32 }
}

fn mask(r: &mut Random) -> u32 {
    match r.below(4) {
        0 => r.next() as u32,
        1 => 0,
        _ => r.below(16) as u32,
    }
}

fn glyph(r: &mut Random) -> u32 {
    if r.below(10) == 0 { r.next() as u32 } else { 60 + r.below(40) as u32 }
}

fn var(r: &mut Random) -> u32 {
    if r.below(8) == 0 { r.next() as u32 } else { r.below(4) as u32 }
}

fn slot(r: &mut Random) -> u32 {
    if r.below(20) == 0 { 2 } else { r.below(2) as u32 }
}

/// The range of a call that has no other operands.
fn ranged(r: &mut Random, byte: u8, b: &Buffer) -> (u32, u32) {
    let cursor = if b.have_output { b.idx } else { 0 };
    match byte {
        0x12 | 0x14 => range(r, 0, b.out_len),
        0x15..=0x17 => {
            let wide = range(r, cursor, b.len);
            bounds(r, wide)
        }
        0x18 | 0x19 => {
            let places = (place(r, b.out_len), place(r, b.len).max(b.idx as u32));
            bounds(r, places)
        }
        _ => range(r, cursor, b.len),
    }
}

/// A level and wants; where level 3 searches, half of the time that once more.
fn level_and_wants(r: &mut Random, t: &Theirs) -> Vec<u32> {
    if t.searching && r.below(2) == 0 {
        return vec![3, 4 + r.below(4) as u32];
    }
    vec![r.below(5) as u32, if r.below(20) == 0 { 8 } else { r.below(8) as u32 }]
}

fn operands(r: &mut Random, byte: u8, t: &Theirs) -> Vec<u32> {
    let b = &t.buffer;
    match byte {
        0x00 => level_and_wants(r, t),
        0x01 => vec![glyph(r), cluster(r)],
        0x02 => vec![if r.below(12) == 0 { r.pick(&[2048, 2049, 1_073_741_823, 1_073_741_824]) } else { r.below(b.len + 4) as u32 }],
        0x06 => vec![place(r, b.len), r.next() as u32, r.below(9) as u32, r.next() as u32, r.below(3) as u32],
        0x08 => vec![place(r, b.len - b.idx)],
        0x0B | 0x0D => vec![glyph(r)],
        0x0C => vec![glyph(r), mask(r), cluster(r), var(r), var(r)],
        0x0E => {
            let out = if r.below(40) == 0 { 30 } else { r.below(4) };
            let mut words = vec![place(r, (b.len - b.idx).min(4)), out as u32];
            words.extend((0..out).map(|_| glyph(r)));
            words
        }
        0x10 if !b.have_output && r.below(2) == 0 => vec![0],
        0x10 => vec![place(r, if b.have_output { b.out_len + b.len - b.idx } else { b.len })],
        0x11..=0x19 | 0x1C => {
            let (s, e) = ranged(r, byte, b);
            vec![s, e]
        }
        0x1A => {
            let (s, e) = if r.below(3) == 0 { (r.pick(&[0, 0, 1]), OPEN) } else { (r.below(4) as u32, r.below(8) as u32) };
            vec![r.next() as u32, mask(r), s, e]
        }
        0x1E | 0x22 => vec![slot(r), mask(r)],
        0x20 => {
            let (s, e) = range(r, 0, b.len);
            vec![s, e, slot(r), mask(r)]
        }
        0x21 => vec![slot(r), 3, r.below(4) as u32],
        _ => vec![0; OPERANDS[byte as usize]],
    }
}

const WITH_OUTPUT: [u32; 23] = [
    0x07, 0x08, 0x09, 0x0A, 0x0B, 0x0C, 0x0C, 0x0D, 0x0E, 0x0E, 0x0F, 0x10, 0x10, 0x11, 0x12, 0x13, 0x14, 0x15, 0x16, 0x17, 0x18, 0x19, 0x04,
];
const PAST_START: [u32; 13] = [0x10, 0x10, 0x10, 0x03, 0x05, 0x07, 0x08, 0x09, 0x11, 0x13, 0x15, 0x16, 0x17];
const WITH_POSITIONS: [u32; 27] = [
    0x02, 0x03, 0x05, 0x06, 0x06, 0x06, 0x06, 0x07, 0x11, 0x13, 0x15, 0x16, 0x17, 0x1A, 0x1B, 0x1C, 0x1C, 0x1D, 0x1E, 0x1E, 0x1F, 0x21, 0x21, 0x22, 0x23,
    0x24, 0x25,
];
const PLAIN: [u32; 30] = [
    0x01, 0x02, 0x03, 0x03, 0x03, 0x05, 0x06, 0x05, 0x07, 0x09, 0x10, 0x11, 0x13, 0x15, 0x16, 0x17, 0x1A, 0x1B, 0x1C, 0x1D, 0x1E, 0x1F, 0x20, 0x20,
    0x21, 0x22, 0x23, 0x24, 0x25, 0x26,
];

/// Which commands make sense now; others come too, for their refusals.
fn byte(r: &mut Random, t: &Theirs) -> u8 {
    let b = &t.buffer;
    if t.spoiled {
        return if r.below(3) > 0 { 0x00 } else { r.below(39) as u8 };
    }
    if r.below(100) == 0 {
        return 0x00;
    }
    if r.below(12) == 0 {
        return 1 + r.below(38) as u8;
    }
    let some: &[u32] = if b.have_output {
        &WITH_OUTPUT
    } else if b.idx > 0 {
        &PAST_START
    } else if b.len < 2 || (!b.have_positions && r.below(4) == 0) {
        &[0x01, 0x01, 0x02, 0x03]
    } else if b.have_positions {
        &WITH_POSITIONS
    } else {
        &PLAIN
    };
    r.pick(some) as u8
}

/// A run of glyphs with variables; at times behind so many others that ranges pass 255.
fn keyed(r: &mut Random, capacity: usize) -> Vec<Command> {
    let new = Command::new;
    let many = if capacity > 1000 && r.below(4) == 0 { 200 + r.below(500) as u32 } else { 0 };
    let mut commands = Vec::new();
    if many > 0 {
        commands.extend([new(0x24, &[]), new(0x02, &[many]), new(0x1F, &[])]);
    }
    commands.push(new(0x03, &[]));
    for _ in 0..2 + r.below(8) {
        commands.push(new(0x0C, &[glyph(r), mask(r), cluster(r), var(r), var(r)]));
    }
    if many > 0 && r.below(2) == 0 {
        commands.push(new(0x08, &[many]));
    }
    commands.push(new(0x04, &[]));
    if r.below(3) == 0 {
        commands.push(new(0x05, &[]));
    }
    commands
}

/// A short run whose `max_ops` a sort has brought down to 16, or a little more.
fn nearly_drained(r: &mut Random) -> Vec<Command> {
    let new = Command::new;
    let mut commands = vec![new(0x24, &[]), new(0x03, &[]), new(0x0C, &[glyph(r), mask(r), cluster(r), 1, var(r)]), new(0x04, &[]), new(0x03, &[])];
    commands.extend((1..35).map(|_| new(0x0A, &[])));
    let run = 35 + 1820 - r.below(5) as u32;
    commands.extend([new(0x07, &[]), new(0x04, &[]), new(0x02, &[run]), new(0x20, &[0, run, 0, 1]), new(0x1B, &[])]);
    commands.extend([new(0x02, &[2 + r.below(12) as u32]), new(0x1F, &[])]);
    commands
}

/// Where the lists of a seed start: at any level and wants, or where level 3 searches (N11).
#[derive(Clone, Copy, PartialEq)]
pub enum Start {
    Anywhere,
    Searching,
}

impl Start {
    fn command(self, r: &mut Random) -> Command {
        match self {
            Start::Anywhere => Command::new(0, &[r.below(2) as u32 * r.below(5) as u32, r.below(8) as u32]),
            Start::Searching => Command::new(0, &[3, 4 + r.below(4) as u32]),
        }
    }

    /// The most commands behind the start; where marks are looked at, and pile up, fewer.
    pub fn longest(self) -> usize {
        match self {
            Start::Anywhere => 200,
            Start::Searching => 60,
        }
    }

    /// Whether these bytes are one of these lists: those that start anywhere are for harfrust as it is.
    pub fn takes(self, bytes: &[u8]) -> bool {
        searches(bytes) == (self == Start::Searching)
    }
}

/// How a list starts.
fn start(r: &mut Random, capacity: usize, first: Start) -> Vec<Command> {
    let mut commands = vec![first.command(r)];
    match r.below(24) {
        0 if capacity > 2000 => commands.extend(nearly_drained(r)),
        1 => commands.extend((0..r.below(30)).map(|_| Command::new(0x26, &[]))),
        2..=9 => commands.extend(keyed(r, capacity)),
        _ if first == Start::Searching => commands.extend(keyed(r, capacity)),
        _ => {}
    }
    commands
}

/// A list that is made as harfrust goes along with it.
pub fn list(r: &mut Random, capacity: usize, first: Start, length: usize) -> Vec<Command> {
    let mut theirs = Theirs::new(capacity, 0, 0);
    let mut commands = start(r, capacity, first);
    commands.iter().for_each(|c| {
        let _ = theirs.call(c);
    });
    for _ in 0..length {
        let byte = byte(r, &theirs);
        let command = Command { byte, operands: operands(r, byte, &theirs) };
        let _ = theirs.call(&command);
        commands.push(command);
    }
    commands
}
