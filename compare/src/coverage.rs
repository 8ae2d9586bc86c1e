//! What stored lists show, and the tables of what they must show.
use crate::commands::{read, Command, OPERANDS};
use crate::theirs::{Answer, Theirs};
use std::collections::{BTreeMap, BTreeSet};

/// The refusals that each command can give when it is read from bytes; 6 comes to every one with operands.
/// (0E's 4, fewer glyph numbers than stated, is 6 there.)
pub const REFUSALS: [&[u32]; 39] = [
    &[4],       // 00
    &[2, 5],    // 01
    &[2, 5],    // 02
    &[2],       // 03
    &[2, 5],    // 04
    &[2],       // 05
    &[2, 3],    // 06
    &[2, 3, 5], // 07
    &[2, 3, 5], // 08
    &[2, 3],    // 09
    &[2, 3, 5], // 0A
    &[2, 5],    // 0B
    &[2, 5],    // 0C
    &[2, 3, 5], // 0D
    &[2, 3, 5], // 0E
    &[2, 3],    // 0F
    &[2, 3, 5], // 10
    &[2, 3],    // 11
    &[2, 3],    // 12
    &[2, 3],    // 13
    &[2, 3],    // 14
    &[2, 3],    // 15
    &[2, 3],    // 16
    &[2, 3],    // 17
    &[2, 3],    // 18
    &[2, 3],    // 19
    &[2],       // 1A
    &[2],       // 1B
    &[2, 3],    // 1C
    &[2],       // 1D
    &[2, 4],    // 1E
    &[2],       // 1F
    &[2, 3, 4], // 20
    &[2, 4],    // 21
    &[2, 4],    // 22
    &[2],       // 23
    &[2],       // 24
    &[2],       // 25
    &[2],       // 26
];

/// The values of those that return one.
const VALUES: [(u8, &[u32]); 4] = [(0x02, &[0, 1]), (0x04, &[0, 1]), (0x10, &[0, 1]), (0x26, &[1, 2, 3, 4, 5, 6, 7])];

/// Accepted with output held in the run, and with output apart.
const WITH_OUTPUT: [u8; 23] = [
    0x00, 0x04, 0x07, 0x08, 0x09, 0x0A, 0x0B, 0x0C, 0x0D, 0x0E, 0x0F, 0x10, 0x11, 0x12, 0x13, 0x14, 0x15, 0x16, 0x17, 0x18, 0x19, 0x24, 0x26,
];

/// Those that can give up, a size being over `max_len`.
const GIVE_UP: [u8; 11] = [0x01, 0x02, 0x04, 0x07, 0x08, 0x0A, 0x0B, 0x0C, 0x0D, 0x0E, 0x10];

/// Those that can bring `max_ops` below 0.
const DRAIN: [u8; 12] = [0x0E, 0x0F, 0x10, 0x11, 0x12, 0x13, 0x14, 0x1A, 0x1E, 0x20, 0x21, 0x22];

#[derive(Clone, Copy, Debug, PartialEq, Eq, PartialOrd, Ord)]
pub enum Thing {
    Done,
    Value(u32),
    No(u32),
    /// Accepted at a level and wants; 4 stands for any level above 3.
    At(u32, u32),
    /// Accepted, and refused with a number, in a place: 1 with output, 2 with output apart, 4 with positions.
    In(u32),
    NoIn(u32, u32),
    /// Accepted on an unsuccessful buffer, and with `max_ops` below 0.
    Failed(bool),
    /// A size over `max_len`; `max_ops` below 0 for the first time; and back above it.
    GaveUp,
    Drained,
    Wrapped,
    /// Refusal 6 after so many bytes of operands.
    Cut(usize),
    Unknown,
}

pub type Seen = BTreeSet<(u8, Thing)>;

fn place(t: &Theirs) -> u32 {
    let b = &t.buffer;
    u32::from(b.have_output) + 2 * u32::from(b.have_separate_output) + 4 * u32::from(b.have_positions)
}

/// What one command shows.
fn shown(t: &mut Theirs, at: &mut (u32, u32), c: &Command) -> Vec<Thing> {
    let (before, successful, ops) = (place(t), t.buffer.successful, t.buffer.max_ops);
    let mut things = match t.call(c) {
        Err(n) => return vec![Thing::No(n), Thing::NoIn(n, before)],
        Ok(Answer::Value(v)) => vec![Thing::Value(v)],
        Ok(Answer::Done) => vec![Thing::Done],
    };
    if c.byte == 0 {
        *at = (c.operands[0].min(4), c.operands[1]);
    }
    things.extend([Thing::At(at.0, at.1), Thing::In(before)]);
    if !successful {
        things.push(Thing::Failed(ops < 0));
    }
    let limits = !matches!(c.byte, 0x00 | 0x24 | 0x25);
    let after = &t.buffer;
    if limits && successful && !after.successful {
        things.push(if after.max_ops < 0 { Thing::Drained } else { Thing::GaveUp });
    }
    if limits && ops < 0 && after.max_ops >= 0 {
        things.push(Thing::Wrapped);
    }
    things
}

/// What each command of a string shows.
pub fn of(capacity: usize, bytes: &[u8]) -> Vec<(u8, Vec<Thing>)> {
    let mut theirs = Theirs::new(capacity, 0, 0);
    let mut level_and_wants = (0, 0);
    let (mut at, mut all) = (0, Vec::new());
    while at < bytes.len() {
        let Some((command, next)) = read(bytes, at) else {
            let known = (bytes[at] as usize) < OPERANDS.len();
            all.push((bytes[at], vec![if known { Thing::Cut(bytes.len() - at - 1) } else { Thing::Unknown }]));
            break;
        };
        all.push((command.byte, shown(&mut theirs, &mut level_and_wants, &command)));
        at = next;
    }
    all
}

/// Levels, 4 standing for those above 3, and wants for which harfrust is the measure: at level 3 it has no bit 2 (N11).
pub fn measured() -> impl Iterator<Item = (u32, u32)> {
    (0..40).map(|n| (n / 8, n % 8)).filter(|&(level, wants)| level != 3 || wants < 4)
}

/// Every thing that the tables ask for of the lists for which harfrust is the measure.
pub fn asked() -> Seen {
    let mut asked = Seen::new();
    for byte in 0..39u8 {
        let valued = VALUES.iter().find(|v| v.0 == byte);
        asked.extend(valued.map_or(vec![Thing::Done], |v| v.1.iter().map(|&n| Thing::Value(n)).collect()).iter().map(|&t| (byte, t)));
        asked.extend(REFUSALS[byte as usize].iter().map(|&n| (byte, Thing::No(n))));
        asked.extend((0..4 * OPERANDS[byte as usize]).map(|n| (byte, Thing::Cut(n))));
        asked.extend(measured().map(|(level, wants)| (byte, Thing::At(level, wants))));
    }
    asked.extend((8..16).map(|n| (0x0E, Thing::Cut(n))));
    asked.extend(WITH_OUTPUT.iter().flat_map(|&b| [(b, Thing::In(1)), (b, Thing::In(3))]));
    asked.extend(GIVE_UP.iter().map(|&b| (b, Thing::GaveUp)));
    asked.extend(DRAIN.iter().map(|&b| (b, Thing::Drained)));
    asked.insert((0x20, Thing::Wrapped));
    asked
}

/// What is asked of the others: every command accepted with each of their wants.
pub fn asked_of_level_3() -> Seen {
    (0..39).flat_map(|byte| (4..8).map(move |wants| (byte, Thing::At(3, wants)))).collect()
}

/// Fails where a table asks for something that no list shows, or where a refusal came that the table does not know.
pub fn check(seen: &Seen, asked: &Seen) {
    let missing: Vec<_> = asked.difference(seen).copied().collect();
    assert!(missing.is_empty(), "not shown by any list: {missing:X?}");
    for (byte, thing) in seen {
        if let Thing::No(n) = thing {
            assert!(REFUSALS[*byte as usize].contains(n), "{byte:02X} no {n} is not in the table");
        }
    }
}

/// For each command: its answers, and how many of the other things were shown.
pub fn print(seen: &Seen) {
    for byte in 0..39u8 {
        let mut answers = Vec::new();
        let mut counts = BTreeMap::new();
        for (_, thing) in seen.iter().filter(|s| s.0 == byte) {
            match thing {
                Thing::Done => answers.push("ok".to_string()),
                Thing::Value(v) => answers.push(format!("ok {v}")),
                Thing::No(n) => answers.push(format!("no {n}")),
                Thing::Cut(_) => *counts.entry("cut off").or_insert(0) += 1,
                Thing::At(..) => *counts.entry("levels and wants").or_insert(0) += 1,
                Thing::In(_) | Thing::NoIn(..) => *counts.entry("places").or_insert(0) += 1,
                Thing::GaveUp => *counts.entry("gives up").or_insert(0) += 1,
                Thing::Drained => *counts.entry("drains").or_insert(0) += 1,
                Thing::Wrapped => *counts.entry("wraps").or_insert(0) += 1,
                _ => {}
            }
        }
        let counts: Vec<String> = counts.iter().map(|(k, n)| format!("{k} {n}")).collect();
        println!("{byte:02X} {}; {}", answers.join(", "), counts.join(", "));
    }
    println!("{} unknown bytes", seen.iter().filter(|s| s.1 == Thing::Unknown).count());
}
