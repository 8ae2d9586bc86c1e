//! Stored lists with what harfrust prints for them, and behind them those of level_3.txt, for a replay without harfrust.
//! Each is: capacity, number of command bytes, the bytes, number of text bytes, the text; numbers are four bytes, low byte first.
use crate::commands::{bytes_of, searches, Command, OPEN, OPERANDS};
use crate::coverage::{self, Seen};
use crate::level_3;
use crate::lists::{list, Random, Start};
use crate::printing;
use crate::seeded::{Seeded, CAPACITY};
use std::io::Write;

pub type List = (usize, Vec<u8>);

/// A list from a seed that prints so many bytes is left to other seeds.
pub const MUCH: usize = 2000;

pub fn c(byte: u8, operands: &[u32]) -> Command {
    Command::new(byte, operands)
}

pub fn pushes(clusters: &[u32]) -> Vec<Command> {
    (0..).zip(clusters).map(|(i, &k)| c(1, &[60 + i, k])).collect()
}

pub fn stored(capacity: usize, parts: &[&[Command]]) -> List {
    (capacity, bytes_of(&parts.concat()))
}

pub fn info(cluster: u32, var0: u32) -> Command {
    c(0x0C, &[77, 5, cluster, var0, 2])
}

/// Every command with output, which lies in the run as long as no more was written than read.
fn with_output() -> Vec<Command> {
    let mut l = vec![c(0x07, &[]), c(0x0A, &[]), c(0x0B, &[90]), info(2, 1), c(0x0D, &[91]), c(0x0E, &[2, 1, 92]), c(0x0F, &[])];
    l.extend([c(0x08, &[1]), c(0x09, &[]), c(0x10, &[1]), c(0x10, &[3]), c(0x24, &[]), c(0x25, &[]), c(0x26, &[])]);
    l.extend([c(0x12, &[0, 2]), c(0x14, &[1, 3]), c(0x18, &[0, OPEN]), c(0x19, &[1, OPEN]), c(0x18, &[OPEN, OPEN])]);
    l.extend([0x11, 0x13, 0x15, 0x16, 0x17].map(|b| c(b, &[9, 12])));
    l
}

/// Every command accepted, at a level and wants; with output in the run, and then apart.
pub fn tour(level: u32, wants: u32) -> List {
    let fresh = [c(0x00, &[level, wants])];
    let plain = [c(0x26, &[]), c(0x1A, &[7, 3, 1, 4]), c(0x1B, &[]), c(0x1C, &[1, 5]), c(0x1D, &[]), c(0x11, &[0, 3]), c(0x13, &[2, 5])];
    let marks = [c(0x15, &[0, 4]), c(0x16, &[1, 5]), c(0x17, &[0, 6]), c(0x23, &[]), c(0x07, &[]), c(0x08, &[1]), c(0x09, &[]), c(0x10, &[0])];
    let run = pushes(&[0, 1, 1, 2, 4, 3, 3, 5, 6, 6, 7, 8, 9, 9]);
    let skips = vec![c(0x09, &[]); 3];
    let keyed = [c(0x03, &[]), info(1, 3), info(0, 1), info(2, 0), c(0x08, &[4]), c(0x04, &[])];
    let sorted = [c(0x20, &[0, 5, 0, 3]), c(0x22, &[0, 2]), c(0x1E, &[0, 3]), c(0x05, &[]), c(0x06, &[1, 2, OPEN, 3, 4]), c(0x1E, &[1, 2])];
    let ended = [c(0x1B, &[]), c(0x21, &[0, 3, 1]), c(0x1F, &[]), c(0x02, &[4]), c(0x24, &[]), c(0x25, &[])];
    let open = [c(0x03, &[])];
    let sync = [c(0x04, &[])];
    let apart = [c(0x0B, &[80]), c(0x0B, &[81])];
    let refilled = pushes(&[10, 10, 11, 12]);
    let (inside, outside) = (with_output(), with_output());
    let passes = [&open[..], &skips, &inside, &sync, &refilled, &refilled, &open, &apart, &outside, &sync].concat();
    stored(2048, &[&fresh, &run, &plain, &marks, &passes, &keyed, &sorted, &ended])
}

/// A list that is put aside with output in the run, and apart.
fn put_aside() -> Vec<List> {
    let run = pushes(&[0, 1, 2]);
    let after = [c(0x00, &[2, 1]), c(0x01, &[9, 9])];
    let open = [c(0x03, &[])];
    vec![stored(2048, &[&run, &open, &[c(0x07, &[])], &after]), stored(2048, &[&run, &open, &[c(0x0B, &[8])], &after])]
}

/// Refusal 6: each command cut off after each number of operand bytes, and bytes that are no command.
fn unreadable() -> Vec<List> {
    let start = bytes_of(&pushes(&[3]));
    let mut lists = Vec::new();
    for byte in 0..39u8 {
        let mut words = vec![1; OPERANDS[byte as usize]];
        if byte == 0x0E {
            words.extend([7, 8]);
            words[1] = 2;
        }
        let whole = Command { byte, operands: words }.bytes();
        lists.extend((1..whole.len()).map(|n| (2048, [&start, &whole[..n]].concat())));
    }
    lists.extend([0x27u8, 0x28, 0x40, 0x7F, 0x80, 0xA1, 0xFE, 0xFF].map(|b| (2048, [&start[..], &[b], &start].concat())));
    lists
}

/// A size over `max_len`, which `enter` on an empty run makes 65,536.
fn giving_up() -> Vec<List> {
    let (grown, over) = ([c(0x24, &[]), c(0x02, &[65536])], c(0x02, &[65537]));
    let plain = |call: Command| stored(65537, &[&grown, &[call, c(0x02, &[2]), c(0x03, &[]), c(0x10, &[1]), c(0x04, &[])]]);
    let end = [c(0x26, &[]), c(0x10, &[0]), c(0x04, &[]), c(0x26, &[]), c(0x00, &[0, 0])];
    let full = |before: &[Command], call: Command| stored(65537, &[&grown, &[c(0x03, &[])], before, &[call], &end]);
    let written = [c(0x0B, &[9]), c(0x08, &[65535])];
    let mut lists = vec![plain(c(0x01, &[1, 1])), plain(over)];
    let calls = [c(0x07, &[]), c(0x08, &[1]), c(0x0A, &[]), c(0x0B, &[1]), info(1, 1), c(0x0D, &[1]), c(0x0E, &[1, 2, 7, 8]), c(0x10, &[65537])];
    lists.extend(calls.into_iter().map(|call| full(&written, call)));
    lists.push(full(&[c(0x0B, &[9])], c(0x10, &[0])));
    lists.push(stored(65537, &[&grown, &[c(0x03, &[]), info(3, 1), c(0x04, &[]), c(0x01, &[5, 6])]]));
    let lengths = [c(0x02, &[1_073_741_823]), c(0x02, &[1_073_741_824]), c(0x02, &[3]), c(0x03, &[]), c(0x10, &[0]), c(0x04, &[]), c(0x00, &[0, 8])];
    lists.push(stored(2048, &[&lengths]));
    lists.push(stored(0, &[&[c(0x01, &[1, 1]), c(0x03, &[]), c(0x0B, &[5]), c(0x04, &[])]]));
    lists
}

/// `ones` glyphs with key 1 before `zeros` with key 0: a `sort` costs zeros × (ones + 1).
fn unsorted(level: u32, ones: u32, zeros: u32) -> Vec<Command> {
    let mut l = vec![c(0x00, &[level, 0]), c(0x24, &[]), c(0x03, &[]), info(5, 1), c(0x04, &[]), c(0x03, &[])];
    l.extend((1..ones).map(|_| c(0x0A, &[])));
    l.extend([c(0x07, &[]), c(0x04, &[]), c(0x02, &[ones + zeros])]);
    l
}

fn sort(n: u32) -> Command {
    c(0x20, &[0, n, 0, 1])
}

/// Brought to exactly 0 by a sort, `max_ops` falls below it at the next cost.
fn drained() -> Vec<List> {
    let base = |level: u32| [unsorted(level, 15, 4096), vec![sort(4111), c(0x02, &[6]), c(0x1F, &[])]].concat();
    let plain = |level: u32, calls: &[Command]| stored(4200, &[&base(level), calls, &[c(0x1B, &[]), c(0x26, &[])]]);
    let open = [c(0x03, &[]), c(0x08, &[3])];
    let output = |calls: &[Command]| stored(4200, &[&base(0), &open, calls, &[c(0x10, &[1]), c(0x09, &[])]]);
    let merged = [c(0x11, &[1, 3])];
    let keyed = [c(0x03, &[]), info(9, 1), info(8, 1), c(0x04, &[])];
    let mut lists: Vec<List> = [c(0x11, &[0, 3]), c(0x13, &[2, 6]), c(0x1A, &[1, 1, 0, OPEN])].into_iter().map(|call| plain(0, &[call])).collect();
    lists.extend([c(0x0E, &[2, 1, 7]), c(0x10, &[5]), c(0x10, &[0]), c(0x12, &[0, 2]), c(0x14, &[1, 3])].map(|call| output(&[call])));
    lists.push(stored(4200, &[&base(0), &[c(0x1B, &[]), c(0x03, &[]), c(0x0F, &[]), c(0x04, &[])]]));
    for call in [c(0x20, &[0, 8, 0, 1]), c(0x22, &[0, 1]), c(0x21, &[0, 1, 1])] {
        lists.push(plain(0, &[&keyed[..], &[call]].concat()));
    }
    lists.push(plain(1, &[&keyed[..], &[c(0x1E, &[0, 1])]].concat()));
    lists.push(output(&[&merged[..], &[c(0x11, &[3, 6]), c(0x04, &[]), c(0x01, &[1, 1]), c(0x00, &[1, 0])]].concat()));
    lists
}

/// `max_ops` through the lowest number and back above 0: 33 sorts of 66,124,800 each.
fn wrapped() -> List {
    let mut l = unsorted(0, 1024, 64512);
    for _ in 0..33 {
        l.extend([sort(65536), c(0x1B, &[])]);
    }
    l.extend([c(0x02, &[3]), c(0x11, &[0, 3]), c(0x03, &[]), c(0x10, &[2]), c(0x08, &[2])]);
    stored(65537, &[&l])
}

/// Ranges around the 255 that a flag form takes, and merges over more than that.
pub fn wide(level: u32, wants: u32) -> List {
    let start = [c(0x00, &[level, wants]), c(0x02, &[300]), c(0x1F, &[]), c(0x11, &[250, 252])];
    let flags = [c(0x15, &[0, 255]), c(0x15, &[0, 256]), c(0x16, &[20, 275]), c(0x16, &[20, 276]), c(0x17, &[299, 10]), c(0x17, &[40, OPEN])];
    let output = [c(0x03, &[]), c(0x08, &[280]), c(0x18, &[30, 285]), c(0x18, &[30, 286]), c(0x19, &[OPEN, 290]), c(0x19, &[270, OPEN]), c(0x12, &[4, 266])];
    let end = [c(0x04, &[]), c(0x13, &[10, 266]), c(0x23, &[]), c(0x1C, &[0, 299]), c(0x02, &[40])];
    stored(2048, &[&start, &flags, &output, &end])
}

/// Every id of a ligature; the serial goes around twice.
fn ids() -> List {
    stored(4, &[&vec![c(0x26, &[]); 600]])
}

fn made() -> Vec<List> {
    let mut lists: Vec<List> = coverage::measured().map(|(level, wants)| tour(level, wants)).collect();
    lists.extend(put_aside());
    lists.extend((0..4).map(|level| wide(level, 3)));
    lists.extend((0..3).map(|level| wide(level, 7)));
    lists.extend(level_3::readings(0).into_iter().map(|(_, l)| l));
    lists.extend(coverage::measured().map(|(level, wants)| level_3::kept(level, wants, 8)));
    lists.extend(giving_up());
    lists.extend(drained());
    lists.push(wrapped());
    lists.push(ids());
    lists.extend(unreadable());
    lists
}

/// A list from a seed, up to its last command that shows something new.
fn grown(seed: u64, seen: &Seen) -> Option<List> {
    let mut r = Random::new(seed);
    let capacity = [2048, 2048, 8, 5, 3][r.below(5)];
    let length = 4 + r.below(40);
    let commands = list(&mut r, capacity, Start::Anywhere, length);
    if searches(&bytes_of(&commands)) {
        return None;
    }
    let shown = coverage::of(capacity, &bytes_of(&commands));
    let last = shown.iter().rposition(|(b, things)| things.iter().any(|&t| !seen.contains(&(*b, t))))?;
    Some((capacity, bytes_of(&commands[..=last]))).filter(|l| printed(l).len() < MUCH)
}

fn note(l: &List, seen: &mut Seen) -> usize {
    let shown = coverage::of(l.0, &l.1);
    seen.extend(shown.iter().flat_map(|(b, things)| things.iter().map(|&t| (*b, t))));
    shown.len()
}

/// The bytes of a stored list.
fn record(l: &List, text: &str) -> Vec<u8> {
    let number = |n: usize| (n as u32).to_le_bytes();
    [&number(l.0), &number(l.1.len())[..], &l.1, &number(text.len()), text.as_bytes()].concat()
}

/// What harfrust prints for a list.
pub fn printed(l: &List) -> String {
    printing::run(l.0, &l.1)
}

fn theirs(l: &List) -> Vec<u8> {
    record(l, &printed(l))
}

/// The lists above, then lists from seeds, each kept that shows something new, until nothing new has come for long.
fn measured() -> Vec<List> {
    let mut seen = Seen::new();
    let mut lists = made();
    let by_hand = lists.len();
    let mut commands: usize = lists.iter().map(|l| note(l, &mut seen)).sum();
    let (mut seed, mut idle) = (0, 0);
    while idle < 20_000 {
        (seed, idle) = (seed + 1, idle + 1);
        if let Some(l) = grown(seed, &seen) {
            commands += note(&l, &mut seen);
            lists.push(l);
            idle = 0;
        }
    }
    assert!(!lists.iter().any(|l| searches(&l.1)), "level 3 searches in a list for harfrust");
    coverage::check(&seen, &coverage::asked());
    coverage::print(&seen);
    println!("{} lists ({by_hand} by hand, the others from seeds up to {}), {commands} commands, {} things shown", lists.len(), seed - idle, seen.len());
    lists
}

/// The lists of level_3.txt, with what it says that they print.
fn of_level_3() -> Vec<(List, String)> {
    let mut seen = Seen::new();
    let lists = level_3::checked();
    let commands: usize = lists.iter().map(|(l, _)| note(l, &mut seen)).sum();
    assert!(lists.iter().all(|(l, _)| searches(&l.1)), "level 3 does not search in a list of level_3.txt");
    coverage::check(&seen, &coverage::asked_of_level_3());
    println!("{} lists of level_3.txt, {commands} commands, {} things shown", lists.len(), seen.len());
    lists
}

/// vectors FILE: both.
pub fn write(arguments: &[String]) {
    let mut bytes: Vec<u8> = measured().iter().flat_map(theirs).collect();
    bytes.extend(of_level_3().iter().flat_map(|(l, text)| record(l, text)));
    std::fs::write(&arguments[0], &bytes).expect("a file");
    println!("{} bytes", bytes.len());
}

/// random FILE SEED COMMANDS [searching]: lists as those of `compare` or of `searching`, for the replay; most at smaller capacities.
pub fn write_random(arguments: &[String]) {
    let start = match arguments.get(3).map(String::as_str) {
        None => Start::Anywhere,
        Some("searching") => Start::Searching,
        Some(word) => panic!("{word}, where only `searching` can stand"),
    };
    let mut file = std::io::BufWriter::new(std::fs::File::create(&arguments[0]).expect("a file"));
    let mut lists = Seeded::new(start, &[CAPACITY, 16, 8, 5, 3], &arguments[1], &arguments[2]);
    for made in lists.by_ref() {
        file.write_all(&theirs(&(made.capacity, made.bytes(&made.commands)))).unwrap();
    }
    println!("{}", lists.counts());
}
