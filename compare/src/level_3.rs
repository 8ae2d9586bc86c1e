//! Lists in which level 3 searches the whole range, by bit 2 of wants (N11). harfrust has no such bit, and is not their measure:
//! what they print is in level_3.txt. `Theirs`, which makes the calls concerned at level 2, is a second witness.
use crate::commands::{bytes_of, each, Command, OPEN};
use crate::lists::{list, Random, Start};
use crate::vectors::{c, info, printed, pushes, stored, tour, wide, List, MUCH};

/// For each list a line `list CAPACITY BYTES`, the bytes in hexadecimal, and then the lines that it prints, as another program
/// has them, which was written from document 02's readings apart from this product and from harfrust.
const PRINTED: &str = include_str!("../level_3.txt");

/// The least cluster is neither first nor last; it comes twice, with another between.
const RUNS: [&[u32]; 2] = [&[5, 1, 7], &[1, 5, 1, 5]];

/// The calls in whose readings the bit shows. 0F and 21 follow it too, but merge two glyphs, which levels 2 and 3 mark alike.
const SHOWING: [u8; 6] = [0x0E, 0x11, 0x15, 0x17, 0x18, 0x20];

/// The calls over a range of the input.
fn ranged(start: u32, end: u32) -> [Command; 5] {
    [0x11, 0x13, 0x15, 0x16, 0x17].map(|byte| c(byte, &[start, end]))
}

/// Calls without output, before positions and with them.
fn plain(clusters: &[u32]) -> Vec<Vec<Command>> {
    let n = clusters.len() as u32;
    let (run, positions) = (pushes(clusters), c(0x05, &[]));
    let glyphs: Vec<Command> = (1..).zip(clusters).map(|(i, &cluster)| info(cluster, u32::from(i < n))).collect();
    let keyed = [&[c(0x03, &[])], &glyphs[..], &[c(0x04, &[])]].concat();
    let on_keys = [c(0x21, &[0, 1, 1]), c(0x22, &[1, 2])];
    let mut lists = vec![[&keyed[..], &[c(0x20, &[0, n, 0, 1])]].concat()];
    for (run, calls) in [(run, &ranged(0, n)[..]), (keyed, &on_keys)] {
        for call in calls {
            lists.push([&run[..], &[call.clone()]].concat());
            lists.push([&run[..], &[positions.clone(), call.clone()]].concat());
        }
    }
    lists
}

/// Calls with output, in the run and apart; 18 and 19 where none, some or all of the run was written, 14 where all was.
fn with_output(clusters: &[u32]) -> Vec<Vec<Command>> {
    let n = clusters.len() as u32;
    let run = [pushes(&[9]), pushes(clusters), vec![c(0x03, &[])]].concat();
    let inside = [&run[..], &[c(0x09, &[])]].concat();
    let apart = [&run[..], &[c(0x0B, &[80]), c(0x10, &[0]), c(0x09, &[]), c(0x09, &[])]].concat();
    let mut lists = Vec::new();
    for (run, at) in [(inside, 1), (apart, 2)] {
        let mut calls = ranged(at, at + n).map(|call| vec![call]).to_vec();
        calls.extend([c(0x0E, &[n, 1, 92]), c(0x0F, &[])].map(|call| vec![call]));
        for written in [0, 2, n] {
            calls.extend([0x18, 0x19].map(|byte| vec![c(0x08, &[written]), c(byte, &[0, at + n])]));
        }
        calls.push(vec![c(0x08, &[n]), c(0x14, &[0, n])]);
        lists.extend(calls.iter().map(|call| [&run[..], call].concat()));
    }
    lists
}

/// The wants of a reading, without bit 2: 16 and 19 do nothing without the first bit, 17 marks by the second.
fn wanted(byte: u8) -> &'static [u32] {
    match byte {
        0x16 | 0x19 => &[1],
        0x17 => &[0, 2],
        _ => &[0],
    }
}

/// Calls that follow the bit and calls that do not, each the last of a list at level 3; `bit` is 4, or 0.
pub fn readings(bit: u32) -> Vec<(u8, List)> {
    let mut lists = Vec::new();
    for commands in RUNS.iter().flat_map(|k| [plain(k), with_output(k)].concat()) {
        let byte = commands.last().map_or(0, |call| call.byte);
        lists.extend(wanted(byte).iter().map(|wants| (byte, stored(2048, &[&[c(0x00, &[3, wants + bit])], &commands]))));
    }
    lists
}

fn marked(level: u32, wants: u32) -> Vec<Command> {
    [vec![c(0x00, &[level, wants])], pushes(RUNS[0]), vec![c(0x15, &[0, 3])]].concat()
}

/// A 00 that is refused leaves in force what was.
pub fn kept(level: u32, wants: u32, refused: u32) -> List {
    stored(2048, &[&marked(level, wants), &[c(0x00, &[3, refused]), c(0x17, &[0, 3]), c(0x03, &[]), c(0x18, &[0, 3])]])
}

/// From level 3 with the bit to others and back, up to each.
fn changes() -> Vec<List> {
    let stages = [(3, 4), (3, 0), (2, 4), (3, 4), (4, 4), (3, 7)].map(|(level, wants)| marked(level, wants));
    (2..=stages.len()).map(|n| stored(2048, &[&stages[..n].concat()])).collect()
}

/// Whether a list prints something else when bit 2 is taken out of its wants.
fn shows(l: &List) -> bool {
    let (capacity, bytes) = l;
    let mut cleared = bytes.clone();
    for (at, command) in each(bytes) {
        if command.byte == 0 && command.operands[1] < 8 {
            cleared[at + 5] &= 3;
        }
    }
    printed(l) != printed(&(*capacity, cleared))
}

/// A list from a seed, if the bit shows in it and it does not print much.
fn random(seed: u64) -> Option<List> {
    let mut r = Random::new(seed);
    let capacity = [2048, 8, 5, 3][r.below(4)];
    let length = 4 + r.below(36);
    let mut commands = list(&mut r, capacity, Start::Searching, length);
    commands.truncate(40);
    Some((capacity, bytes_of(&commands))).filter(|l| shows(l) && printed(l).len() < MUCH)
}

fn made() -> Vec<List> {
    let mut lists: Vec<List> = (4..8).map(|wants| tour(3, wants)).collect();
    lists.push(wide(3, 7));
    lists.extend(readings(4).into_iter().map(|(_, l)| l));
    lists.extend([(4, 8), (5, 9), (6, OPEN), (7, 8)].map(|(wants, refused)| kept(3, wants, refused)));
    lists.extend(changes());
    lists.extend((1..).filter_map(random).take(60));
    lists
}

fn line((capacity, bytes): &List) -> String {
    let bytes: Vec<String> = bytes.iter().map(|b| format!("{b:02X}")).collect();
    format!("list {capacity} {}\n", bytes.concat())
}

/// level_3: the first line of each list of level_3.txt.
pub fn print() {
    made().iter().for_each(|l| print!("{}", line(l)));
}

/// The lists with what level_3.txt says that they print; fails where `Theirs` prints something else, or where the bit shows in the wrong calls.
pub fn checked() -> Vec<(List, String)> {
    let mut rest = PRINTED;
    let mut lists = Vec::new();
    for l in made() {
        let text = printed(&l);
        rest = rest.strip_prefix(&line(&l)).and_then(|r| r.strip_prefix(&text)).unwrap_or_else(|| panic!("level_3.txt differs: {}{text}", line(&l)));
        lists.push((l, text));
    }
    assert!(rest.is_empty(), "level_3.txt has more lists");
    let showing: std::collections::BTreeSet<u8> = readings(4).into_iter().filter(|(_, l)| shows(l)).map(|(byte, _)| byte).collect();
    assert_eq!(showing, SHOWING.into(), "calls in which the bit shows");
    lists
}
