//! The byte commands: `commands::runs::run`, and compare's `Theirs`, with a reader that allocates nothing for a command.
use crate::commands::{bytes_of, Command, OPERANDS};
use crate::measure::{Measure, Side};
use crate::rooms::Room;
use crate::theirs::Theirs;

extern "C" {
    fn bench_bytes(first: *mut u32, first_len: usize, second: *mut u32, second_len: usize, script: *const u8, script_len: usize, told: *mut u64, told_len: usize);
}

/// What a shaper does to a run of n glyphs: it is filled, goes through one lookup, gets positions, is turned and flagged.
fn list(n: u32) -> Vec<Command> {
    let mut l = vec![Command::new(0x00, &[0, 0])];
    l.extend((0..n).map(|i| Command::new(0x01, &[20 + i % 300, i])));
    l.push(Command::new(0x24, &[]));
    l.push(Command::new(0x1A, &[0x50, 0xF0, 0, u32::MAX]));
    lookup(n, &mut l);
    l.push(Command::new(0x05, &[]));
    l.extend((0..n / 2).map(|i| Command::new(0x06, &[i, 500, 0, 3, 4])));
    l.extend([0x1B, 0x23, 0x25].map(|byte| Command::new(byte, &[])));
    l
}

/// Single substitutions, some ligatures and flags.
fn lookup(n: u32, l: &mut Vec<Command>) {
    l.push(Command::new(0x03, &[]));
    let mut i = 0;
    while i + 4 < n {
        if i / 4 % 8 == 6 {
            l.push(Command::new(0x15, &[i, i + 2]));
        }
        let (command, taken) = match i / 4 % 8 {
            3 => (Command::new(0x0D, &[900]), 1),
            5 => (Command::new(0x0E, &[2, 1, 901]), 2),
            7 => (Command::new(0x08, &[4]), 4),
            _ => (Command::new(0x07, &[]), 1),
        };
        l.push(command);
        i += taken;
    }
    l.push(Command::new(0x04, &[]));
}

#[inline(never)]
fn run_theirs(capacity: usize, bytes: &[u8]) -> (Theirs, usize) {
    let mut theirs = Theirs::new(capacity, 0, 0);
    let mut command = Command { byte: 0, operands: Vec::with_capacity(64) };
    let (mut at, mut count) = (0, 0);
    let word = |at: usize| u32::from_le_bytes(bytes[at..at + 4].try_into().unwrap());
    while at < bytes.len() {
        command.byte = bytes[at];
        let Some(&operands) = OPERANDS.get(command.byte as usize) else { break };
        let operands = if command.byte == 0x0E { operands + word(at + 5) as usize } else { operands };
        if at + 1 + 4 * operands > bytes.len() {
            break;
        }
        command.operands.clear();
        for i in 0..operands {
            command.operands.push(word(at + 1 + 4 * i));
        }
        let _ = theirs.call(&command);
        at += 1 + 4 * operands;
        count += 1;
    }
    (theirs, count)
}

pub fn run(n: usize, measure: &mut Measure) {
    let name = "p bytes, a command";
    let commands = list(n as u32);
    let bytes = bytes_of(&commands);
    let capacity = n + 8;
    let mut room = Room::new(capacity);
    let mut left = None;
    for _ in 0..measure.runs(false) {
        left = Some(measure.run(Side::Theirs, name, || run_theirs(capacity, &bytes)));
        let Room { first, second, told } = &mut room;
        let (f, s, t) = (first.as_mut_ptr(), second.as_mut_ptr(), told.as_mut_ptr());
        let (f_len, s_len, t_len) = (first.len(), second.len(), told.len());
        measure.run(Side::Ours, name, || unsafe { bench_bytes(f, f_len, s, s_len, bytes.as_ptr(), bytes.len(), t, t_len) });
    }
    let (theirs, count) = left.unwrap();
    let read = if room.told[8] == count as u64 { Ok(()) } else { Err(format!("{} commands, harfrust's {count}", room.told[8])) };
    measure.tell(name, commands.len(), read.and(room.compare(&theirs.buffer)));
}
