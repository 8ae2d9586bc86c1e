//! The lists of the program try_edits: what harfrust's buffer answers and leaves, in that program's lines.
use crate::commands::{Command, OPEN, OPERANDS};
use crate::theirs::{Answer, Theirs};

/// Seven glyphs, as the program has.
const CAPACITY: usize = 7;

fn operand(c: u8) -> u32 {
    match c {
        b'-' => OPEN,
        b'0'..=b'9' => u32::from(c - b'0'),
        _ => 0,
    }
}

/// A call takes eight bytes: its number, five operands of one digit, a space.
fn command(call: &[u8]) -> Command {
    let name = std::str::from_utf8(&call[..2]).unwrap();
    let byte = u8::from_str_radix(name, 16).unwrap();
    let words: Vec<u32> = call[2..7].iter().map(|&c| operand(c)).take(OPERANDS[byte as usize]).collect();
    Command::new(byte, &words)
}

/// The state, with the allocated size and whether the output lies apart behind the counters.
fn show(theirs: &Theirs) {
    let mut report = String::new();
    theirs.report(&mut report);
    let (counters, lists) = report.split_once('\n').unwrap();
    let b = &theirs.buffer;
    println!("{counters} | {} {}", b.info.len(), u32::from(b.have_separate_output && b.have_output));
    print!("{lists}");
}

fn play_one(level: u32, wants: u32, script: &[u8]) {
    let mut theirs = Theirs::new(CAPACITY, level, wants);
    for call in script.chunks(8) {
        if call[0] == b'.' {
            show(&theirs);
            continue;
        }
        let command = command(call);
        match theirs.call(&command) {
            Ok(Answer::Done) => println!("{:02X} ok", command.byte),
            Ok(Answer::Value(v)) => println!("{:02X} ok {v}", command.byte),
            Err(n) => println!("{:02X} no {n}", command.byte),
        }
    }
}

/// play: lines of a level, wants and a script, from standard input.
pub fn play() {
    let input = std::io::read_to_string(std::io::stdin()).unwrap();
    for line in input.lines() {
        let (level, rest) = line.split_once(' ').unwrap();
        let (wants, script) = rest.split_once(' ').unwrap();
        play_one(level.parse().unwrap(), wants.parse().unwrap(), script.as_bytes());
    }
}
