//! The comparison of lists with the exam program, and the shrinking of the first that differs.
use crate::commands::Command;
use crate::known;
use crate::lists::Start;
use crate::printing;
use crate::seeded::{Seeded, CAPACITY};
use std::io::Read;

/// Leaves out commands as long as the two sides still differ.
fn shrink(mut commands: Vec<Command>, differ: &dyn Fn(&[Command]) -> bool) -> Vec<Command> {
    let mut width = commands.len() / 2;
    while width > 0 {
        let mut at = 0;
        while at + width <= commands.len() {
            let mut fewer = commands.clone();
            fewer.drain(at..at + width);
            if differ(&fewer) {
                commands = fewer;
            } else {
                at += width;
            }
        }
        width /= 2;
    }
    commands
}

/// PROGRAM SEED COMMANDS: runs lists until that many commands agreed, in all that harfrust has of the lines.
pub fn compare(start: Start, arguments: &[String]) {
    let [program, seed, goal, more @ ..] = arguments else { panic!("PROGRAM SEED COMMANDS [ARGUMENTS OF PROGRAM]") };
    let both = |bytes: &[u8]| (printing::run(CAPACITY, bytes), known::theirs(&crate::ours::run(program, more, bytes)));
    let mut lists = Seeded::new(start, &[CAPACITY], seed, goal);
    for made in lists.by_ref() {
        let differ = |l: &[Command]| {
            let (theirs, ours) = both(&made.bytes(l));
            theirs != ours
        };
        if differ(&made.commands) {
            let small = shrink(made.commands.clone(), &differ);
            println!("differ, list {} of seed {seed}:", made.number);
            small.iter().for_each(|c| println!("{}", c.text()));
            let (theirs, ours) = both(&made.bytes(&small));
            println!("-- bytes {:02X?}\n-- harfrust\n{theirs}-- ours\n{ours}", made.bytes(&small));
            std::process::exit(1);
        }
    }
    println!("no difference in {}", lists.counts());
}

/// run [CAPACITY]: what harfrust prints for the bytes on standard input.
pub fn run_one(arguments: &[String]) {
    let capacity = arguments.first().map_or(CAPACITY, |a| a.parse().unwrap());
    let mut bytes = Vec::new();
    std::io::stdin().read_to_end(&mut bytes).unwrap();
    print!("{}", printing::run(capacity, &bytes));
}
