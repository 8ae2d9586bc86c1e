//! The lists that a seed gives, one after the other.
use crate::commands::{bytes_of, Command};
use crate::lists::{list, Random, Start};

/// The exam program's capacity.
pub const CAPACITY: usize = 2048;

pub struct Made {
    pub number: u64,
    pub capacity: usize,
    pub commands: Vec<Command>,
}

impl Made {
    /// The bytes of its commands, or of fewer: now and then cut off, or with a byte behind them that is no command.
    pub fn bytes(&self, commands: &[Command]) -> Vec<u8> {
        let mut bytes = bytes_of(commands);
        match self.number % 8 {
            0 => bytes.truncate(bytes.len().saturating_sub(1 + (self.number / 8 % 8) as usize)),
            1 => bytes.push(0x27 + (self.number / 8 % 217) as u8),
            _ => {}
        }
        bytes
    }
}

/// Lists at these capacities in turn, until they have `goal` commands; those that `start` does not take are left out.
pub struct Seeded {
    start: Start,
    capacities: &'static [usize],
    seed: u64,
    goal: usize,
    commands: usize,
    taken: u64,
    made: u64,
}

impl Seeded {
    /// SEED COMMANDS, as they were given to the program.
    pub fn new(start: Start, capacities: &'static [usize], seed: &str, goal: &str) -> Self {
        let (seed, goal) = (seed.parse().unwrap(), goal.parse().unwrap());
        Seeded { start, capacities, seed, goal, commands: 0, taken: 0, made: 0 }
    }

    fn make(&mut self) -> Made {
        let (number, capacity) = (self.made, self.capacities[self.made as usize % self.capacities.len()]);
        let mut r = Random::new(self.seed.wrapping_add(number));
        let length = 1 + r.below(self.start.longest());
        self.made += 1;
        Made { number, capacity, commands: list(&mut r, capacity, self.start, length) }
    }

    pub fn counts(&self) -> String {
        format!("{} lists, {} commands; {} lists left out", self.taken, self.commands, self.made - self.taken)
    }
}

impl Iterator for Seeded {
    type Item = Made;

    fn next(&mut self) -> Option<Made> {
        while self.commands < self.goal {
            let made = self.make();
            if self.start.takes(&made.bytes(&made.commands)) {
                self.taken += 1;
                self.commands += made.commands.len();
                return Some(made);
            }
        }
        None
    }
}
