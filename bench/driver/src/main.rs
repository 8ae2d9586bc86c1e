//! The loads of crates/bench, and the same on harfrust's own `Buffer`, on the same data. ../README.md says more.
#![allow(dead_code, unused_imports, unused_macros)]
extern crate alloc;
extern crate self as bitflags;
extern crate self as bytemuck;
extern crate self as read_fonts;

#[path = "../../../compare/src/stand_ins.rs"]
mod stand_ins;
pub use stand_in_derive::{Pod, Zeroable};
pub use stand_ins::casts::*;
pub use stand_ins::{hint, set_digest, types, unicode, Direction, Language, Script, ShaperFont, U32Set};

pub type Mask = u32;
include!(concat!(env!("OUT_DIR"), "/lib_items.rs"));

#[macro_use]
mod buffer {
    include!(concat!(env!("OUT_DIR"), "/buffer.rs"));
}

mod ot {
    pub mod layout {
        use crate::buffer::*;
        use std::cell::Cell;

        thread_local! {
            /// What compare's `Theirs` sets; no load does.
            pub static KEY: Cell<(usize, u32)> = const { Cell::new((0, 0)) };
        }
        // what src/buffer.rs asks of ot/layout.rs; only `is_continuation` is called
        impl GlyphInfo {
            pub(crate) fn unicode_props(&self) -> u16 {
                0
            }
            pub(crate) fn set_unicode_props(&mut self, _: u16) {}
            pub(crate) fn syllable(&self) -> u8 {
                0
            }
            // a test of a constant bit, as harfrust's own is
            #[inline]
            fn is_continuation(&self) -> bool {
                self.vars[0] & 0x80 != 0
            }
        }
        include!(concat!(env!("OUT_DIR"), "/layout_items.rs"));
    }
}

mod shape {
    use crate::buffer::*;
    use crate::BufferFlags;
    include!(concat!(env!("OUT_DIR"), "/shape_items.rs"));
}

mod bytes;
#[path = "../../../compare/src/commands.rs"]
mod commands;
mod data;
mod loads;
mod measure;
#[path = "../../../compare/src/refusals.rs"]
mod refusals;
mod rooms;
mod sides;
#[path = "../../../compare/src/theirs.rs"]
mod theirs;

use measure::Measure;

fn main() {
    let words: Vec<String> = std::env::args().skip(1).collect();
    let number = |i: usize| words.get(i).and_then(|w| w.parse().ok()).unwrap_or_else(usage);
    let mut measure = match words.first().map(String::as_str) {
        Some("count") => Measure::counting(),
        Some("time") => Measure::timing(number(2)),
        _ => usage(),
    };
    loads::run(number(1), &mut measure);
    bytes::run(number(1), &mut measure);
    if measure.differences > 0 {
        eprintln!("{} of the loads leave different results", measure.differences);
        std::process::exit(1);
    }
}

fn usage<T>() -> T {
    eprintln!("usage: count GLYPHS, under callgrind | time GLYPHS RUNS");
    std::process::exit(2);
}
