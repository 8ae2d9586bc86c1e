//! harfrust's own `Buffer` beside ours: lists of commands, made from a seed, run on both; the first difference is shrunk and shown.
#![allow(dead_code, unused_imports, unused_macros)]
extern crate alloc;
extern crate self as bitflags;
extern crate self as bytemuck;
extern crate self as read_fonts;

mod stand_ins;
pub use stand_in_derive::{Pod, Zeroable};
pub use stand_ins::casts::*;
pub use stand_ins::{hint, set_digest, types, unicode, Direction, Language, Script, ShaperFont, U32Set};

pub type Mask = u32;
include!(concat!(env!("OUT_DIR"), "/lib_items.rs"));

#[macro_use]
mod buffer {
    include!(concat!(env!("OUT_DIR"), "/buffer.rs"));
}

mod ot {
    pub mod layout {
        use crate::buffer::*;
        use std::cell::Cell;

        thread_local! {
            /// Which glyphs continue a grapheme: document 01's slot and mask.
            pub static KEY: Cell<(usize, u32)> = const { Cell::new((0, 0)) };
        }
        // what src/buffer.rs asks of ot/layout.rs; only `is_continuation` is called
        impl GlyphInfo {
            pub(crate) fn unicode_props(&self) -> u16 {
                0
            }
            pub(crate) fn set_unicode_props(&mut self, _: u16) {}
            pub(crate) fn syllable(&self) -> u8 {
                0
            }
            fn is_continuation(&self) -> bool {
                let (slot, mask) = KEY.get();
                self.vars[slot] & mask != 0
            }
        }
        include!(concat!(env!("OUT_DIR"), "/layout_items.rs"));
    }
}

mod shape {
    use crate::buffer::*;
    use crate::BufferFlags;
    include!(concat!(env!("OUT_DIR"), "/shape_items.rs"));
}

mod commands;
mod comparing;
mod coverage;
mod known;
mod level_3;
mod lists;
mod ours;
mod play;
mod printing;
mod refusals;
mod seeded;
mod theirs;
mod vectors;

fn main() {
    let mut arguments = std::env::args().skip(1);
    let word = arguments.next().unwrap_or_default();
    let rest: Vec<String> = arguments.collect();
    match word.as_str() {
        "compare" => comparing::compare(lists::Start::Anywhere, &rest),
        "searching" => comparing::compare(lists::Start::Searching, &rest),
        "vectors" => vectors::write(&rest),
        "random" => vectors::write_random(&rest),
        "level_3" => level_3::print(),
        "play" => play::play(),
        "run" => comparing::run_one(&rest),
        _ => {
            eprintln!("usage: compare PROGRAM SEED COMMANDS | searching PROGRAM SEED COMMANDS | vectors FILE");
            eprintln!("       | random FILE SEED COMMANDS [searching] | level_3 | play | run [CAPACITY] < bytes");
            std::process::exit(2);
        }
    }
}
