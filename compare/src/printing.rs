//! What document 01 prints of harfrust's `Buffer`.
use crate::buffer::GlyphInfo;
use crate::commands::read;
use crate::theirs::{Answer, Theirs};
use std::fmt::Write;

impl Theirs {
    /// "`end` len, idx, out_len, max_ops, successful; then done `o`, passed `p`, input `i`; positions `x`"
    pub fn report(&self, out: &mut String) {
        let b = &self.buffer;
        let _ = writeln!(out, "end {} {} {} {} {}", b.len, b.idx, b.out_len, b.max_ops, u32::from(b.successful));
        if self.spoiled {
            return;
        }
        let mut line = |kind: char, g: &GlyphInfo| {
            let _ = writeln!(out, "{kind} {} {} {} {} {}", g.glyph_id, g.cluster, g.mask, g.vars[0], g.vars[1]);
        };
        if b.have_output {
            b.out_info()[..b.out_len].iter().for_each(|g| line('o', g));
        } else {
            b.info[..b.idx].iter().for_each(|g| line('p', g));
        }
        b.info[b.idx..b.len].iter().for_each(|g| line('i', g));
        if b.have_positions {
            for p in &b.pos[..b.len] {
                let _ = writeln!(out, "x {} {} {} {} {}", p.x_advance, p.y_advance, p.x_offset, p.y_offset, p.var);
            }
        }
    }
}

/// What a string of bytes prints, from a fresh buffer.
pub fn run(capacity: usize, bytes: &[u8]) -> String {
    let mut theirs = Theirs::new(capacity, 0, 0);
    let mut out = String::new();
    let mut at = 0;
    while at < bytes.len() {
        let Some((command, next)) = read(bytes, at) else {
            let _ = writeln!(out, "{:02X} no 6", bytes[at]);
            break;
        };
        let _ = match theirs.call(&command) {
            Ok(Answer::Done) => writeln!(out, "{:02X} ok", command.byte),
            Ok(Answer::Value(v)) => writeln!(out, "{:02X} ok {v}", command.byte),
            Err(n) => writeln!(out, "{:02X} no {n}", command.byte),
        };
        at = next;
    }
    theirs.report(&mut out);
    out
}
