//! What is lent to our side, how harfrust's side is filled, and whether both hold the same at the end.
use crate::buffer::{self, Buffer, GlyphInfo, GlyphPosition};
use crate::BufferFlags;

/// Words of a glyph, and of a position: harfrust's five, and one that it lacks.
const WORDS: usize = 6;
const THEIRS: usize = 5;

/// The two slices, and the numbers that a load tells: idx, len, out_len, phase, max_ops, successful, swapped, separate output; commands.
pub struct Room {
    pub first: Vec<u32>,
    pub second: Vec<u32>,
    pub told: [u64; 9],
}

impl Room {
    pub fn new(capacity: usize) -> Self {
        Room { first: vec![0; WORDS * capacity], second: vec![0; WORDS * capacity], told: [0; 9] }
    }

    pub fn fill(&mut self, data: &[GlyphInfo]) {
        for (words, g) in self.first.chunks_exact_mut(WORDS).zip(data) {
            words[..THEIRS].copy_from_slice(&glyph(g));
        }
    }

    /// The counters, the glyphs and the positions of both sides.
    pub fn compare(&self, b: &Buffer) -> Result<(), String> {
        let phase = if b.have_output { 1 } else if b.have_positions { 2 } else { 0 };
        let state = [b.idx as u64, b.len as u64, b.out_len as u64, phase, u64::from(b.max_ops as u32), u64::from(b.successful)];
        if self.told[..6] != state {
            return Err(format!("state {:?}, harfrust's {state:?}", &self.told[..6]));
        }
        let (run, other) = if self.told[6] == 1 { (&self.second, &self.first) } else { (&self.first, &self.second) };
        for (i, g) in b.info[..b.len].iter().enumerate() {
            alike("glyph", i, &run[WORDS * i..][..THEIRS], glyph(g))?;
        }
        if b.have_positions {
            for (i, p) in b.pos[..b.len].iter().enumerate() {
                alike("position", i, &other[WORDS * i..][..THEIRS], position(p))?;
            }
        }
        Ok(())
    }
}

fn alike(what: &str, i: usize, ours: &[u32], theirs: [u32; THEIRS]) -> Result<(), String> {
    if ours == theirs { Ok(()) } else { Err(format!("{what} {i}: {ours:?}, harfrust's {theirs:?}")) }
}

fn glyph(g: &GlyphInfo) -> [u32; THEIRS] {
    [g.glyph_id, g.mask, g.cluster, g.vars[0], g.vars[1]]
}

fn position(p: &GlyphPosition) -> [u32; THEIRS] {
    [p.x_advance as u32, p.y_advance as u32, p.x_offset as u32, p.y_offset as u32, p.var]
}

/// harfrust's side: the same glyphs, and room that is made before anything is measured.
pub fn fill_theirs(b: &mut Buffer, data: &[GlyphInfo], capacity: usize, level: u32, wants: u32) {
    b.clear();
    b.max_ops = 536870911;
    b.max_len = 1073741823;
    b.cluster_level = level;
    b.flags = BufferFlags::from_bits_truncate(0);
    if wants & 1 != 0 {
        b.flags = b.flags | BufferFlags::PRODUCE_UNSAFE_TO_CONCAT;
    }
    if wants & 2 != 0 {
        b.flags = b.flags | BufferFlags::PRODUCE_SAFE_TO_INSERT_TATWEEL;
    }
    b.info.reserve(capacity);
    b.pos.reserve(capacity);
    b.info.extend_from_slice(data);
    b.pos.resize(data.len(), GlyphPosition::default());
    b.len = data.len();
    b.scratch_flags |= buffer::HB_BUFFER_SCRATCH_FLAG_HAS_CONTINUATIONS;
}
