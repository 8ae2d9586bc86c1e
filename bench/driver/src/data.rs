//! Runs of glyphs, the same each time.
use crate::buffer::GlyphInfo;

#[derive(Clone, Copy)]
pub enum Data {
    /// One cluster a glyph.
    Latin,
    /// Bases with up to two marks behind them, which share the cluster of their base.
    Marks,
    /// The same before clusters are formed: one cluster a glyph.
    Chars,
    /// A base and three marks, again and again, one cluster a glyph; var1 of marks in no order.
    Unsorted,
    /// Keys in var1 that fall.
    Falling,
    /// Clusters that fall, of half the run all alike.
    Fallen,
    /// Nothing.
    Empty,
}

fn next(s: &mut u32) -> u32 {
    *s ^= *s << 13;
    *s ^= *s >> 17;
    *s ^= *s << 5;
    *s
}

impl Data {
    pub fn make(self, n: usize) -> Vec<GlyphInfo> {
        let mut s = 2463534242u32;
        let mut out: Vec<GlyphInfo> = Vec::new();
        if matches!(self, Data::Empty) {
            return out;
        }
        let mut left = 0;
        let mut cluster = 0;
        for i in 0..n {
            let r = next(&mut s);
            let mut g = GlyphInfo { glyph_id: 20 + r % 300, mask: r & 0xFF00, cluster: i as u32, vars: [r >> 20 & 3, n as u32 - i as u32] };
            if r >> 8 & 15 == 0 {
                g.mask |= 3;
            }
            // a glyph in eight is one that goes
            if r >> 12 & 7 == 0 {
                g.vars[0] |= 0x100;
            }
            match self {
                Data::Marks | Data::Chars => {
                    if left > 0 {
                        left -= 1;
                        g.vars[0] |= 0x80;
                    } else {
                        left = [0, 0, 1, 1, 2, 0, 1, 0][(r >> 16 & 7) as usize];
                        cluster = i as u32;
                    }
                    if matches!(self, Data::Marks) {
                        g.cluster = cluster;
                    }
                }
                Data::Unsorted => {
                    if i % 4 != 0 {
                        g.vars[0] |= 0x80;
                        g.vars[1] = [220, 230, 202, 230, 27, 33, 230, 220][(r >> 16 & 7) as usize];
                    }
                }
                Data::Fallen => g.cluster = if i < n / 2 { n as u32 } else { (n - i) as u32 },
                _ => {}
            }
            out.push(g);
        }
        out
    }
}
