//! Each load on harfrust's `Buffer`, and the exported function of crates/bench that does the same on ours.
use crate::buffer::Buffer;
use crate::ot::layout::reverse_graphemes;
use crate::shape::{form_clusters, propagate_flags};

/// A slice is two arguments, where it begins and its length: the first slice, the second, n, level, what is told.
pub type Ours = unsafe extern "C" fn(*mut u32, usize, *mut u32, usize, usize, u32, *mut u64, usize);
pub type Theirs = fn(&mut Buffer, usize);

macro_rules! sides {
    ($($name:ident($b:ident, $n:ident) $body:block)*) => {
        pub mod ours {
            extern "C" {
                $(pub fn $name(first: *mut u32, first_len: usize, second: *mut u32, second_len: usize, n: usize, level: u32, told: *mut u64, told_len: usize);)*
            }
        }
        pub mod theirs {
            use super::*;
            $(#[inline(never)] pub fn $name($b: &mut Buffer, $n: usize) $body)*
        }
    };
}

sides! {
    bench_push(b, n) {
        for i in 0..n {
            b.push(7 + (i % 256) as u32, i as u32);
        }
    }
    bench_pass(b, n) {
        b.clear_output();
        for _ in 0..n {
            b.next_glyph();
        }
        b.sync();
    }
    bench_pass_shifted(b, n) {
        b.clear_output();
        b.skip_glyph();
        for _ in 1..n {
            b.next_glyph();
        }
        b.sync();
    }
    bench_pass_apart(b, n) {
        b.clear_output();
        b.output_glyph(5);
        for _ in 0..n {
            b.next_glyph();
        }
        b.sync();
    }
    bench_blocks(b, n) {
        b.clear_output();
        for _ in 0..n / 16 {
            b.next_glyphs(16);
        }
        b.sync();
    }
    bench_blocks_apart(b, n) {
        b.clear_output();
        b.output_glyph(5);
        for _ in 0..n / 16 {
            b.next_glyphs(16);
        }
        b.sync();
    }
    bench_blocks_shifted(b, n) {
        b.clear_output();
        b.skip_glyph();
        for _ in 0..n / 16 - 1 {
            b.next_glyphs(16);
        }
        b.sync();
    }
    bench_rest_apart(b, _n) {
        b.clear_output();
        b.output_glyph(5);
        b.sync();
    }
    bench_rest_shifted(b, _n) {
        b.clear_output();
        b.skip_glyph();
        b.sync();
    }
    bench_replace(b, n) {
        b.clear_output();
        for i in 0..n {
            b.replace_glyph(900 + (i % 64) as u32);
        }
        b.sync();
    }
    bench_replace_apart(b, n) {
        b.clear_output();
        b.output_glyph(5);
        for i in 0..n {
            b.replace_glyph(900 + (i % 64) as u32);
        }
        b.sync();
    }
    bench_replace_some(b, n) {
        b.clear_output();
        for i in 0..n {
            if i % 8 == 3 {
                b.replace_glyph(900);
            } else {
                b.next_glyph();
            }
        }
        b.sync();
    }
    bench_ligatures(b, n) {
        b.clear_output();
        for i in 0..n / 2 {
            b.replace_glyphs(2, 1, &[900 + (i % 64) as u32]);
        }
        b.sync();
    }
    bench_multiple(b, n) {
        b.clear_output();
        for i in 0..n {
            b.replace_glyphs(1, 2, &[900 + (i % 64) as u32, 7]);
        }
        b.sync();
    }
    bench_output(b, n) {
        b.clear_output();
        for i in 0..n {
            b.output_glyph(900 + (i % 64) as u32);
            b.next_glyph();
        }
        b.sync();
    }
    bench_merge(b, n) {
        for k in 0..n / 4 {
            b.merge_clusters(4 * k, 4 * k + 3);
        }
    }
    bench_merge_out(b, n) {
        b.clear_output();
        for k in 0..n / 4 {
            b.next_glyphs(4);
            let e = 4 * k + 4;
            b.merge_out_clusters(e - 3, e - 1);
        }
        b.sync();
    }
    bench_unsafe(b, n) {
        for k in 0..n / 4 {
            b.unsafe_to_break(Some(4 * k), Some(4 * k + 3));
        }
    }
    bench_unsafe_pairs(b, n) {
        for i in 0..n - 1 {
            b.unsafe_to_break(Some(i), Some(i + 2));
        }
    }
    bench_unsafe_out(b, n) {
        b.clear_output();
        for k in 0..n / 4 - 1 {
            b.next_glyphs(4);
            let e = 4 * k + 4;
            b.unsafe_to_break_from_outbuffer(Some(e - 2), Some(e + 2));
        }
        b.sync();
    }
    bench_masks(b, _n) { b.set_masks(0x50, 0xF0, 0, u32::MAX); }
    bench_masks_range(b, n) { b.set_masks(0x50, 0xF0, 40, (n / 2) as u32); }
    bench_reverse(b, _n) { b.reverse(); }
    bench_reverse_ranges(b, n) {
        for k in 0..n / 8 {
            b.reverse_range(8 * k, 8 * k + 5);
        }
    }
    bench_reverse_graphemes(b, _n) { reverse_graphemes(b); }
    bench_reverse_clusters(b, _n) { b.reverse_clusters(); }
    bench_reverse_placed(b, _n) {
        b.clear_positions();
        b.reverse();
    }
    bench_sort_marks(b, n) {
        for k in 0..n / 4 {
            b.sort(4 * k + 1, 4 * k + 4, |a, b| a.vars[1] & 0xFF > b.vars[1] & 0xFF);
        }
    }
    bench_sort_reversed(b, n) { b.sort(0, n, |a, b| a.vars[1] > b.vars[1]); }
    bench_delete(b, n) {
        b.clear_output();
        for i in 0..n {
            if i % 4 == 2 {
                b.delete_glyph();
            } else {
                b.next_glyph();
            }
        }
        b.sync();
    }
    bench_delete_inplace(b, _n) { b.delete_glyphs_inplace(|i| i.vars[0] & 0x100 == 0x100); }
    bench_delete_inplace_placed(b, _n) {
        b.clear_positions();
        b.delete_glyphs_inplace(|i| i.vars[0] & 0x100 == 0x100);
    }
    bench_propagate(b, _n) { propagate_flags(b); }
    bench_propagate_tatweel(b, _n) { propagate_flags(b); }
    bench_form_clusters(b, _n) { form_clusters(b); }
    bench_move(b, n) {
        b.clear_output();
        for k in 1..n / 16 {
            b.move_to(16 * k);
            b.move_to(16 * k - 4);
        }
        b.sync();
    }
    bench_move_apart(b, n) {
        b.clear_output();
        b.output_glyph(5);
        for k in 1..n / 16 {
            b.move_to(16 * k);
            b.move_to(16 * k - 4);
        }
        b.sync();
    }
    bench_move_far(b, n) {
        b.clear_output();
        b.output_glyph(5);
        b.move_to(n);
        b.move_to(1);
        b.sync();
    }
    bench_move_over(b, _n) {
        b.clear_output();
        for _ in 0..16 {
            b.output_glyph(5);
            b.move_to(0);
        }
        b.sync();
    }
    bench_place(b, n) {
        b.clear_positions();
        for i in 0..n {
            let at = &mut b.pos[i];
            at.x_advance = 500 + (i % 64) as i32;
            at.y_advance = 0;
            at.x_offset = 3;
            at.y_offset = 4;
        }
    }
    bench_clear_positions(b, _n) { b.clear_positions(); }
    bench_reset_clusters(b, _n) { b.reset_clusters(); }
    bench_set_length(b, n) { b.set_length(n); }
    bench_merge_back(b, n) {
        for k in 2..n {
            b.merge_clusters(n - k, n - k + 2);
        }
    }
    bench_merge_on(b, n) {
        for i in 0..n - 2 {
            b.merge_clusters(i, i + 2);
        }
    }
    bench_merge_out_on(b, n) {
        b.clear_output();
        b.next_glyph();
        for i in 2..n {
            b.next_glyph();
            b.merge_out_clusters(i - 2, i);
        }
        b.sync();
    }
    bench_delete_falling(b, n) {
        b.clear_output();
        b.next_glyphs(n / 2);
        for _ in n / 2..n {
            b.delete_glyph();
        }
        b.sync();
    }
    bench_skip(b, n) {
        for _ in 0..n {
            b.skip_glyph();
            // keeps the compiler from adding n at once
            std::hint::black_box(&mut b.idx);
        }
    }
}
