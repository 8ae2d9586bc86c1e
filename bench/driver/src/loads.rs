//! The table of the loads, and how one is run on both sides.
use crate::buffer::Buffer;
use crate::data::Data::{self, *};
use crate::measure::{Measure, Side};
use crate::rooms::{fill_theirs, Room};
use crate::sides::{ours, theirs, Ours, Theirs};

struct Load {
    name: &'static str,
    ours: Ours,
    theirs: Theirs,
    data: Data,
    level: u32,
    wants: u32,
    /// A glyph takes longer the longer the run is.
    slow: bool,
}

macro_rules! loads {
    ($($name:literal $load:ident $data:ident $level:literal $wants:literal $slow:literal;)*) => {
        const LOADS: &[Load] = &[
            $(Load { name: $name, ours: ours::$load, theirs: theirs::$load, data: $data, level: $level, wants: $wants, slow: $slow },)*
        ];
    };
}

// name, load, data, level, wants, slow
loads! {
    "a push" bench_push Empty 0 0 false;
    "b pass" bench_pass Latin 0 0 false;
    "b pass, shifted" bench_pass_shifted Latin 0 0 false;
    "b pass, apart" bench_pass_apart Latin 0 0 false;
    "c blocks of 16" bench_blocks Latin 0 0 false;
    "c blocks, shifted" bench_blocks_shifted Latin 0 0 false;
    "c blocks, apart" bench_blocks_apart Latin 0 0 false;
    "c all by sync, shifted" bench_rest_shifted Latin 0 0 false;
    "c all by sync, apart" bench_rest_apart Latin 0 0 false;
    "d replace_glyph" bench_replace Latin 0 0 false;
    "d replace, apart" bench_replace_apart Latin 0 0 false;
    "d replace 1 of 8" bench_replace_some Latin 0 0 false;
    "e ligatures 2->1" bench_ligatures Latin 0 0 false;
    "e ligatures 2->1 marks" bench_ligatures Marks 0 0 false;
    "f replace_glyphs 1->2" bench_multiple Latin 0 0 false;
    "f output_glyph + next" bench_output Latin 0 0 false;
    "g merge" bench_merge Latin 0 0 false;
    "g merge marks" bench_merge Marks 0 0 false;
    "g merge_out" bench_merge_out Latin 0 0 false;
    "g merge_out marks" bench_merge_out Marks 0 0 false;
    "h unsafe" bench_unsafe Latin 0 0 false;
    "h unsafe L1" bench_unsafe Latin 1 0 false;
    "h unsafe L2" bench_unsafe Latin 2 0 false;
    "h unsafe marks" bench_unsafe Marks 0 0 false;
    "h unsafe marks L2" bench_unsafe Marks 2 0 false;
    "h unsafe pairs" bench_unsafe_pairs Latin 0 0 false;
    "h unsafe_out" bench_unsafe_out Latin 0 0 false;
    "h unsafe_out L2" bench_unsafe_out Latin 2 0 false;
    "i set_masks" bench_masks Latin 0 0 false;
    "i set_masks range" bench_masks_range Latin 0 0 false;
    "j reverse" bench_reverse Latin 0 0 false;
    "j reverse, positions" bench_reverse_placed Latin 0 0 false;
    "j reverse_range of 5" bench_reverse_ranges Latin 0 0 false;
    "j reverse_graphemes" bench_reverse_graphemes Marks 0 0 false;
    "j reverse_graphemes L1" bench_reverse_graphemes Chars 1 0 false;
    "j reverse_clusters" bench_reverse_clusters Marks 0 0 false;
    "k sort marks of 3" bench_sort_marks Unsorted 0 0 false;
    "k sort reversed" bench_sort_reversed Falling 0 0 true;
    "l delete 1 of 4" bench_delete Latin 0 0 false;
    "l delete 1 of 4 marks" bench_delete Marks 0 0 false;
    "l delete_inplace" bench_delete_inplace Latin 0 0 false;
    "l delete_inplace, pos" bench_delete_inplace_placed Latin 0 0 false;
    "m propagate" bench_propagate Latin 0 0 false;
    "m propagate marks" bench_propagate Marks 0 0 false;
    "m propagate tatweel" bench_propagate_tatweel Marks 0 3 false;
    "m form_clusters" bench_form_clusters Chars 0 0 false;
    "n move_to" bench_move Latin 0 0 false;
    "n move_to, apart" bench_move_apart Latin 0 0 false;
    "n move_to far" bench_move_far Latin 0 0 false;
    "n move_to over, 16 times" bench_move_over Latin 0 0 false;
    "o clear_positions" bench_clear_positions Latin 0 0 false;
    "o clear + place" bench_place Latin 0 0 false;
    "reset_clusters" bench_reset_clusters Latin 0 0 false;
    "set_length" bench_set_length Empty 0 0 false;
    "g merge chain, back" bench_merge_back Latin 0 0 true;
    "g merge chain, on" bench_merge_on Latin 0 0 true;
    "g merge_out chain" bench_merge_out_on Latin 0 0 true;
    "l delete half, falling" bench_delete_falling Fallen 0 0 true;
    "skip_glyph" bench_skip Latin 0 0 false;
}

impl Load {
    fn run(&self, n: usize, measure: &mut Measure) {
        let data = self.data.make(n);
        let mut buffer = Buffer::new();
        // glyphs for which there is room, on both sides
        let capacity = 2 * n + 32;
        let mut room = Room::new(capacity);
        for _ in 0..measure.runs(self.slow) {
            fill_theirs(&mut buffer, &data, capacity, self.level, self.wants);
            measure.run(Side::Theirs, self.name, || (self.theirs)(&mut buffer, n));
            room.fill(&data);
            let Room { first, second, told } = &mut room;
            let (f, s, t) = (first.as_mut_ptr(), second.as_mut_ptr(), told.as_mut_ptr());
            let (f_len, s_len, t_len) = (first.len(), second.len(), told.len());
            measure.run(Side::Ours, self.name, || unsafe { (self.ours)(f, f_len, s, s_len, n, self.level, t, t_len) });
        }
        measure.tell(self.name, n, room.compare(&buffer));
    }
}

pub fn run(n: usize, measure: &mut Measure) {
    for load in LOADS {
        load.run(n, measure);
    }
}
