//! Document 01's refusals of calls that harfrust would take or fail at.
use crate::commands::OPEN;
use crate::theirs::Theirs;

pub fn place(word: u32) -> usize {
    word as usize
}

pub fn bound(word: u32) -> Option<usize> {
    (word != OPEN).then_some(word as usize)
}

pub fn refuse(test: bool, number: u32) -> Result<(), u32> {
    if test { Err(number) } else { Ok(()) }
}

impl Theirs {
    /// Refusal 5: a size that the Rust would make, over the capacity.
    pub fn size(&self, n: usize) -> Result<(), u32> {
        refuse(n > self.buffer.info.len() && n <= self.buffer.max_len && n > self.capacity, 5)
    }

    pub fn output(&self) -> Result<(), u32> {
        refuse(!self.buffer.have_output, 2)
    }

    pub fn whole(&self) -> Result<(), u32> {
        refuse(self.buffer.have_output || self.buffer.idx > 0, 2)
    }

    pub fn rest(&self) -> usize {
        self.buffer.len - self.buffer.idx
    }

    pub fn input_range(&self, s: usize, e: usize) -> Result<(), u32> {
        let low = if self.buffer.have_output { self.buffer.idx } else { 0 };
        refuse(s > e || e > self.buffer.len || s < low, 3)
    }

    pub fn slot(word: u32) -> Result<usize, u32> {
        refuse(word > 1, 4)?;
        Ok(word as usize)
    }

    /// Refusal 3 of a flag form, unless the Rust does nothing before it looks at its range.
    pub fn flag_range(&self, start: Option<usize>, end: Option<usize>, wanted: bool, outbuffer: bool) -> Result<(), u32> {
        let far = matches!((start, end), (Some(s), Some(e)) if e.wrapping_sub(s) > 255);
        if !wanted || far {
            return Ok(());
        }
        let b = &self.buffer;
        let stop = end.unwrap_or(b.len).min(b.len);
        let start = start.unwrap_or(0);
        if outbuffer {
            refuse(start > b.out_len || stop < b.idx, 3)
        } else {
            refuse(start > stop || (b.have_output && start < b.idx), 3)
        }
    }
}
