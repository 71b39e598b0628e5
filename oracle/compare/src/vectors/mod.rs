//! The lists of vectors that a program without Rust replays, in 32-bit little-endian words.
//! The leaves' list has records `[tag, n_in, n_out, in.., out..]`, the last one
//! `[0, 0, 0]`; one module per group of tags; `all` names them in the list's order. The
//! reader's list and the writer's have forms of their own: `reading`, `writing`.

mod areas;
mod obj;
mod picking;
mod places;
mod quarters;
mod reach;
pub mod reading;
mod seams;
mod shorts;
mod strip;
pub mod writing;

/// No list is longer.
pub const MOST_BYTES: usize = 130_000;

#[derive(Default)]
pub struct Vectors {
    words: Vec<u32>,
    /// Records of each tag, in the list's order.
    pub counts: Vec<(u32, usize)>,
}

impl Vectors {
    fn add(&mut self, tag: u32, input: &[u32], output: &[u32]) {
        self.words.extend([tag, input.len() as u32, output.len() as u32]);
        self.words.extend_from_slice(input);
        self.words.extend_from_slice(output);
        match self.counts.iter_mut().find(|(t, _)| *t == tag) {
            Some((_, count)) => *count += 1,
            None => self.counts.push((tag, 1)),
        }
    }

    /// The list as bytes, its last record added.
    pub fn bytes(&self) -> Vec<u8> {
        self.words.iter().chain(&[0, 0, 0]).flat_map(|w| w.to_le_bytes()).collect()
    }
}

pub fn all() -> Vectors {
    let mut out = Vectors::default();
    shorts::shorts(&mut out);
    shorts::backs(&mut out);
    quarters::quarters(&mut out);
    areas::areas(&mut out);
    places::places(&mut out);
    strip::strips(&mut out);
    picking::picks(&mut out);
    obj::objs(&mut out);
    seams::counted(&mut out);
    reach::walks(&mut out);
    out
}
