//! Images about the lengths at which the opening changes its mind.

use image::{Header, Record, BANK};

use crate::store::lent::call::{Call, Caller, What};
use crate::store::run::Run;

/// An image to make: whole banks, and bytes more or less.
pub struct Edge {
    banks: usize,
    more: isize,
    /// The last whole bank is Valid, with one record.
    valid: bool,
    fill: u8,
    spare: isize,
}

pub fn all() -> Vec<Edge> {
    let mut out = Vec::new();
    for banks in [0, 1, 2, 16, 17, 18] {
        for more in [-1, 0, 1, 65_535] {
            for (fill, valid) in [(0xFF, true), (0xFF, false), (0, false)] {
                out.extend([-1, 0, 1].map(|spare| Edge { banks, more, valid, fill, spare }));
            }
        }
    }
    out
}

impl Edge {
    pub fn run(&self) -> Run {
        let len = (self.banks * BANK) as isize + self.more;
        let mut image = vec![self.fill; len.max(0) as usize];
        if let Some(last) = image.chunks_exact_mut(BANK).last().filter(|_| self.valid) {
            let record = Record::live(b"rate", b"123456789");
            last.copy_from_slice(&image::bank(&Header::default(), &[record]));
        }
        let lookup = Call::new(What::Lookup, b"rate", 1);
        let inserts = [Call::insert(b"rate", b"x", 1), Call::barrel(b"rate", &[b'x'; 513], 1)];
        let commits = [Call::commit(BANK), Call::careful(BANK).by(Caller::BARREL)];
        let whole = Call::whole(self.banks * BANK);
        let calls = [lookup.clone()].into_iter().chain(inserts).chain([lookup, Call::figures()]);
        let mut run = Run::new(image, calls.chain(commits).chain([whole]).collect());
        run.spare = self.spare;
        run
    }
}
