//! What a run is given: an image, a list of calls, and what is lent.

use image::BANK;

use crate::store::book::{Book, PART};
use crate::store::lent::call::Call;
use crate::store::lent::state::{Tallies, STATE};
use crate::store::lent::Standing;

#[derive(Clone, Debug, PartialEq)]
pub struct Run {
    pub image: Vec<u8>,
    pub calls: Vec<Call>,
    pub standing: Standing,
    /// Bytes lent for the state.
    pub state: usize,
    /// Bytes lent for the work area, over what the image needs.
    pub spare: isize,
    /// What someone puts into the opened state.
    pub tallies: Tallies,
}

impl Run {
    pub fn new(image: Vec<u8>, calls: Vec<Call>) -> Self {
        Run {
            image,
            calls,
            standing: Standing::Guarded(0),
            state: STATE,
            spare: 0,
            tallies: Tallies::default(),
        }
    }

    pub fn work(&self) -> usize {
        let need = self.image.len() / BANK * PART;
        (need as isize + self.spare).max(0) as usize
    }

    /// What the opening answers by 01: the store, or a number.
    pub fn opened(&self) -> Result<Book, u32> {
        if self.state < STATE {
            return Err(6);
        }
        Book::open(&self.image, self.work())
    }
}
