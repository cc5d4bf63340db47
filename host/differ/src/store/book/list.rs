//! The list of a store's banks, and which is active, by 'Opening' in 01.

use image::BANK;

use super::bank::{Bank, Slot, PART};
use crate::partition::model;
use crate::store::lent::state::{State, Tallies};

/// Images of this length or more are refused.
const TOO_LONG: usize = 1_114_112;

#[derive(Clone, Debug, PartialEq)]
pub struct Book {
    pub active: usize,
    pub tallies: Tallies,
    pub slots: Vec<Slot>,
}

impl Book {
    /// The opened image, or a refusal's number.
    pub fn open(image: &[u8], work: usize) -> Result<Book, u32> {
        let n = image.len() / BANK;
        if image.len() < BANK {
            return Err(1);
        }
        if image.len() >= TOO_LONG {
            return Err(2);
        }
        if work < n * PART {
            return Err(3);
        }
        let banks = image.chunks_exact(BANK);
        let slots: Vec<Slot> = banks.map(|b| model::read(b).slot.owned()).collect();
        if !slots.iter().any(|slot| matches!(slot, Slot::Valid(_))) {
            return Err(4);
        }
        Ok(Book { active: active(&slots), tallies: Tallies::default(), slots })
    }

    /// Where the active slot is Valid.
    pub fn active_bank(&self) -> Option<&Bank> {
        match &self.slots[self.active] {
            Slot::Valid(bank) => Some(bank),
            _ => None,
        }
    }

    pub fn active_bank_mut(&mut self) -> Option<&mut Bank> {
        match &mut self.slots[self.active] {
            Slot::Valid(bank) => Some(bank),
            _ => None,
        }
    }

    /// The active bank's, which a move raises.
    pub fn generation(&self) -> Option<u32> {
        self.active_bank().map(|bank| bank.header.generation)
    }

    pub fn state(&self) -> State {
        let mut state = State {
            n: self.slots.len() as u32,
            active: self.active as u32,
            tallies: self.tallies,
            ..State::default()
        };
        for (entry, slot) in state.entries.iter_mut().zip(&self.slots) {
            *entry = slot.entry();
        }
        state
    }

    pub fn work(&self) -> Vec<u8> {
        let parts: Vec<_> = self.slots.iter().map(Slot::part).collect();
        parts.concat()
    }
}

/// The bank of the greatest generation above 0, the first of several; else bank 0.
fn active(slots: &[Slot]) -> usize {
    let (mut active, mut best) = (0, 0);
    for (i, slot) in slots.iter().enumerate() {
        match slot {
            Slot::Valid(bank) if bank.header.generation > best => {
                (active, best) = (i, bank.header.generation);
            }
            _ => {}
        }
    }
    active
}

#[cfg(test)]
mod tests {
    use super::*;
    use image::Header;

    fn bank(generation: u32) -> Vec<u8> {
        image::bank(&Header::new(BANK as u32, generation), &[])
    }

    fn opened(banks: &[Vec<u8>]) -> Book {
        Book::open(&banks.concat(), banks.len() * PART).unwrap()
    }

    #[test]
    fn the_first_of_the_greatest_generations_is_active() {
        assert_eq!(opened(&[bank(3), bank(5), bank(5)]).active, 1);
        assert_eq!(opened(&[vec![0; BANK], bank(0)]).active, 0);
        assert_eq!(opened(&[vec![0; BANK], bank(0), bank(1)]).active, 2);
    }

    #[test]
    fn openings_are_refused_in_order() {
        let refused = |image: &[u8], work| Book::open(image, work).unwrap_err();
        assert_eq!(refused(&bank(1)[1..], 0), 1);
        assert_eq!(refused(&vec![0; TOO_LONG], 0), 2);
        assert_eq!(refused(&vec![0; TOO_LONG - 1], 16 * PART - 1), 3);
        assert_eq!(refused(&vec![0; TOO_LONG - 1], 16 * PART), 4);
    }
}
