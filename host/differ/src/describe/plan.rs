//! Plans for power cuts: a flash, and what is done with the store that is opened from it.

use std::fmt::{self, Display, Formatter};

use proptest::prelude::*;

use super::bank::Slot;
use super::bytes::INNER;
use super::call::{edit, Call, Var};
use super::image::{image, Image};
use super::list::list;
use super::style::{Style, CUT_KEYS};

/// The key of the record that has a commit move; no other has it.
pub const SPARE: &[u8] = b"spare";

#[derive(Clone, Debug, PartialEq)]
pub struct Plan {
    pub actions: Vec<Action>,
    pub image: Image,
}

#[derive(Clone, Debug, PartialEq)]
pub enum Action {
    /// An insert or a remove.
    Edit(Call),
    Commit,
    /// A commit that may be cut; the number picks the cut point.
    Cut(usize),
    /// The store is opened anew.
    Reopen,
}

impl Plan {
    /// Those looked up, each of both types.
    pub fn keys(&self) -> Vec<Vec<u8>> {
        let banks = self.image.slots.iter().filter_map(Slot::described);
        let records = banks.flat_map(|bank| &bank.records);
        let stored = records.map(|record| record.key.made());
        let edited = self.actions.iter().filter_map(|action| match action {
            Action::Edit(Call::Insert(_, Var::Of(key, _), _) | Call::Remove(Var::Of(key, _))) => {
                Some(key.made())
            }
            Action::Edit(Call::Made(call)) => Some(call.key.clone()),
            _ => None,
        });
        let others = CUT_KEYS.iter().chain(&[INNER, SPARE, b"never"]);
        let others = others.map(|key| key.to_vec());
        let mut keys: Vec<_> = stored.chain(edited).chain(others).collect();
        keys.sort();
        keys.dedup();
        keys
    }
}

impl Display for Plan {
    fn fmt(&self, f: &mut Formatter) -> fmt::Result {
        write!(f, "{}", self.image)?;
        let mut actions = self.actions.iter();
        actions.try_for_each(|action| write!(f, "\n  {action:?}"))
    }
}

pub fn plan() -> impl Strategy<Value = Plan> {
    let style = Style::cut();
    let action = prop_oneof![
        6 => edit(&style).prop_map(Action::Edit),
        2 => Just(Action::Commit),
        2 => (0..1_000_000usize).prop_map(Action::Cut),
        1 => Just(Action::Reopen),
    ];
    (image(&style), list(action, 40)).prop_map(|(image, actions)| Plan { image, actions })
}
