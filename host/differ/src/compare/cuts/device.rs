//! A store and its flash: edits, commits, and power that goes.

use std::mem;

use image::{number, BANK};

use super::reader::{judge, Answers, Reader, Verdict};
use super::steps::{steps, Order, Step};
use crate::describe::{self, Action, Plan, Reach, SPARE};
use crate::partition::cause::Causes;
use crate::store::book::{sound, Book, PART};
use crate::store::lent::call::{Answer, Call, What};
use crate::store::lent::state::{Entry, State};
use crate::store::lent::{Lent, Port};
use crate::store::run::flash::Flash;

pub struct Device {
    pub flash: Flash,
    store: Lent,
    reader: Reader,
    /// What the flash answers.
    answers: Answers,
    /// What was done, in words.
    log: Vec<String>,
}

/// An accepted commit that is still to be carried out.
pub struct Commit {
    answer: Answer,
    /// What the flash answers before it, and the store after it.
    was: Answers,
    is: Answers,
    pub moved: bool,
}

impl Device {
    /// `None` where by 01 the flash does not open, or its active bank is not Valid.
    pub fn open(port: Port, image: &[u8], keys: &[Vec<u8>]) -> Result<Option<Self>, String> {
        let mut reader = Reader::new(port, keys, image);
        let answers = reader.flash(image, &[])?;
        let opens = Book::open(image, usize::MAX).is_ok_and(|book| book.active_bank().is_some());
        if opens != answers.is_some() {
            return Err(format!("  by 01 it opens: {opens}, by the port: {}", !opens));
        }
        let next = Reader::new(port, keys, image);
        Ok(answers.map(|answers| Device {
            flash: Flash::new(image),
            store: reader.store,
            reader: next,
            answers,
            log: Vec::new(),
        }))
    }

    /// Goes through a plan, with what is to be done at its commits.
    pub fn go(
        &mut self,
        plan: &Plan,
        mut commit: impl FnMut(&mut Self, &Action) -> Result<(), String>,
    ) -> Result<(), String> {
        for action in &plan.actions {
            match action {
                Action::Edit(call) => self.edit(call)?,
                Action::Reopen => self.reopen()?,
                Action::Commit | Action::Cut(_) => commit(self, action)?,
            }
        }
        Ok(())
    }

    /// Opens the store from the flash; what was not committed is gone.
    fn reopen(&mut self) -> Result<(), String> {
        self.log.push("opened anew".to_string());
        let now = self.reader.flash(&self.flash.bytes, &[&self.answers])?;
        now.ok_or("the flash does not open again")?;
        mem::swap(&mut self.store, &mut self.reader.store);
        Ok(())
    }

    /// An edit that leaves the live records within the bank's size.
    fn edit(&mut self, call: &describe::Call) -> Result<(), String> {
        let book = sound::book(self.store.state.slice(), self.store.work.slice());
        self.ask(&call.made(book.as_ref(), Reach::Size))
    }

    pub fn ask(&mut self, call: &Call) -> Result<(), String> {
        self.log.push(call.to_string());
        self.store.ask(call).map(drop)
    }

    fn state(&self) -> State {
        State::read(self.store.state.slice()).expect("a state's bytes")
    }

    /// The active bank's entry, and the size in its header.
    fn active(&self) -> (Entry, u32) {
        let state = self.state();
        let active = state.active as usize;
        let size = number(self.store.work.slice(), active * PART + 4);
        (state.entries[active], size)
    }

    /// Usable bytes behind the records, where the usable ones end before the bank's size: something
    /// is written behind the records there.
    fn room(&self) -> Option<usize> {
        let (entry, size) = self.active();
        let room = entry.usable.checked_sub(entry.total);
        room.filter(|_| entry.usable < size).map(|n| n as usize)
    }

    /// Has the next commit move, where something is written behind the records: an insert brings the
    /// total over the usable bytes, and a remove takes the value out again.
    pub fn move_first(&mut self) -> Result<(), String> {
        let Some(room) = self.room() else {
            return Ok(());
        };
        self.ask(&Call::insert(SPARE, &vec![0; room], 1))?;
        self.ask(&Call::new(What::Remove, SPARE, 1))
    }

    /// A commit; `None` where it is refused, and then the store is opened anew.
    pub fn commit(&mut self) -> Result<Option<Commit>, String> {
        let before = self.state().active;
        let answer = self.store.ask(&Call::careful(BANK))?;
        if answer.written().is_none() {
            self.log.push("commit, refused".to_string());
            return self.reopen().map(|()| None);
        }
        let is = self.reader.answers(&mut self.store)?;
        let moved = self.state().active != before;
        let place = if moved { "moves" } else { "in place" };
        self.log.push(format!("commit, {place}"));
        Ok(Some(Commit {
            answer,
            was: self.answers.clone(),
            is: is.ok_or("lookups are refused after a commit")?,
            moved,
        }))
    }

    pub fn steps(&self, commit: &Commit, order: &Order) -> Result<Vec<Step>, String> {
        steps(&self.flash.bytes, &commit.answer, order)
    }

    /// Judges the flash as a cut would leave it.
    pub fn judge(&mut self, cut: &[u8], commit: &Commit) -> Result<Verdict, String> {
        let known = [&commit.was, &commit.is];
        let now = self.reader.flash(cut, &known)?;
        Ok(judge(now.as_ref(), known))
    }

    /// Carries a commit out; the flash is to answer as the store does.
    pub fn finish(&mut self, commit: &Commit) -> Result<Verdict, String> {
        self.flash.carry_out(&commit.answer)?;
        let now = self.reader.flash(&self.flash.bytes, &[&commit.is])?;
        let verdict = judge(now.as_ref(), [&commit.is; 2]);
        self.answers = commit.is.clone();
        Ok(verdict)
    }

    /// Carries out the first of a commit's steps, and opens the store from what the flash is then.
    pub fn cut(&mut self, commit: &Commit, steps: &[Step], j: usize) -> Result<Verdict, String> {
        let k = steps.len();
        self.log.push(format!("  cut after {j} of {k} steps"));
        let flash = &mut self.flash.bytes;
        steps[..j].iter().for_each(|step| step.apply(flash));
        let known = [&commit.was, &commit.is];
        let now = self.reader.flash(flash, &known)?;
        let verdict = judge(now.as_ref(), known);
        if let Some(now) = now {
            self.answers = now;
            mem::swap(&mut self.store, &mut self.reader.store);
        }
        Ok(verdict)
    }

    /// Of the banks of every flash that was opened.
    pub fn causes(&self) -> Causes {
        let mut causes = self.store.causes;
        causes += self.reader.store.causes;
        causes
    }

    /// What was done, and what came of it.
    pub fn told(&self, what: &str, verdict: Verdict) -> String {
        let told = self.reader.told(verdict);
        format!("  {}\n  {what}: {told}", self.log.join("\n  "))
    }
}
