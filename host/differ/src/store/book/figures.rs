//! What records come to, by 'A commit, from the entry down' in 01 and by N3 of the change requests
//! (02).

use image::{Record, COMMON_GUID, HEADER, SYSTEM_GUID};

use super::bank::{size, Bank, LIVE};
use super::list::Book;
use crate::store::lent::call::{Answer, Call};

impl Book {
    pub fn figures(&self, call: &Call) -> Answer {
        let Some(bank) = self.active_bank() else {
            return call.refused(7);
        };
        let figures = [bank.live_of(&SYSTEM_GUID), bank.live_of(&COMMON_GUID), bank.records.len()];
        Answer::Figures(0, figures.map(|figure| figure as u64))
    }
}

impl Bank {
    /// 24 and the live records' sizes.
    pub fn live(&self) -> usize {
        HEADER + self.live_records().map(size).sum::<usize>()
    }

    pub fn live_records(&self) -> impl Iterator<Item = &Record> {
        self.records.iter().filter(|r| r.state == LIVE)
    }

    /// A third GUID counts in neither limit.
    pub fn live_of(&self, guid: &[u8; 16]) -> usize {
        let records = self.live_records().filter(|r| r.guid == *guid);
        records.map(size).sum()
    }
}

#[cfg(test)]
mod tests {
    use super::super::bank::PART;
    use super::*;
    use image::Header;

    fn figures(records: &[Record]) -> Answer {
        let image = image::bank(&Header::default(), records);
        Book::open(&image, PART).unwrap().answer(&Call::figures())
    }

    #[test]
    fn dead_records_and_third_guids_are_in_the_number_alone() {
        let record = |state, guid| Record { state, guid, ..Record::live(b"k", b"v") };
        assert_eq!(figures(&[]), Answer::Figures(0, [0; 3]));
        let [live, dead] = [0x7F, 0x7C].map(|state| record(state, SYSTEM_GUID));
        let [common, third] = [COMMON_GUID, [9; 16]].map(|guid| record(LIVE, guid));
        assert_eq!(figures(&[live.clone(), dead.clone()]), Answer::Figures(0, [39, 0, 2]));
        assert_eq!(figures(&[dead, common, third, live]), Answer::Figures(0, [39, 39, 4]));
    }
}
