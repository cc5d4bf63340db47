//! A strike count whose commit is cut at every step: the numbers that the header tells.

use image::{Header, BANK};

use super::device::{Commit, Device};
use super::single::{finish, Cuts};
use crate::judge::{Comparison, Mode, Numbers, Part};
use crate::store::lent::call::Call;
use crate::store::lent::Port;

const KEY: &[u8] = b"strikes";
const SYSTEM: u32 = 1;
const FIRST: u32 = 1000;
/// Counts that a bank has room for, each in a record of 48 bytes.
const FULL: u32 = 1364;

pub struct Strikes {
    pub port: Port,
}

/// Which commit is cut.
#[derive(Clone, Copy, Debug)]
pub enum Strike {
    /// 1001 after 1000 in a bank that was formatted; the other bank is Empty.
    Second,
    /// The first that the bank has no room for; the other bank is Valid, and older.
    Moving,
}

impl Comparison for Strikes {
    type Input = Strike;
    type Counts = Numbers;
    const NAME: &'static str = "cuts";

    fn parts(&self, _: Mode) -> Vec<Part<Strike>> {
        let both = [Strike::Second, Strike::Moving].into_iter();
        vec![Part::each("a strike count", both)]
    }

    fn compare(&self, strike: &Strike) -> Result<Numbers, String> {
        let mut cuts = Cuts::default();
        let (mut device, commit) = struck(self.port, *strike)?;
        cuts.cut(&mut device, &commit)?;
        Ok(cuts.numbers())
    }
}

/// The counts before it committed, and a commit that is still to be carried out.
pub fn struck(port: Port, strike: Strike) -> Result<(Device, Commit), String> {
    let (other, counts) = match strike {
        Strike::Second => (vec![0xFF; BANK], 1),
        Strike::Moving => (formatted(0), FULL),
    };
    let keys = [KEY, b"never"].map(<[u8]>::to_vec);
    let device = Device::open(port, &[formatted(1), other].concat(), &keys)?;
    let mut device = device.ok_or("the flash does not open")?;
    for count in FIRST..FIRST + counts {
        let commit = insert(&mut device, count)?;
        finish(&mut device, &commit)?;
    }
    let commit = insert(&mut device, FIRST + counts)?;
    Ok((device, commit))
}

fn insert(device: &mut Device, count: u32) -> Result<Commit, String> {
    device.ask(&Call::insert(KEY, &count.to_le_bytes(), SYSTEM))?;
    let commit = device.commit()?;
    commit.ok_or_else(|| format!("the count {count} is refused"))
}

/// A bank without a record and without limits.
pub fn formatted(generation: u32) -> Vec<u8> {
    let header =
        Header { generation, system_limit: u32::MAX, common_limit: u32::MAX, ..Header::default() };
    image::bank(&header, &[])
}
