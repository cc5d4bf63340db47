//! What the Rust asks of its writer.

use std::io;

use image::BANK;

use crate::store::lent::call::{Asked, NO_REQUEST};

/// A writer that keeps what is asked, and refuses nothing.
#[derive(Default)]
pub struct Requests {
    asked: Vec<Request>,
}

enum Request {
    Erase(u32, usize),
    Write(u32, Vec<u8>),
}

impl oracle::NvramWriter for Requests {
    fn erase_if_needed(&mut self, offset: u32, size: usize) {
        self.asked.push(Request::Erase(offset, size));
    }

    fn write_all(&mut self, offset: u32, buf: &[u8]) -> io::Result<()> {
        self.asked.push(Request::Write(offset, buf.to_vec()));
        Ok(())
    }
}

impl Requests {
    /// What was asked, and the bytes to write. An erase of another length than a bank's, or
    /// anything behind the write, is a fault.
    pub fn told(self) -> Result<(Asked, Vec<u8>), String> {
        let (mut told, mut bytes) = (NO_REQUEST, None);
        for request in self.asked {
            match request {
                Request::Erase(offset, BANK) if told[0] == 0 && bytes.is_none() => {
                    (told[0], told[1]) = (1, offset.into());
                }
                Request::Write(offset, buf) if bytes.is_none() => {
                    (told[2], told[3]) = (offset.into(), buf.len() as u64);
                    bytes = Some(buf);
                }
                Request::Erase(offset, size) => {
                    return Err(format!("it erases {size} bytes at {offset}"))
                }
                Request::Write(offset, _) => return Err(format!("it writes again, at {offset}")),
            }
        }
        Ok((told, bytes.unwrap_or_default()))
    }
}

#[cfg(test)]
mod tests {
    use super::*;
    use oracle::NvramWriter;

    fn told(ask: impl FnOnce(&mut Requests)) -> Result<(Asked, Vec<u8>), String> {
        let mut requests = Requests::default();
        ask(&mut requests);
        requests.told()
    }

    #[test]
    fn one_erase_and_one_write_in_this_order_are_told() {
        let write: fn(&mut Requests) = |r| r.write_all(7, b"ab").unwrap();
        let erase: fn(&mut Requests) = |r| r.erase_if_needed(65_536, BANK);
        assert_eq!(told(|_| ()), Ok((NO_REQUEST, vec![])));
        assert_eq!(told(write), Ok(([0, 0, 7, 2], b"ab".to_vec())));
        assert_eq!(told(erase), Ok(([1, 65_536, 0, 0], vec![])));
        let both = told(|r| {
            erase(r);
            write(r);
        });
        assert_eq!(both, Ok(([1, 65_536, 7, 2], b"ab".to_vec())));
        assert!(told(|r| r.erase_if_needed(0, 1)).is_err());
        for twice in [erase, write] {
            let again = told(|r| {
                write(r);
                twice(r);
            });
            assert!(again.is_err());
        }
    }
}
