//! Why the store refuses a call.

use core::fmt::{self, Display, Formatter};

/// Makes all that lists the refusals of one list: name, number, what it says.
macro_rules! refusals {
    ($($name:ident = $number:literal, $text:literal;)*) => {
        /// Why a call is refused, named and numbered as in include/feqyondil.h. What to do after
        /// each: docs/USING.md, 'Refusals'. Later versions may have more.
        #[derive(Clone, Copy, Debug, Eq, PartialEq)]
        #[non_exhaustive]
        #[repr(u32)]
        pub enum Refusal {
            $(#[doc = $text] $name = $number,)*
        }

        impl Refusal {
            #[cfg(test)]
            pub(crate) const ALL: &'static [Refusal] = &[$(Refusal::$name,)*];

            fn of(number: u32) -> Option<Refusal> {
                match number {
                    $($number => Some(Refusal::$name),)*
                    _ => None,
                }
            }

            fn text(self) -> &'static str {
                match self {
                    $(Refusal::$name => $text,)*
                }
            }
        }
    };
}

refusals! {
    ImageShort = 1, "the image is below 65,536 bytes";
    ImageLong = 2, "the image is of 1,114,112 bytes or more";
    WorkShort = 3, "the work area is below 131,072 bytes per bank";
    NoValid = 4, "no bank is Valid";
    OutputShort = 5, "the output is below 65,536 bytes; whole image: per bank";
    NotSound = 6, "state and work area are not those of an opened store";
    NotValid = 7, "the active bank isn't Valid";
    Full = 8, "the insert would bring the bank's total over 131,072";
    SystemLimit = 9, "live system records are over the header's limit";
    CommonLimit = 10, "live common records are over the header's limit";
    LastMove = 11, "the bank is to move, and its generation is 4,294,967,295";
    MovedOver = 12, "the bank has to move, and its live records are over its size";
    BankOver = 13, "a Valid bank's total is over its size";
    BankLength = 14, "a bank to compare is not 65,536 bytes";
    ValueLong = 15, "a value of the barrels' insert is over 512 bytes";
    LogNumber = 16, "a log's number is cut off, not in its shortest form or 2^32 and more";
    LogOrder = 17, "a start minute is below the one before it";
    LogLength = 18, "bytes left over, no threes, a log over 4,096 bytes, an output too short";
    RateRange = 19, "a rate's place, a sum, a difference or thirds out of range, or minus zero";
}

impl Refusal {
    /// As the library answers it.
    pub fn number(self) -> u32 {
        self as u32
    }

    /// What a call's number means. One that no call promises is a fault of the library, and
    /// ends the program.
    pub(crate) fn check(number: u32) -> Result<(), Refusal> {
        match Refusal::of(number) {
            Some(refusal) => Err(refusal),
            None if number == 0 => Ok(()),
            None => panic!("the library answered {number}"),
        }
    }
}

impl Display for Refusal {
    fn fmt(&self, f: &mut Formatter) -> fmt::Result {
        f.write_str(self.text())
    }
}

#[cfg(test)]
mod tests {
    use super::*;
    use std::string::ToString;

    #[test]
    fn numbers_are_refusals() {
        assert_eq!(Refusal::check(0), Ok(()));
        for &refusal in Refusal::ALL {
            assert_eq!(Refusal::check(refusal.number()), Err(refusal));
            assert!(!refusal.to_string().is_empty());
        }
        assert_eq!(Refusal::check(8), Err(Refusal::Full));
    }

    #[test]
    #[should_panic(expected = "the library answered 4294967295")]
    fn another_number_is_a_fault() {
        let _ = Refusal::check(u32::MAX);
    }
}
