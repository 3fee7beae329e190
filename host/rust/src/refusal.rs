//! The refusals of documents 01 and 02 that the calls give.

use std::error::Error;
use std::fmt;

macro_rules! refusals {
    ($($number:literal $name:ident $words:literal,)*) => {
        /// Why a call is refused, with the numbers of document 01 (up to 10) and document 02.
        #[derive(Clone, Copy, PartialEq, Eq, Hash, Debug)]
        #[non_exhaustive]
        #[repr(u8)]
        pub enum Refusal {
            $(#[doc = concat!("refused-", $number, ": ", $words, ".")] $name = $number,)*
        }

        impl Refusal {
            /// Every refusal, by its number.
            pub const ALL: &'static [Refusal] = &[$(Refusal::$name),*];

            /// What is wrong, without the number that is shown before it.
            ///
            /// ```
            /// use avr_core::Refusal;
            /// assert_eq!(Refusal::LineSum.words(), "the line's sum is wrong");
            /// assert_eq!(Refusal::LineSum.to_string(), "refused-52: the line's sum is wrong");
            /// ```
            pub const fn words(self) -> &'static str {
                match self {
                    $(Refusal::$name => $words,)*
                }
            }
        }
    };
}

refusals! {
    1 Program "an opcode, a second word, a word to be skipped or an LPM byte is not wholly in program",
    2 Pc "CALL, LDS or STS at PC 65,534, or a taken skip past PC 65,535",
    3 Stack "entry, CALL, RCALL or ICALL with SP below 2, or RET or RETI with SP above 65,533",
    4 Data "a data byte that is needed is not in data",
    5 Busy "busy is above 4",
    7 SnapshotLength "the snapshot is not 38 bytes",
    8 BusyField "the snapshot's busy field is above 4",
    9 SpareBits "the snapshot's spare bits are not zero",
    10 Offer "the offer is above 65,536",
    30 ListLength "the list is not whole records",
    31 ListTicks "a record's tick is 0, or not above the one before",
    32 EntriesLength "there are fewer numbers for entries than records",
    50 Character "a character does not belong in the line",
    51 LineLength "the line is no whole record, or not as long as its count says, or an end record with data",
    52 LineSum "the line's sum is wrong",
    53 RecordType "the record's type is neither 00 nor 01",
    54 OutsideProgram "a byte is outside the program",
    55 AddressFalls "a data line starts below the end of the one before",
    56 EndRecord "the end record is missing, or a line stands behind it",
    57 ProgramLength "the program has more than 65,536 bytes",
    58 TextLength "the text has less room than the program takes",
}

impl Refusal {
    /// Its number in document 01's table, or in document 02.
    ///
    /// ```
    /// assert_eq!(avr_core::Refusal::Stack.number(), 3);
    /// ```
    pub const fn number(self) -> u32 {
        self as u32
    }

    /// The refusal with this number. Nothing where no call refuses with it.
    ///
    /// ```
    /// use avr_core::Refusal;
    /// assert_eq!(Refusal::from_number(52), Some(Refusal::LineSum));
    /// assert_eq!(Refusal::from_number(18), None);
    /// ```
    pub fn from_number(number: u32) -> Option<Refusal> {
        Refusal::ALL.iter().copied().find(|refusal| refusal.number() == number)
    }

    /// The refusal that a call gave. It is proved that a call gives no other number: another is of an archive of another version.
    pub(crate) fn given(number: u32) -> Refusal {
        Refusal::from_number(number)
            .unwrap_or_else(|| panic!("{number} is no answer and no refusal: libhost.a and this crate do not belong together"))
    }
}

impl fmt::Display for Refusal {
    fn fmt(&self, formatter: &mut fmt::Formatter) -> fmt::Result {
        write!(formatter, "refused-{}: {}", self.number(), self.words())
    }
}

impl Error for Refusal {}

#[cfg(test)]
mod tests {
    use super::*;

    #[test]
    fn the_numbers_are_those_of_the_documents() {
        let numbers = (1..=5).chain(7..=10).chain(30..=32).chain(50..=58);
        assert!(Refusal::ALL.iter().map(|refusal| refusal.number()).eq(numbers));
    }

    #[test]
    fn each_is_found_by_its_number_and_nothing_by_others() {
        assert!(Refusal::ALL.iter().all(|&refusal| Refusal::from_number(refusal.number()) == Some(refusal)));
        assert_eq!((0..1_000).filter_map(Refusal::from_number).count(), Refusal::ALL.len());
    }

    /// A word of each that the documents have there. tests/linked.sh holds the words against those of include/avr_core.h.
    #[test]
    fn each_says_what_the_documents_say() {
        let first = "LPM|skip|SP|data byte|busy|38 bytes|busy field|spare bits|65,536";
        let second = "whole records|0|fewer|character|count|sum|type|outside|below|end record|65,536|less room";
        for (refusal, word) in Refusal::ALL.iter().zip(first.split('|').chain(second.split('|'))) {
            assert!(refusal.words().contains(word), "{refusal}");
            assert_eq!(refusal.to_string(), format!("refused-{}: {}", refusal.number(), refusal.words()));
        }
    }

    #[test]
    #[should_panic(expected = "6 is no answer and no refusal")]
    fn no_call_gives_another_number() {
        Refusal::given(6);
    }
}
