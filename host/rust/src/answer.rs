//! The answers of document 01's table.

use std::fmt;

/// What a tick or a run answers, with document 01's numbers and words.
#[derive(Clone, Copy, PartialEq, Eq, Hash, Debug)]
#[repr(u8)]
pub enum Answer {
    /// The core was busy; the offer was not looked at.
    Waited = 16,
    /// The offered interrupt was entered, and nothing fetched.
    Entered = 17,
    /// An instruction ran.
    Ran = 18,
    /// SLEEP, executed as a no-op.
    Sleep = 19,
    /// WDR, executed as a no-op.
    Watchdog = 20,
    /// A word that is no instruction, executed as a no-op.
    Undefined = 21,
    /// BREAK. A later tick goes on behind it.
    Break = 22,
    /// PC is 65,535.
    End = 23,
    /// A run did all its ticks, none of them break, end or refused.
    Budget = 24,
}

use Answer::*;

impl Answer {
    /// Every answer, by its number.
    pub const ALL: &'static [Answer] = &[Waited, Entered, Ran, Sleep, Watchdog, Undefined, Break, End, Budget];

    /// Its number in document 01's table.
    ///
    /// ```
    /// assert_eq!(avr_core::Answer::Break.number(), 22);
    /// ```
    pub const fn number(self) -> u32 {
        self as u32
    }

    /// The answer with this number. Nothing where no answer has it.
    ///
    /// ```
    /// use avr_core::Answer;
    /// assert_eq!(Answer::from_number(18), Some(Answer::Ran));
    /// assert_eq!(Answer::from_number(3), None);
    /// ```
    pub fn from_number(number: u32) -> Option<Answer> {
        let place = number.checked_sub(Waited.number())?;
        Answer::ALL.get(usize::try_from(place).ok()?).copied()
    }

    /// Its word in document 01's table, which it is also shown as.
    ///
    /// ```
    /// use avr_core::Answer;
    /// assert_eq!(Answer::Watchdog.word(), "watchdog");
    /// assert_eq!(Answer::Watchdog.to_string(), "watchdog");
    /// ```
    pub const fn word(self) -> &'static str {
        match self {
            Waited => "waited",
            Entered => "entered",
            Ran => "ran",
            Sleep => "sleep",
            Watchdog => "watchdog",
            Undefined => "undefined",
            Break => "break",
            End => "end",
            Budget => "budget",
        }
    }
}

impl fmt::Display for Answer {
    fn fmt(&self, formatter: &mut fmt::Formatter) -> fmt::Result {
        formatter.pad(self.word())
    }
}

#[cfg(test)]
mod tests {
    use super::*;

    #[test]
    fn each_has_document_01s_number_and_word() {
        let table = "16 waited, 17 entered, 18 ran, 19 sleep, 20 watchdog, 21 undefined, 22 break, 23 end, 24 budget";
        let said: Vec<String> = Answer::ALL.iter().map(|answer| format!("{} {answer}", answer.number())).collect();
        assert_eq!(said.join(", "), table);
    }

    #[test]
    fn each_is_found_by_its_number_and_nothing_by_others() {
        assert!(Answer::ALL.iter().all(|&answer| Answer::from_number(answer.number()) == Some(answer)));
        assert!((0..16).chain(25..1_000).chain([u32::MAX]).all(|number| Answer::from_number(number).is_none()));
    }
}
