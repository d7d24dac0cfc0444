use crate::{Call, Notice};
use std::error::Error;
use std::fmt;

/// Why a call was refused. A refused call alters nothing of its table or its buffer; of a [round](crate::Table::round) the orders before
/// the refused one are done.
///
/// Later versions of the library refuse for more reasons, so a `match` needs an arm for all others.
#[derive(Clone, Copy, Debug, PartialEq, Eq, Hash)]
#[non_exhaustive]
pub enum Refusal {
    /// 1: the table is not well formed.
    Malformed,
    /// 2: a row is not in use, or a send names one row twice.
    NoSuchRow,
    /// 3: the coordinator, or an end of a send, did not answer.
    NotAnswering,
    /// 4: the range is empty or ends beyond the file, or a round has a 65th order; in C also an order of a wrong length, a choice
    /// that is neither a read's nor a write's, and a notice of a call that there is not.
    OutOfRange,
    /// 5: the buffer is not exactly as long as the range, the list for the number called not one byte, a choice's list not
    /// eight, a chart's shorter than 128, or a notice's buffer not 160. From this wrapper it never comes.
    WrongBuffer,
    /// 6: the rows that answered hold no quorum.
    NoQuorum,
    /// 7: no row that answered is known to be current.
    NotCurrent,
    /// 8: the version, or the epoch, is at 1,000,000.
    AtLimit,
    /// 9: the sending row is stale itself.
    SenderStale,
    /// 10: the receiving row is not stale, or desires more than the sender has.
    ReceiverNotBehind,
    /// 11: the names are not 1 to 64, strictly rising, none 0, or the choice is neither wide nor tall.
    BadNames,
    /// 12: capacity, file length and number of files do not fit, or a table is to be carried over to the form that it has.
    BadSize,
    /// 13: the name of a joining is 0 or in use.
    NameNotFree,
    /// 14: no unused row is left to join in.
    NoRoom,
    /// 15: form 1 cannot hold the table, since a grid mark is not 0 or a row has no list.
    NotForm1,
    /// 16: the group has no file of that number.
    NoSuchFile,
    /// 17: a chart of no member or of more than nine, or with a grid mark that no list of that length can have.
    NoChart,
    /// 18: the club is at its ceiling, or there is no such club.
    NoMoreWrites,
    /// 19: the club has made its assured writes, and of those that the clubs share none is left.
    NoneLeftToShare,
    /// 20: a county is not one of 1 to 8, or there are not as many counties as names.
    BadCounties,
    /// A number that this wrapper has no name for: the archive is newer than the wrapper.
    Unknown(u32),
}

impl Refusal {
    /// Every refusal that has a name, in the order of their numbers.
    pub const ALL: [Refusal; 20] = [
        Refusal::Malformed,
        Refusal::NoSuchRow,
        Refusal::NotAnswering,
        Refusal::OutOfRange,
        Refusal::WrongBuffer,
        Refusal::NoQuorum,
        Refusal::NotCurrent,
        Refusal::AtLimit,
        Refusal::SenderStale,
        Refusal::ReceiverNotBehind,
        Refusal::BadNames,
        Refusal::BadSize,
        Refusal::NameNotFree,
        Refusal::NoRoom,
        Refusal::NotForm1,
        Refusal::NoSuchFile,
        Refusal::NoChart,
        Refusal::NoMoreWrites,
        Refusal::NoneLeftToShare,
        Refusal::BadCounties,
    ];

    /// Its number, as the library gave it.
    #[must_use]
    pub fn number(self) -> u32 {
        match self {
            Refusal::Malformed => 1,
            Refusal::NoSuchRow => 2,
            Refusal::NotAnswering => 3,
            Refusal::OutOfRange => 4,
            Refusal::WrongBuffer => 5,
            Refusal::NoQuorum => 6,
            Refusal::NotCurrent => 7,
            Refusal::AtLimit => 8,
            Refusal::SenderStale => 9,
            Refusal::ReceiverNotBehind => 10,
            Refusal::BadNames => 11,
            Refusal::BadSize => 12,
            Refusal::NameNotFree => 13,
            Refusal::NoRoom => 14,
            Refusal::NotForm1 => 15,
            Refusal::NoSuchFile => 16,
            Refusal::NoChart => 17,
            Refusal::NoMoreWrites => 18,
            Refusal::NoneLeftToShare => 19,
            Refusal::BadCounties => 20,
            Refusal::Unknown(number) => number,
        }
    }

    /// The refusal of this number; none for 0, which means done. A number without a name is kept as `Unknown`.
    #[must_use]
    pub fn from_number(number: u32) -> Option<Refusal> {
        let named = Refusal::ALL.into_iter().find(|refusal| refusal.number() == number);
        (number != 0).then(|| named.unwrap_or(Refusal::Unknown(number)))
    }

    /// The sentence that tells members of it: which call was refused, by the machine of which name, and why. The name is the
    /// coordinator's; calls that show none (see [`Call`]) show 0, whatever name is given.
    ///
    /// ```
    /// use dyngrid::{Call, Refusal};
    ///
    /// let notice = Refusal::NoQuorum.notice(Call::Write, 17);
    /// assert_eq!(
    ///     notice.to_string(),
    ///     "Call 03 by machine 00017, number 0000000006: write refused: too few machines answered, or not the right ones; \
    ///      switch on more of them and try again."
    /// );
    /// ```
    ///
    /// # Panics
    ///
    /// If the archive has another interface than this wrapper.
    #[must_use]
    pub fn notice(self, call: Call, name: u16) -> Notice {
        Notice::of(call, name, self.number())
    }
}

/// Its number, and the reason as its [notice](Refusal::notice) gives it, without call and name.
///
/// Panics if the archive has another interface than this wrapper.
impl fmt::Display for Refusal {
    fn fmt(&self, f: &mut fmt::Formatter) -> fmt::Result {
        // The reason is the same for every call.
        let notice = self.notice(Call::Notice, 0);
        write!(f, "refused by {}: {}", self.number(), notice.reason())
    }
}

impl Error for Refusal {}

/// The value of a result, or its refusal.
pub fn split(result: u64) -> Result<u32, Refusal> {
    Refusal::from_number((result >> 32) as u32).map_or(Ok(result as u32), Err)
}

#[cfg(test)]
mod tests {
    use super::*;

    #[test]
    fn a_result_is_split_into_refusal_and_value() {
        assert_eq!(split(7), Ok(7));
        assert_eq!(split(6 << 32), Err(Refusal::NoQuorum));
        assert_eq!(split(14 << 32), Err(Refusal::NoRoom));
        assert_eq!(split(16 << 32), Err(Refusal::NoSuchFile));
        assert_eq!(split(17 << 32), Err(Refusal::NoChart));
        assert_eq!(split(20 << 32), Err(Refusal::BadCounties));
        assert_eq!(split(21 << 32 | 5), Err(Refusal::Unknown(21)));
        assert_eq!(split(u64::MAX), Err(Refusal::Unknown(u32::MAX)));
    }
}
