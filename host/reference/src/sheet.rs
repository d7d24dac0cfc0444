//! The sheet of fair use: what each club is assured, the most that it may write, and how many writes it has made.

use crate::LIMIT;

pub const CLUBS: usize = 16;
/// The bytes of a sheet: a line for each club, and the total.
pub const SHEET: usize = LINE * CLUBS + 4;
/// The bytes of a line, and where it keeps the count.
pub const LINE: usize = 12;
pub const COUNT: usize = 8;

#[derive(Clone, Copy, Debug, Default, PartialEq, Eq)]
pub struct Line {
    pub assured: u32,
    pub ceiling: u32,
    pub count: u32,
}

impl Line {
    /// The writes beyond the assured number.
    pub fn beyond(self) -> u32 {
        self.count.saturating_sub(self.assured)
    }
}

#[derive(Clone, Copy, Debug, PartialEq, Eq)]
pub struct Sheet {
    /// That of club k at place k - 1.
    pub lines: [Line; CLUBS],
    pub total: u32,
}

impl Sheet {
    /// One that turns nobody down before 1,000,000 writes.
    pub const OPEN: Sheet =
        Sheet { lines: [Line { assured: 0, ceiling: LIMIT, count: 0 }; CLUBS], total: LIMIT };

    /// Reads a sheet, if it keeps every rule.
    pub fn judge(bytes: &[u8]) -> Option<Sheet> {
        Sheet::read(bytes).filter(Sheet::is_right)
    }

    /// Reads the numbers of a sheet.
    pub fn read(bytes: &[u8]) -> Option<Sheet> {
        let (bytes, _) =
            bytes.as_chunks::<4>().0.split_at_checked(SHEET / 4).filter(|_| bytes.len() == SHEET)?;
        let number = |place: usize| u32::from_le_bytes(bytes[place]);
        let mut lines = [Line::default(); CLUBS];
        for (club, line) in lines.iter_mut().enumerate() {
            let [assured, ceiling, count] = [0, 1, 2].map(|place| number(3 * club + place));
            *line = Line { assured, ceiling, count };
        }
        Some(Sheet { lines, total: number(3 * CLUBS) })
    }

    pub fn bytes(&self) -> [u8; SHEET] {
        let mut bytes = [0; SHEET];
        let numbers = self.lines.iter().flat_map(|line| [line.assured, line.ceiling, line.count]);
        for (place, number) in bytes.chunks_exact_mut(4).zip(numbers.chain([self.total])) {
            place.copy_from_slice(&number.to_le_bytes());
        }
        bytes
    }

    fn is_right(&self) -> bool {
        let lines_fit = self.lines.iter().all(|line| {
            let [assured, ceiling, count] = [line.assured, line.ceiling, line.count];
            assured <= LIMIT && ceiling <= LIMIT && count <= LIMIT && assured <= ceiling && count <= ceiling
        });
        lines_fit
            && self.total <= LIMIT
            && self.all_assured() <= self.total
            && self.shared() >= self.all_beyond()
    }

    /// How many writes the clubs have made.
    pub fn writes(&self) -> u64 {
        self.lines.iter().map(|line| u64::from(line.count)).sum()
    }

    /// What is left of the total beyond all assured numbers, on a sheet that is right.
    pub fn remainder(&self) -> u32 {
        self.shared() - self.all_beyond()
    }

    /// What the total leaves beyond all assured numbers.
    pub fn shared(&self) -> u32 {
        self.total - self.all_assured()
    }

    // Sixteen numbers of at most 1,000,000.
    fn all_assured(&self) -> u32 {
        self.lines.iter().map(|line| line.assured).sum()
    }

    fn all_beyond(&self) -> u32 {
        self.lines.iter().map(|line| line.beyond()).sum()
    }

    /// The line of a club, if there is such a club.
    pub fn line(&self, club: u64) -> Option<&Line> {
        (1..=CLUBS as u64).contains(&club).then(|| &self.lines[club as usize - 1])
    }

    /// By which number a write of the club is refused, if it is: 18, then 19.
    pub fn refusal(&self, club: u64) -> Option<u32> {
        match self.line(club) {
            None => Some(18),
            Some(line) if line.count >= line.ceiling => Some(18),
            Some(line) if line.count >= line.assured && self.remainder() == 0 => Some(19),
            Some(_) => None,
        }
    }
}

/// Adds a write of the club, which is one, to a sheet that is right.
pub fn add(bytes: &mut [u8], club: u64) {
    let count = count_mut(bytes, club as usize - 1);
    *count = (u32::from_le_bytes(*count) + 1).to_le_bytes();
}

/// Sets all counts to 0.
pub fn clear(bytes: &mut [u8]) {
    clear_first(bytes, CLUBS);
}

/// Sets the counts of so many clubs to 0.
pub fn clear_first(bytes: &mut [u8], clubs: usize) {
    (0..clubs).for_each(|place| *count_mut(bytes, place) = [0; 4]);
}

fn count_mut(bytes: &mut [u8], place: usize) -> &mut [u8; 4] {
    bytes[LINE * place + COUNT..].first_chunk_mut().expect("a sheet")
}

#[cfg(test)]
mod tests {
    use super::*;

    /// Clubs 1 and 2 have these lines, the others nothing.
    fn sheet(one: [u32; 3], two: [u32; 3], total: u32) -> Sheet {
        let mut sheet = Sheet { lines: [Line::default(); CLUBS], total };
        for (line, [assured, ceiling, count]) in sheet.lines.iter_mut().zip([one, two]) {
            *line = Line { assured, ceiling, count };
        }
        sheet
    }

    fn is_right(sheet: Sheet) -> bool {
        Sheet::judge(&sheet.bytes()).is_some()
    }

    #[test]
    fn a_sheet_in_bytes() {
        let mut bytes = vec![0; 196];
        bytes[12..24].copy_from_slice(&[1, 0, 0, 0, 0, 1, 0, 0, 2, 0, 0, 0]);
        bytes[192] = 3;
        let read = sheet([0; 3], [1, 256, 2], 3);
        assert_eq!((Sheet::judge(&bytes), &read.bytes()[..]), (Some(read), &bytes[..]));
        add(&mut bytes, 2);
        assert_eq!(bytes[12..24], [1, 0, 0, 0, 0, 1, 0, 0, 3, 0, 0, 0]);
        clear(&mut bytes);
        assert_eq!(Sheet::judge(&bytes), Some(sheet([0; 3], [1, 256, 0], 3)));
        for length in [0, 1, 192, 195, 197, 200, 392] {
            bytes.resize(length, 0);
            assert_eq!(Sheet::read(&bytes), None);
        }
    }

    #[test]
    fn every_rule_of_a_sheet_counts() {
        assert!(is_right(Sheet::OPEN) && is_right(sheet([0; 3], [0; 3], 0)));
        assert!(is_right(sheet([2, 2, 2], [3, 5, 5], 7)) && !is_right(sheet([2, 2, 2], [3, 5, 5], 6)));
        assert!(is_right(sheet([2, 3, 0], [3, 5, 5], 7)), "what one has not used is still its own");
        assert!(is_right(sheet([2, 2, 0], [3, 3, 0], 5)) && !is_right(sheet([2, 2, 0], [3, 3, 0], 4)));
        assert!(!is_right(sheet([3, 2, 0], [0; 3], 9)) && !is_right(sheet([0, 2, 3], [0; 3], 9)));
        let most = LIMIT;
        assert!(is_right(sheet([most; 3], [0; 3], most)) && is_right(sheet([0, most, most], [0; 3], most)));
        assert!(!is_right(sheet([0, most + 1, 0], [0; 3], most)));
        assert!(!is_right(sheet([0; 3], [0; 3], most + 1)) && !is_right(sheet([0; 3], [0; 3], 1 << 24)));
        assert!(!is_right(sheet([u32::MAX; 3], [u32::MAX; 3], u32::MAX)));
    }

    /// Two and three assured, and one that they share.
    #[test]
    fn refusals_by_18_and_19() {
        let refusals = |one: u32, two: u32| {
            let sheet = sheet([2, 3, one], [3, 5, two], 6);
            assert!(is_right(sheet));
            [1, 2].map(|club| sheet.refusal(club))
        };
        assert_eq!(refusals(0, 0), [None; 2]);
        assert_eq!(refusals(2, 3), [None; 2]);
        assert_eq!(refusals(3, 0), [Some(18), None]);
        assert_eq!(refusals(3, 2), [Some(18), None]);
        assert_eq!(refusals(3, 3), [Some(18), Some(19)]);
        assert_eq!(refusals(1, 4), [None, Some(19)]);
        assert_eq!(refusals(2, 4), [Some(19); 2]);
        for club in [0, 17, 255, 256, 257, (1 << 32) + 1, u64::MAX] {
            assert_eq!(Sheet::OPEN.refusal(club), Some(18));
        }
        assert!((1..=16).all(|club| Sheet::OPEN.refusal(club).is_none()));
        // At its ceiling and with nothing left, 18 comes first.
        assert_eq!(sheet([2, 2, 2], [0; 3], 2).refusal(1), Some(18));
    }

    /// Below its assured number a club is never turned down, and a done write leaves the sheet right.
    #[test]
    fn assured_writes_are_never_turned_down() {
        let numbers = || (0..4).flat_map(|assured| (assured..4).map(move |ceiling| (assured, ceiling)));
        for ((one, most), (two, most_of_two)) in numbers().flat_map(|a| numbers().map(move |b| (a, b))) {
            for (count, other, total) in (0..=most)
                .flat_map(|count| (0..=most_of_two).map(move |other| (count, other)))
                .flat_map(|(count, other)| (0..8).map(move |total| (count, other, total)))
            {
                let before = sheet([one, most, count], [two, most_of_two, other], total);
                if !is_right(before) {
                    continue;
                }
                let mut bytes = before.bytes();
                let refusal = before.refusal(1);
                assert!(count >= one || refusal.is_none());
                add(&mut bytes, 1);
                assert_eq!(Sheet::judge(&bytes).is_some(), refusal.is_none(), "{before:?}");
            }
        }
    }
}
