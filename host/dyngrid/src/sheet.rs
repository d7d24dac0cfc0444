use crate::copy::number;
use std::error::Error;
use std::fmt;
use std::ops::RangeInclusive;

/// A sheet has a line for each club, three numbers of four bytes, and then its total.
const CLUBS: usize = 16;
const LINE: usize = 12;
const ASSURED: usize = 0;
const CEILING: usize = 4;
const COUNT: usize = 8;
const TOTAL: usize = CLUBS * LINE;
const BYTES: usize = TOTAL + 4;
/// No number of a sheet is higher.
const LIMIT: u32 = 1_000_000;

/// What a club may write until the counts start anew.
#[derive(Clone, Copy, Debug, PartialEq, Eq, Hash)]
pub struct Allowance {
    /// So many writes are its own: no other club can take them.
    pub assured: u32,
    /// It makes no more than so many; those above its assured number come from what the clubs share.
    pub ceiling: u32,
}

/// The clubs' shares of the writes: how many each may make, and how many it has made since the counts were last 0.
///
/// Lend it to [writes](crate::FileMut::write_for) and [rounds](crate::Table::round_with), which count for their clubs, and to
/// [checks](crate::Table::check_with), which set all counts to 0 where they change the list. Lend the same one to all of them, and
/// keep it with the table. Writes, rounds and checks without a sheet have no limits, and count for nobody.
///
/// A club below its assured number is never turned down for what others wrote. Above it a club takes, up to its ceiling, from what
/// the total leaves beyond all assured numbers.
///
/// Two junior leagues that upload in floods, and a club that must come through:
///
/// ```
/// use dyngrid::{Allowance, Refusal, Rows, Shape, Sheet, Table};
///
/// let junior = Allowance { assured: 2, ceiling: 4 };
/// let club = Allowance { assured: 3, ceiling: 3 };
/// // 7 are assured; of the 8 in all the clubs share one.
/// let mut sheet = Sheet::new(&[junior, junior, club], 8)?;
///
/// let mut table = Table::found(4, 16, &[1, 2, 3, 4], Shape::Wide)?;
/// let all = Rows::first(4);
/// let mut import = |club| table.file_mut(1).write_for(club, &mut sheet, 1, all, 0, b"1-0").map_err(Refusal::from);
/// assert_eq!([import(1), import(1), import(1)].map(|done| done.is_ok()), [true; 3]);
/// assert_eq!(import(1), Err(Refusal::NoneLeftToShare)); // it has its two, and the one that was shared
/// assert_eq!([import(2), import(2)].map(|done| done.is_ok()), [true; 2]);
/// assert_eq!(import(2), Err(Refusal::NoneLeftToShare));
/// assert_eq!([import(3), import(3), import(3)].map(|done| done.is_ok()), [true; 3]); // its own three
/// assert_eq!(import(3), Err(Refusal::NoMoreWrites));
/// assert_eq!(
///     sheet.to_string(),
///     "\
/// club  assured  ceiling     made     left
///    1        2        4        3        0
///    2        2        4        2        0
///    3        3        3        3        0
/// total 8: 7 assured, and 1 that the clubs share, of which 0 are left"
/// );
///
/// // A check that changes the list starts the counts anew.
/// table.check_with(&mut sheet, 1, Rows::first(3))?;
/// assert_eq!(sheet.club(1).map(|club| (club.made, club.left)), Some((0, 3)));
/// # Ok::<(), Box<dyn std::error::Error>>(())
/// ```
#[derive(Clone, PartialEq, Eq)]
pub struct Sheet {
    bytes: [u8; BYTES],
}

/// What a sheet tells of a club.
///
/// Later versions may tell more.
#[derive(Clone, Copy, Debug, PartialEq, Eq, Hash)]
#[non_exhaustive]
pub struct ClubView {
    /// The number of the club.
    pub club: usize,
    /// So many writes are its own.
    pub assured: u32,
    /// It makes no more than so many.
    pub ceiling: u32,
    /// So many it has made.
    pub made: u32,
    /// So many more it may make, if no other club makes one before.
    pub left: u32,
}

impl Sheet {
    /// A sheet for the clubs 1 upward, all counts 0. A club that is not named may write nothing.
    pub fn new(clubs: &[Allowance], total: u32) -> Result<Sheet, NotASheet> {
        if clubs.len() > CLUBS {
            return Err(NotASheet::TooManyClubs { clubs: clubs.len() });
        }
        let mut sheet = Sheet { bytes: [0; BYTES] };
        for (line, club) in sheet.bytes.chunks_exact_mut(LINE).zip(clubs) {
            line[ASSURED..CEILING].copy_from_slice(&club.assured.to_le_bytes());
            line[CEILING..COUNT].copy_from_slice(&club.ceiling.to_le_bytes());
        }
        sheet.bytes[TOTAL..].copy_from_slice(&total.to_le_bytes());
        sheet.judged()
    }

    /// Takes over the bytes of a sheet, as kept on a disk, with their counts.
    pub fn from_bytes(bytes: &[u8]) -> Result<Sheet, NotASheet> {
        let bytes = bytes.try_into().map_err(|_| NotASheet::WrongLength { length: bytes.len() })?;
        Sheet { bytes }.judged()
    }

    /// A sheet with no limit but its own: 1,000,000 writes of all clubs together.
    pub fn open() -> Sheet {
        Sheet::new(&[Allowance { assured: 0, ceiling: LIMIT }; CLUBS], LIMIT).expect("it keeps every rule")
    }

    /// Its bytes, to be kept.
    pub fn as_bytes(&self) -> &[u8] {
        &self.bytes
    }

    pub(crate) fn bytes_mut(&mut self) -> &mut [u8] {
        &mut self.bytes
    }

    /// How many writes there are in all.
    pub fn total(&self) -> u32 {
        number(&self.bytes, TOTAL)
    }

    /// How many of them are assured.
    pub fn assured(&self) -> u32 {
        self.clubs().map(|club| club.assured).sum()
    }

    /// How many are left of those that the clubs share.
    pub fn shared_left(&self) -> u32 {
        let beyond: u32 = self.lines().map(|[assured, _, made]| made.saturating_sub(assured)).sum();
        self.total() - self.lines().map(|[assured, ..]| assured).sum::<u32>() - beyond
    }

    /// What it tells of a club; none if that is none of 1 to 16.
    pub fn club(&self, club: usize) -> Option<ClubView> {
        let [assured, ceiling, made] = self.lines().nth(club.checked_sub(1)?)?;
        let left = (ceiling - made).min(assured.saturating_sub(made) + self.shared_left());
        Some(ClubView { club, assured, ceiling, made, left })
    }

    /// What it tells of each club.
    pub fn clubs(&self) -> impl Iterator<Item = ClubView> + '_ {
        const ALL: RangeInclusive<usize> = 1..=CLUBS;
        ALL.filter_map(|club| self.club(club))
    }

    /// Assured number, ceiling and count of each club.
    fn lines(&self) -> impl Iterator<Item = [u32; 3]> + '_ {
        self.bytes.chunks_exact(LINE).map(|line| [ASSURED, CEILING, COUNT].map(|at| number(line, at)))
    }

    /// The sheet, if it keeps every rule. The library judges it in each call, but says 1 and no more.
    fn judged(self) -> Result<Sheet, NotASheet> {
        let (mut all_assured, mut beyond) = (0_u64, 0_u64);
        for (club, [assured, ceiling, made]) in (1..).zip(self.lines()) {
            if ceiling > LIMIT {
                return Err(NotASheet::CeilingTooHigh { club, ceiling });
            } else if assured > ceiling {
                return Err(NotASheet::AssuredAboveCeiling { club, assured, ceiling });
            } else if made > ceiling {
                return Err(NotASheet::CountAboveCeiling { club, made, ceiling });
            }
            all_assured += u64::from(assured);
            beyond += u64::from(made.saturating_sub(assured));
        }
        let total = self.total();
        match u64::from(total).checked_sub(all_assured) {
            _ if total > LIMIT => Err(NotASheet::TotalTooHigh { total }),
            None => Err(NotASheet::TotalBelowAssured { total, assured: all_assured }),
            Some(shared) if beyond > shared => Err(NotASheet::SharedOverdrawn { taken: beyond, shared }),
            Some(_) => Ok(self),
        }
    }
}

/// As of [`Sheet::open`].
impl Default for Sheet {
    fn default() -> Sheet {
        Sheet::open()
    }
}

/// A line for each club that may write.
impl fmt::Display for Sheet {
    fn fmt(&self, f: &mut fmt::Formatter) -> fmt::Result {
        f.write_str("club  assured  ceiling     made     left")?;
        for ClubView { club, assured, ceiling, made, left } in self.clubs().filter(|club| club.ceiling > 0) {
            write!(f, "\n{club:>4}  {assured:>7}  {ceiling:>7}  {made:>7}  {left:>7}")?;
        }
        let (total, assured, left) = (self.total(), self.assured(), self.shared_left());
        let shared = total - assured;
        write!(
            f,
            "\ntotal {total}: {assured} assured, and {shared} that the clubs share, of which {left} are left"
        )
    }
}

/// Its total; the lines are left out.
impl fmt::Debug for Sheet {
    fn fmt(&self, f: &mut fmt::Formatter) -> fmt::Result {
        f.debug_struct("Sheet").field("total", &self.total()).finish_non_exhaustive()
    }
}

/// The rule that a sheet breaks. The library refuses such a sheet by 1.
///
/// Later versions may tell more reasons, so a `match` needs an arm for all others.
#[derive(Clone, Copy, Debug, PartialEq, Eq)]
#[non_exhaustive]
pub enum NotASheet {
    /// There are more than 16 clubs.
    TooManyClubs {
        /// So many.
        clubs: usize,
    },
    /// A sheet has 196 bytes.
    WrongLength {
        /// How many came.
        length: usize,
    },
    /// A ceiling is above 1,000,000.
    CeilingTooHigh {
        /// The club.
        club: usize,
        /// Its ceiling.
        ceiling: u32,
    },
    /// The assured number is above the ceiling.
    AssuredAboveCeiling {
        /// The club.
        club: usize,
        /// Its assured number.
        assured: u32,
        /// Its ceiling.
        ceiling: u32,
    },
    /// A club has made more writes than its ceiling.
    CountAboveCeiling {
        /// The club.
        club: usize,
        /// How many it has made.
        made: u32,
        /// Its ceiling.
        ceiling: u32,
    },
    /// The total is above 1,000,000.
    TotalTooHigh {
        /// The total.
        total: u32,
    },
    /// The total is below the assured numbers together.
    TotalBelowAssured {
        /// The total.
        total: u32,
        /// The assured numbers together.
        assured: u64,
    },
    /// The clubs have made more writes beyond their assured numbers than they share.
    SharedOverdrawn {
        /// So many have been made.
        taken: u64,
        /// So many are shared.
        shared: u64,
    },
}

impl fmt::Display for NotASheet {
    fn fmt(&self, f: &mut fmt::Formatter) -> fmt::Result {
        match self {
            NotASheet::TooManyClubs { clubs } => {
                write!(f, "{clubs} clubs are more than a sheet's 16: let some of them share one")
            }
            NotASheet::WrongLength { length } => {
                write!(f, "{length} bytes are no sheet: a sheet has 196; hand in a good copy")
            }
            NotASheet::CeilingTooHigh { club, ceiling } => {
                write!(f, "the ceiling {ceiling} of club {club} is above 1,000,000: lower it")
            }
            NotASheet::AssuredAboveCeiling { club, assured, ceiling } => {
                write!(f, "the assured number {assured} of club {club} is above its ceiling {ceiling}: raise the ceiling")
            }
            NotASheet::CountAboveCeiling { club, made, ceiling } => {
                write!(
                    f,
                    "club {club} has made {made} writes, above its ceiling {ceiling}: hand in a good copy"
                )
            }
            NotASheet::TotalTooHigh { total } => write!(f, "the total {total} is above 1,000,000: lower it"),
            NotASheet::TotalBelowAssured { total, assured } => {
                write!(f, "the total {total} is below the {assured} writes that are assured: raise it, or assure fewer")
            }
            NotASheet::SharedOverdrawn { taken, shared } => {
                write!(f, "{taken} writes are made of {shared} that the clubs share: hand in a good copy")
            }
        }
    }
}

impl Error for NotASheet {}
