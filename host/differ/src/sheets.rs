//! Sheets: right ones, most of them tight, ones that break a rule, and ones that a club cannot tell apart.

use crate::random::Random;
use reference::sheet::{Line, CLUBS, SHEET};
use reference::{Sheet, LIMIT};

/// A right sheet with little for each club and little that they share, or much; some counts are above 0 if they may be.
pub fn right(random: &mut Random, counted: bool) -> Sheet {
    let mut sheet = Sheet { lines: [Line::default(); CLUBS], total: 0 };
    for line in &mut sheet.lines {
        line.assured = random.pick(&[0, 0, 1, 2, 3]);
        line.ceiling = line.assured + random.pick(&[0, 0, 1, 2, 5, 300]);
        line.count = if counted { random.between(0, line.ceiling as usize) as u32 } else { 0 };
        if random.chance(1, 20) {
            line.ceiling = LIMIT;
        }
    }
    let left = random.pick(&[0, 0, 0, 1, 1, 2, 70_000]);
    sheet.total = used(&sheet) + left;
    // All that there is, assured to one club.
    if random.chance(1, 20) {
        let count = if counted { random.pick(&[0, LIMIT - 1, LIMIT]) } else { 0 };
        sheet.lines.iter_mut().for_each(|line| *line = Line { count: 0, assured: 0, ..*line });
        let line = random.between(0, CLUBS - 1);
        sheet.lines[line] = Line { assured: LIMIT, ceiling: LIMIT, count };
        sheet.total = LIMIT;
    }
    sheet
}

/// The total that leaves nothing to share.
fn used(sheet: &Sheet) -> u32 {
    sheet.lines.iter().map(|line| line.assured + line.beyond()).sum()
}

/// Another right sheet that has the same line of the club, and as much left to share if that counts: a write of the club must meet the
/// same answer.
pub fn alike(random: &mut Random, sheet: &Sheet, club: u64) -> Option<Sheet> {
    let mut other = right(random, true);
    if let Some(line) = sheet.line(club) {
        other.lines[club as usize - 1] = *line;
        let any = random.pick(&[0, 1, 5]);
        let left = if line.count < line.assured { any } else { sheet.remainder() };
        other.total = used(&other).checked_add(left)?;
    }
    Sheet::judge(&other.bytes())
}

/// The rules of a sheet: each is whether bytes, or the numbers of as many as a sheet has, break it.
pub const RULES: [(&str, Rule); 9] = [
    ("no byte", Rule::Bytes(|bytes| bytes.is_empty())),
    ("a byte short", Rule::Bytes(|bytes| bytes.len() == SHEET - 1)),
    ("a byte over", Rule::Bytes(|bytes| bytes.len() == SHEET + 1)),
    ("more assured than its ceiling", Rule::Line(|line| line.assured > line.ceiling)),
    ("a count above its ceiling", Rule::Line(|line| line.count > line.ceiling)),
    ("a ceiling above the limit", Rule::Line(|line| line.ceiling > LIMIT)),
    ("a total above the limit", Rule::Numbers(|sheet| sheet.total > LIMIT)),
    ("more assured than the total", Rule::Numbers(|sheet| all(sheet, |line| line.assured) > total(sheet))),
    (
        "more taken than is shared",
        Rule::Numbers(|sheet| {
            let assured = all(sheet, |line| line.assured);
            assured <= total(sheet) && assured + all(sheet, Line::beyond) > total(sheet)
        }),
    ),
];

pub enum Rule {
    Bytes(fn(&[u8]) -> bool),
    Line(fn(Line) -> bool),
    Numbers(fn(&Sheet) -> bool),
}

fn all(sheet: &Sheet, number: fn(Line) -> u32) -> u64 {
    sheet.lines.iter().map(|&line| u64::from(number(line))).sum()
}

fn total(sheet: &Sheet) -> u64 {
    sheet.total.into()
}

/// The place in `RULES` of the only rule that these bytes break.
pub fn only_broken(bytes: &[u8]) -> Option<usize> {
    let sheet = Sheet::read(bytes);
    let breaks = |rule: &Rule| match (rule, &sheet) {
        (Rule::Bytes(broken), _) => broken(bytes),
        (Rule::Line(broken), Some(sheet)) => sheet.lines.iter().any(|&line| broken(line)),
        (Rule::Numbers(broken), Some(sheet)) => broken(sheet),
        (_, None) => false,
    };
    let mut broken = (0..RULES.len()).filter(|&place| breaks(&RULES[place].1));
    broken.next().filter(|_| broken.next().is_none())
}

/// Bytes that are no sheet: most break one rule alone.
pub fn broken(random: &mut Random) -> Vec<u8> {
    let mut sheet = right(random, true);
    let place = random.between(0, CLUBS - 1);
    let line = &mut sheet.lines[place];
    match random.between(0, 11) {
        0 => return Vec::new(),
        1 => return sheet.bytes()[..SHEET - 1].to_vec(),
        2 => return [&sheet.bytes()[..], &[0]].concat(),
        3 => {
            *line = Line { assured: line.ceiling + 1, count: 0, ..*line };
            sheet.total = (used(&sheet) + 1).min(LIMIT);
        }
        4 => {
            line.count = line.ceiling + 1;
            sheet.total = (used(&sheet) + 1).min(LIMIT);
        }
        5 => line.ceiling = random.pick(&[LIMIT + 1, 1 << 24, u32::MAX]),
        6 => sheet.total = random.pick(&[LIMIT + 1, 1 << 24, u32::MAX]),
        7 => {
            line.assured = line.assured.max(1);
            line.ceiling = line.ceiling.max(1);
            sheet.lines.iter_mut().for_each(|line| line.count = 0);
            sheet.total = used(&sheet).min(LIMIT) - 1;
        }
        8 => {
            *line = Line { assured: 0, ceiling: line.ceiling.max(1), count: 1 };
            sheet.total = used(&sheet).min(LIMIT) - 1;
        }
        9 => *line = Line { assured: LIMIT + 1, ceiling: LIMIT + 1, count: random.pick(&[0, LIMIT + 1]) },
        10 => return vec![0xff; SHEET],
        _ => {
            let mut bytes = sheet.bytes().to_vec();
            bytes.resize(random.pick(&[1, 4, 12, 192, 200, 392]), 0);
            return bytes;
        }
    }
    sheet.bytes().to_vec()
}

#[cfg(test)]
mod tests {
    use super::*;

    /// Remainders of 0 and 1, clubs at their ceilings and below their assured numbers, and every rule broken alone.
    #[test]
    fn sheets_of_every_kind_are_made() {
        let (mut left, mut full, mut below, mut open, mut only) = ([0; 3], 0, 0, 0, [0; RULES.len()]);
        for case in 0..4_000 {
            let mut random = Random::new(13, case);
            let sheet = right(&mut random, case % 2 == 0);
            assert_eq!(Sheet::judge(&sheet.bytes()), Some(sheet), "case {case}");
            assert_eq!(only_broken(&sheet.bytes()), None);
            left[sheet.remainder().min(2) as usize] += 1;
            full += usize::from(sheet.lines.iter().any(|line| line.count == line.ceiling && line.count > 0));
            below += usize::from(sheet.lines.iter().any(|line| line.count < line.assured));
            open += usize::from(sheet.lines.iter().all(|line| line.count == 0));
            let bytes = broken(&mut random);
            assert!(Sheet::judge(&bytes).is_none(), "case {case}");
            only_broken(&bytes).into_iter().for_each(|rule| only[rule] += 1);
        }
        let counts = [&left[..], &[full, below, open]].concat();
        assert!(
            counts.iter().all(|&count| count > 200) && only.iter().all(|&count| count > 100),
            "{counts:?} {only:?}"
        );
    }

    #[test]
    fn sheets_that_a_club_cannot_tell_apart() {
        let (mut alike_one, mut others) = (0, 0);
        for case in 0..4_000 {
            let mut random = Random::new(14, case);
            let sheet = right(&mut random, true);
            let club = random.pick(&[0, 1, 2, 16, 17]);
            let Some(other) = alike(&mut random, &sheet, club) else { continue };
            assert_eq!((other.line(club), other.refusal(club)), (sheet.line(club), sheet.refusal(club)));
            alike_one += 1;
            others += usize::from(other.remainder() != sheet.remainder());
        }
        assert!(alike_one > 2_000 && others > 100, "{alike_one} {others}");
    }
}
