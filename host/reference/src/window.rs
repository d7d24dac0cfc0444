//! A row's window: its latest patches in records, chained from the oldest to the youngest.

/// The records of a window, the bytes of each and of all of them, and the longest patch that a record takes.
pub const RECORDS: usize = 16;
pub const RECORD: usize = 36;
pub const WINDOW: usize = RECORDS * RECORD;
pub const LONGEST_PATCH: usize = 32;

/// Where a record keeps its patch; before it come the next younger record's index, the length and the offset.
const PATCH: usize = 4;

/// The bytes of all records.
pub type Window = [u8; WINDOW];

/// One record of a window.
#[derive(Clone, Copy, Debug, PartialEq, Eq)]
pub struct Record {
    /// The next younger record's index; 0 for none.
    pub next: u8,
    pub length: usize,
    pub offset: usize,
    /// Where the patch lies in the window.
    pub at: usize,
}

/// The record of this index, 1 to 16.
pub fn record(window: &Window, index: u8) -> Record {
    let start = start(index);
    let [next, length, low, high] = *window[start..].first_chunk().expect("four bytes of 36");
    let offset = usize::from(u16::from_le_bytes([low, high]));
    Record { next, length: usize::from(length), offset, at: start + PATCH }
}

/// Is the window in order: a chain of its first records, one for a version, of patches that lie in the file, and zeros elsewhere?
pub fn fits(window: &Window, oldest: u8, version: u32, file_len: usize) -> bool {
    let (mut seen, mut count) = (0_u32, 0);
    let mut index = oldest;
    while index != 0 {
        if usize::from(index) > RECORDS || seen >> index & 1 == 1 {
            return false;
        }
        seen |= 1 << index;
        count += 1;
        index = window[start(index)];
    }
    // Bits 1 to the count.
    let first_records = (2 << count) - 2;
    let (records, rest) = window.split_at(count as usize * RECORD);
    seen == first_records
        && count <= version
        && records.as_chunks().0.iter().all(|record| holds_patch(record, file_len))
        && crate::table::all_zero(rest)
}

/// Has the record a patch of 1 to 32 bytes in the file, and zeros behind it?
fn holds_patch(record: &[u8; RECORD], file_len: usize) -> bool {
    let [_, length, low, high, ref patch @ ..] = *record;
    let (length, offset) = (usize::from(length), usize::from(u16::from_le_bytes([low, high])));
    if !(1..=LONGEST_PATCH).contains(&length) || offset + length > file_len {
        return false;
    }
    let ([first, second], [behind_first, behind_second]) = (halves(patch), halves(behind(length)));
    (first & behind_first | second & behind_second) == 0
}

/// Two numbers, which are handled faster than single bytes.
fn halves(bytes: &[u8; LONGEST_PATCH]) -> [u128; 2] {
    let half = |at: usize| u128::from_le_bytes(*bytes[at..].first_chunk().expect("16 bytes of 32"));
    [half(0), half(16)]
}

/// Marks what lies behind a patch of 0 to 32 bytes.
fn behind(length: usize) -> &'static [u8; LONGEST_PATCH] {
    static BEHIND: [[u8; LONGEST_PATCH]; 2] = [[0; LONGEST_PATCH], [0xff; LONGEST_PATCH]];
    BEHIND.as_flattened()[LONGEST_PATCH - length..].first_chunk().expect("32 bytes of 64")
}

/// How many records are in the chain, and the youngest; 0 and 0 for none.
pub fn chain(window: &Window, oldest: u8) -> (usize, u8) {
    let (mut count, mut youngest) = (0, 0);
    let mut index = oldest;
    while index != 0 {
        count += 1;
        youngest = index;
        index = window[start(index)];
    }
    (count, youngest)
}

/// Adds a patch: in the lowest free record, or else in that of the oldest. A long one empties the window. Gives the oldest
/// record then.
pub fn add(window: &mut Window, oldest: u8, offset: usize, patch: &[u8]) -> u8 {
    if patch.len() > LONGEST_PATCH {
        window.fill(0);
        return 0;
    }
    let (count, youngest) = chain(window, oldest);
    // Records 1 to the count are in use.
    let taken = if count < RECORDS { count as u8 + 1 } else { oldest };
    put(window, oldest, youngest, taken, offset, patch)
}

/// Puts a patch into a record: a free one, or that of the oldest. Gives the oldest record then.
pub fn put(window: &mut Window, oldest: u8, youngest: u8, taken: u8, offset: usize, patch: &[u8]) -> u8 {
    let oldest_then = match oldest {
        0 => taken,
        oldest if oldest == taken => window[start(oldest)],
        oldest => oldest,
    };
    if youngest != 0 {
        window[start(youngest)] = taken;
    }
    let record: &mut [u8; RECORD] = window[start(taken)..].first_chunk_mut().expect("a record");
    record.fill(0);
    record[1] = patch.len() as u8;
    record[2..PATCH].copy_from_slice(&(offset as u16).to_le_bytes());
    record[PATCH..PATCH + patch.len()].copy_from_slice(patch);
    // A lone record that was replaced led nowhere.
    if oldest_then == 0 {
        taken
    } else {
        oldest_then
    }
}

/// Where the record of this index begins.
fn start(index: u8) -> usize {
    RECORD * (usize::from(index) - 1)
}

#[cfg(test)]
mod tests {
    use super::*;

    const FILE_LEN: usize = 40;

    fn with(patches: impl IntoIterator<Item = (usize, Vec<u8>)>) -> (Window, u8) {
        let mut window = [0; WINDOW];
        let mut oldest = 0;
        for (offset, patch) in patches {
            oldest = add(&mut window, oldest, offset, &patch);
        }
        (window, oldest)
    }

    /// So many patches of one byte each, from 1 on.
    fn numbered(count: u8) -> (Window, u8) {
        with((1..=count).map(|number| (0, vec![number])))
    }

    /// The patches, oldest first.
    fn patches(window: &Window, oldest: u8) -> Vec<(usize, Vec<u8>)> {
        let mut patches = Vec::new();
        let mut index = oldest;
        while index != 0 {
            let Record { next, length, offset, at } = record(window, index);
            patches.push((offset, window[at..at + length].to_vec()));
            index = next;
        }
        patches
    }

    #[test]
    fn records_as_they_are_told() {
        let (window, oldest) = with([(7, vec![0xa1, 0xa2]), (258, vec![0xb1])]);
        let mut expected = [0; WINDOW];
        expected[..6].copy_from_slice(&[2, 2, 7, 0, 0xa1, 0xa2]);
        expected[36..41].copy_from_slice(&[0, 1, 2, 1, 0xb1]);
        assert_eq!((window, oldest), (expected, 1));
        assert_eq!(chain(&window, oldest), (2, 2));
    }

    /// The seventeenth takes the first record, the eighteenth the second, and so on.
    #[test]
    fn the_oldest_gives_way() {
        for count in 1..=40 {
            let (window, oldest) = numbered(count);
            let kept = count.min(16);
            assert_eq!(oldest, if count <= 16 { 1 } else { (count - 16) % 16 + 1 });
            assert_eq!(chain(&window, oldest), (kept.into(), (count - 1) % 16 + 1));
            let latest: Vec<_> = (count - kept + 1..=count).map(|number| (0, vec![number])).collect();
            assert_eq!(patches(&window, oldest), latest);
            assert!(fits(&window, oldest, kept.into(), FILE_LEN));
            assert!(!fits(&window, oldest, u32::from(kept) - 1, FILE_LEN));
        }
    }

    /// A patch that takes the place of a longer one leaves nothing of it.
    #[test]
    fn zeros_behind_a_short_patch() {
        let long_then_short = (0..32).map(|place| (0, vec![9; if place < 16 { 32 } else { 1 }]));
        let (window, oldest) = with(long_then_short);
        assert!(fits(&window, oldest, 16, FILE_LEN));
        assert_eq!(window.iter().filter(|&&byte| byte == 9).count(), 16 + 1);
    }

    #[test]
    fn a_long_patch_empties() {
        let long = |length| with([(0, vec![1]), (1, vec![2; 32]), (0, vec![3; length])]);
        assert_eq!(long(33), ([0; WINDOW], 0));
        let (window, oldest) = long(32);
        assert_eq!(patches(&window, oldest).len(), 3);
        assert!(fits(&window, oldest, 3, FILE_LEN));
        // The next patch takes the first record again.
        let (window, oldest) = with([(0, vec![1]), (0, vec![3; 33]), (5, vec![4])]);
        assert_eq!((oldest, patches(&window, oldest)), (1, vec![(5, vec![4])]));
    }

    #[test]
    fn every_rule_counts() {
        let (window, oldest) =
            with([(0, vec![7; 32]), (9, vec![8; 31]), (39, vec![9]), (0, vec![6; 16]), (0, vec![5; 17])]);
        let with_byte = |at: usize, byte: u8| {
            let mut altered = window;
            altered[at] = byte;
            fits(&altered, oldest, 5, FILE_LEN)
        };
        assert!(with_byte(0, 2));
        // Rings, records that are empty or none, a chain that leaves one out.
        assert!([1, 0, 3, 6, 17, 255].into_iter().all(|next| !with_byte(0, next)));
        assert!([1, 5, 6].into_iter().all(|next| !with_byte(4 * RECORD, next)));
        assert!([0, 2, 6, 17].into_iter().all(|oldest| !fits(&window, oldest, 5, FILE_LEN)));
        // Lengths, and ends beyond the file.
        assert!([0, 33, 255].into_iter().all(|length| !with_byte(1, length)));
        assert!(!with_byte(2, 9) && with_byte(2, 8) && !with_byte(3, 1) && !with_byte(2 * RECORD + 1, 2));
        // Zeros behind short patches, and in the records that are not used.
        for (record, length) in [(1, 31), (2, 1), (3, 16), (4, 17)] {
            for place in length..32 {
                assert!(!with_byte(record * RECORD + PATCH + place, 1));
            }
            assert!(with_byte(record * RECORD + PATCH + length - 1, 1));
        }
        assert!((5 * RECORD..WINDOW).all(|at| !with_byte(at, 1)));
        assert!(fits(&[0; WINDOW], 0, 0, 1) && !fits(&[0; WINDOW], 1, 9, 1));
    }
}
