//! Several files on the same machines: each goes on as if it were alone, but that they share epochs, lists and checks.

mod random;

use dyngrid::{raw, Done, Refusal, Refused, Rows, Shape, Table};
use random::Random;

const HEADER: usize = 16;
const HEAD: usize = 32;

fn rows(rows: &[usize]) -> Rows {
    Rows::of(rows).expect("rows")
}

fn two_files() -> Table {
    Table::found_group(4, 8, &[10, 20, 30, 40], Shape::Wide, 2).expect("a plain founding")
}

fn row(table: &Table, row: usize) -> &[u8] {
    table.row_bytes(row).expect("in use")
}

fn copy(table: &Table, file: usize, number: usize) -> &[u8] {
    &row(table, number)[table.file(file).range().expect("a file of the group")]
}

/// A call on a file. A send tells its version, and that nobody was called.
enum Call {
    Read { by: usize, up: Rows, offset: usize, length: usize },
    Write { by: usize, up: Rows, offset: usize, patch: Vec<u8> },
    Send { from: usize, to: usize, up: Rows },
}

impl Call {
    fn random(random: &mut Random, table: &Table) -> Call {
        let by = 1 + random.below(table.used());
        let some = Rows::from_bits((random.below(1 << 30) | random.below(1 << 30)) as u64) & table.rows();
        let up = some | rows(&[by]);
        let length = 1 + random.below(36);
        let offset = random.below(table.file_len() + 1 - length);
        match random.below(8) {
            0 | 1 => Call::Read { by, up, offset, length },
            2 => Call::Send { from: 1 + random.below(table.used()), to: by, up: table.rows() },
            _ => {
                Call::Write { by, up, offset, patch: (0..length).map(|_| random.below(256) as u8).collect() }
            }
        }
    }

    fn answering(&self) -> Rows {
        match *self {
            Call::Read { up, .. } | Call::Write { up, .. } | Call::Send { up, .. } => up,
        }
    }

    /// Makes the call on a file; gives the answer, and what was read.
    fn make(&self, table: &mut Table, file: usize) -> (Result<Done, Refused>, Vec<u8>) {
        match *self {
            Call::Read { by, up, offset, length } => {
                let mut buffer = vec![0xa5; length];
                (table.file(file).read(by, up, offset, &mut buffer), buffer)
            }
            Call::Write { by, up, offset, ref patch } => {
                (table.file_mut(file).write(by, up, offset, patch), Vec::new())
            }
            Call::Send { from, to, up } => {
                let answer = table.file_mut(file).send(from, to, up);
                let done = answer.map(|version| Done { version, called: 0 });
                (done.map_err(|refusal| Refused { refusal, called: 0 }), Vec::new())
            }
        }
    }
}

/// The table of a call on one file as a relay may put it together: of each row that answers its head and its copy of that file.
fn gathered(table: &Table, file: usize, answering: Rows) -> Table {
    let given = |number: usize| {
        let mut given = vec![0; row(table, number).len()];
        for part in [0..HEAD, table.file(file).range().expect("a file of the group")] {
            given[part.clone()].copy_from_slice(&row(table, number)[part]);
        }
        (number, given)
    };
    Table::assemble(&table.frame(), answering.iter().map(given)).expect("rows of the table")
}

/// Beside the group each file has a table of its own. Reads, writes and sends have the same answers there and leave the same heads and
/// copies; a check is done in the group if it is done in all of them. Copies of other files stay, and may as well be zero.
#[test]
fn each_file_goes_on_as_if_it_were_alone() {
    let (mut blocked, mut checked, mut done) = (0, 0, 0);
    for seed in 1..=80_u64 {
        let mut random = Random::new(seed);
        let (machines, files) = (3 + random.below(4), 1 + random.below(8));
        let names: Vec<u16> = (1..=machines as u16).map(|rank| 40 * rank).collect();
        let shape = [Shape::Wide, Shape::Tall][random.below(2)];
        let found =
            |files| Table::found_group(machines + 1, 40, &names, shape, files).expect("a plain founding");
        let (mut group, mut alone) = (found(files), vec![found(1); files]);
        for step in 0..120 {
            let at = format!("seed {seed}, step {step}");
            match random.below(9) {
                0 => {
                    let name = random.below(600) as u16;
                    let joined = group.join(name);
                    assert!(alone.iter_mut().all(|table| table.join(name) == joined), "{at}");
                }
                1 | 2 => {
                    let by = 1 + random.below(group.used());
                    let up = Rows::from_bits(random.below(1 << 10) as u64) & group.rows() | rows(&[by]);
                    let mut after = alone.clone();
                    let answers: Vec<_> = after.iter_mut().map(|table| table.check(by, up)).collect();
                    let refused = answers.iter().copied().find(Result::is_err);
                    assert_eq!(group.check(by, up), refused.unwrap_or(answers[0]), "{at}: {answers:?}");
                    match refused {
                        None => (alone, checked) = (after, checked + 1),
                        Some(_) => blocked += u32::from(answers.iter().any(Result::is_ok)),
                    }
                }
                _ => {
                    let (call, file) = (Call::random(&mut random, &group), 1 + random.below(files));
                    let (before, mut relayed) = (group.clone(), gathered(&group, file, call.answering()));
                    let (zeros, answer) = (relayed.clone(), call.make(&mut group, file));
                    assert_eq!(call.make(&mut alone[file - 1], 1), answer, "{at}");
                    assert_eq!(call.make(&mut relayed, file), answer, "{at}");
                    for row in call.answering() {
                        assert_eq!(
                            group.changed_ranges(&before, row),
                            relayed.changed_ranges(&zeros, row),
                            "{at}"
                        );
                        assert_eq!(copy(&group, file, row), copy(&relayed, file, row), "{at}");
                    }
                    done += u32::from(answer.0.is_ok());
                }
            }
            let header = |table: &Table| [&table.as_bytes()[..6], &table.as_bytes()[7..HEADER]].concat();
            for (file, alone) in (1..).zip(&alone) {
                assert_eq!((header(alone), alone.rows()), (header(&group), group.rows()), "{at}");
                for number in group.rows() {
                    assert_eq!(row(&group, number)[..HEAD], row(alone, number)[..HEAD], "{at}, row {number}");
                    assert_eq!(
                        copy(&group, file, number),
                        copy(alone, 1, number),
                        "{at}, file {file}, row {number}"
                    );
                }
            }
        }
    }
    println!(
        "{done} calls done, {checked} checks done, {blocked} blocked by one file while another was current"
    );
    assert!(done > 2_000 && checked > 300 && blocked > 30, "{done} {checked} {blocked}");
}

/// 16 after 1 to 3, and before everything else; nobody is called, and no byte is altered.
#[test]
fn a_file_that_is_not_in_the_group() {
    let founded = two_files();
    let (all, mut buffer) = (founded.rows(), [7; 3]);
    let refused = |refusal| Err(Refused { refusal, called: 0 });
    for file in [0, 3, 8, 9, 257, (1 << 32) + 1, usize::MAX] {
        let mut table = founded.clone();
        // The row is not in use; the coordinator does not answer; the range is too long.
        for (by, up, offset, refusal) in [
            (5, all, 0, Refusal::NoSuchRow),
            (1, rows(&[2]), 0, Refusal::NotAnswering),
            (1, all, 0, Refusal::NoSuchFile),
            (1, all, 7, Refusal::NoSuchFile),
            (1, rows(&[1]), 0, Refusal::NoSuchFile),
        ] {
            assert_eq!(table.file(file).read(by, up, offset, &mut buffer), refused(refusal), "{file}");
            assert_eq!(table.file_mut(file).write(by, up, offset, b"1-0"), refused(refusal), "{file}");
        }
        for (from, to, up, refusal) in [
            (1, 1, all, Refusal::NoSuchRow),
            (1, 2, rows(&[1]), Refusal::NotAnswering),
            (1, 2, all, Refusal::NoSuchFile),
        ] {
            assert_eq!(table.file_mut(file).send(from, to, up), Err(refusal), "{file}");
        }
        let bytes = table.as_bytes();
        let mut called = [9];
        // SAFETY: the slices are live for the call and apart.
        let result = unsafe {
            let (lent, length) = (buffer.as_mut_ptr(), buffer.len());
            let called = called.as_mut_ptr();
            raw::grid_read(bytes.as_ptr(), bytes.len(), 1, 0b1111, 0, 2, lent, length, called, 1, file as u64)
        };
        assert_eq!((result, called), (16 << 32, [0]), "before the buffer's length");
        assert!(table.file(file).range().is_none() && table.file(file).contents_range().is_none());
        assert!(table.file(file).sends().is_empty() && table.file(file).window(1).is_empty());
        assert_eq!((&table, buffer), (&founded, [7; 3]));
    }
}

/// 1 to 8 files, else 12; names come first. The table's length tells how many there are.
#[test]
fn foundings_of_so_many_files() {
    for (files, file_len) in (1..=8).flat_map(|files| [(files, 1), (files, 300), (files, 4096)]) {
        let table = Table::found_group(3, file_len, &[1, 2], Shape::Wide, files).expect("a plain founding");
        assert_eq!((table.files(), table.file_len(), table.used()), (files, file_len, 2));
        assert_eq!(table.as_bytes().len(), 16 + 3 * (32 + files * (588 + file_len)));
        assert_eq!(Table::from_bytes(table.as_bytes().to_vec()), Ok(table.clone()));
        for other in (0..=9).filter(|&other| other != files) {
            let mut bytes = table.as_bytes().to_vec();
            bytes[6] = other as u8;
            assert!(Table::from_bytes(bytes).is_err(), "{other} files in a table of {files}");
        }
    }
    assert_eq!(Table::found_group(3, 4, &[1, 2], Shape::Wide, 1), Table::found(3, 4, &[1, 2], Shape::Wide));
    for files in [0, 9, 256 + 1, (1 << 32) + 1, usize::MAX] {
        assert_eq!(Table::found_group(3, 4, &[1, 2], Shape::Tall, files), Err(Refusal::BadSize), "{files}");
        assert_eq!(Table::found_group(3, 4, &[2, 1], Shape::Wide, files), Err(Refusal::BadNames), "{files}");
    }
}

/// Byte for byte, as the header tells it.
#[test]
fn what_a_group_is_in_bytes() {
    let mut table = two_files();
    assert_eq!(table.as_bytes()[..HEADER], [5, 4, 4, 1, 8, 0, 2, 0, 0, 0, 0, 0, 0, 0, 0, 0]);
    let [first, second] = [1, 2].map(|file| table.file(file).range().expect("a file of the group"));
    assert_eq!((first, second, row(&table, 1).len()), (32..32 + 596, 628..628 + 596, 1224));
    assert_eq!([1, 2].map(|file| table.file(file).contents_range()), [Some(44..52), Some(640..648)]);

    table.file_mut(2).write(1, rows(&[1, 2, 3]), 0, b"0:47").expect("a quorum answers");
    table.file_mut(2).write(1, rows(&[1, 2, 4]), 4, b"1:02").expect("a quorum answers");
    let head = |name: u8, link: u8| {
        let mut head = [0; HEAD];
        (head[0], head[2], head[16], head[26]) = (name, link, 0b1111, 1);
        head
    };
    for (number, link) in [(1, 2), (2, 3), (3, 4), (4, 0)] {
        assert_eq!(row(&table, number)[..HEAD], head(10 * number as u8, link));
        assert_eq!(copy(&table, 1, number), [0; 596], "file 1 was never written");
    }
    let second = copy(&table, 2, 1);
    assert_eq!(
        (&second[..12], &second[12..20]),
        (&[0, 1, 0, 0, 2, 0, 0, 0, 0, 0, 0, 0][..], &b"0:471:02"[..])
    );
    assert_eq!((&second[20..28], &second[56..64]), (&b"\x02\x04\0\x000:47"[..], &b"\0\x04\x04\x001:02"[..]));
    assert_eq!(second, copy(&table, 2, 2));
    assert_eq!(copy(&table, 2, 3)[..20], *b"\0\x01\0\0\x01\0\0\0\0\0\0\x000:47\0\0\0\0");
    assert_eq!(copy(&table, 2, 4)[..20], *b"\x01\0\0\0\0\0\0\0\x02\0\0\0\0\0\0\0\0\0\0\0");

    // A check alters heads, and of each file the copies that lack writes.
    let before = table.clone();
    assert_eq!(table.check(1, rows(&[1, 3, 4])), Ok(1));
    assert_eq!(table.changed(&before), rows(&[1, 3, 4]));
    for number in [1, 3, 4] {
        assert_eq!(row(&table, number)[12..24], [1, 0, 0, 0, 0b1101, 0, 0, 0, 0, 0, 0, 0]);
        assert_eq!(copy(&table, 1, number), [0; 596], "file 1 is current everywhere");
    }
    assert_eq!(copy(&table, 2, 1), copy(&before, 2, 1));
    assert_eq!(copy(&table, 2, 3)[..12], [1, 1, 0, 0, 1, 0, 0, 0, 2, 0, 0, 0]);
}

/// The limit of a million counts the writes of one file.
#[test]
fn a_million_writes_of_one_file() {
    let mut bytes = two_files().into_bytes();
    for number in 0..4 {
        bytes[HEADER + 1224 * number + HEAD + 4..][..4].copy_from_slice(&1_000_000_u32.to_le_bytes());
    }
    let mut table = Table::from_bytes(bytes).expect("well formed");
    let all = table.rows();
    assert_eq!(table.file(1).read(1, all, 0, &mut [0]).map(|done| done.version), Ok(1_000_000));
    assert_eq!(table.file_mut(1).write(1, all, 0, b"1").map_err(Refusal::from), Err(Refusal::AtLimit));
    assert_eq!(table.file_mut(2).write(1, all, 0, b"1").map(|done| done.version), Ok(1));
}
