//! Mistakes to make on purpose: each turns the engine into a wrong one that the tests must find.

use crate::engine::Transfer;
use crate::rows::{self, Order};
use crate::sheet::{self, Sheet};
use crate::window::{self, Window, LONGEST_PATCH};
use crate::{
    Counties, Grid, Laid, Layout, Quorum, Row, Rules, Shape, Table, COUNTY, HEADER, ROW_HEADER, SEVERAL,
};

#[derive(Clone, Copy, Debug, PartialEq, Eq)]
pub enum Blunder {
    /// Rows outside the list count towards a quorum.
    OutsidersCount,
    /// A short column is whole only with as many rows as a long one.
    ShortColumnWhole,
    /// The versions that stale rows desire are not looked at.
    DesiredIgnored,
    /// A write marks with the version before it.
    OldMark,
    /// A write quorum of three takes all three.
    AllOfThree,
    /// A write is done, and the table is left as it was.
    WriteForgotten,
    /// The first write is stored; later ones only raise versions.
    FirstWriteOnly,
    /// The coordinator's own choice is never tried.
    NoChoice,
    /// Fewer answers than a majority are refused by 6 before anyone looks who answered.
    SixByCount,
    /// A read copies from the good row of highest index.
    HighestGood,
    /// A joining puts the new row behind the row that should follow it.
    LinkTooFar,
    /// A row with an empty list is not passed over in finding the highest epoch.
    UnlistedEpoch,
    /// An empty list has a read quorum in any set, since it has no column without a member.
    VacuousQuorum,
    /// The own choice is made in the published grid, whatever the list's mark.
    PublishedChoice,
    /// A check lays the new list with the mark of the old one.
    OldGrid,
    /// Rows of one epoch may have lists of two marks.
    MarksOfEpoch,
    /// A check lays the new list wide, also in a tall table.
    NeverTall,
    /// A check lays the new list in the shape of the coordinator's own list.
    CoordinatorsShape,
    /// Lists of two epochs may have two shapes.
    ShapesOfTable,
    /// A chart lists write quorums that hold a smaller one, too.
    LargerQuorums,
    /// A chart clears the places that it does not use.
    PlacesCleared,
    /// A chart looks at its list before it looks at length and mark.
    ShortListFirst,
    /// A list of any length can have mark 1.
    FiveOfAnyLength,
    /// A chart looks at the low byte of the mark only.
    MarkOfAByte,
    /// Of the coordinator's own choice, those that did not answer do not count as called.
    AnsweringCalled,
    /// All used rows count as called, also where the own choice was enough.
    AllCalled,
    /// A refused call does not say how many were called.
    CalledWhenDone,
    /// A list of more than one byte is told how many were called, too.
    CalledAtAnyLength,
    /// A write looks at the list for how many were called before it looks at the range.
    CalledLengthFirst,
    /// A call that is refused by 6 called nobody.
    NoneCalledBySix,
    /// A read's choice is told as the write's.
    WriteChoiceTold,
    /// A choice is told as the published grid has it, whatever the list's mark.
    PublishedChoiceTold,
    /// A choice is told over the list of the highest epoch, and not over the coordinator's own.
    NewestChoiceTold,
    /// Of a row with an empty list all used rows are told as its choice.
    AllChosen,
    /// A choice looks at the low byte of the kind only.
    KindOfAByte,
    /// A choice goes into a list of any length, as far as it has room, and is refused all the same.
    SetAtAnyLength,
    /// A send from a stale row is listed among those that would be done.
    StaleSender,
    /// A send to a row that is behind without a mark is listed, too.
    BehindReceiver,
    /// A send goes by the sender's window also where it reaches back to the version after the receiver's only.
    ReachTooFar,
    /// A send lays the missing patches younger first.
    YoungerFirst,
    /// The receiver of a send keeps its own window.
    WindowKept,
    /// A patch of 32 bytes empties the window.
    LongestEmpties,
    /// A patch takes the oldest record although another one is free.
    RecordPassedOver,
    /// A move looks at forms and length before it looks at lists.
    FormsFirst,
    /// A move to an older form keeps the index of the oldest record.
    OldestCarried,
    /// A move to form 3 leaves what lay in the buffer where the windows are.
    WindowsLeft,
    /// A move to form 1 looks at lists only if it comes from form 3.
    MovableListsOnly,
    /// A read or write asks the rows about the first file, whichever it names.
    FirstFilePolled,
    /// A write stores what it does in the first file.
    FirstFileWritten,
    /// A check asks whether the rows that answered are current for the last file only.
    LastFileCurrent,
    /// A check marks with the good version of the first file.
    FirstFileMarks,
    /// A read or write looks at the range before it looks at the number of the file.
    FileAfterRange,
    /// A call looks at the low byte of a file's number only.
    FileOfAByte,
    /// For a write, too, a county counts where the set holds a read quorum.
    ReadBelow,
    /// The own choice of a write takes a read's choice in each county.
    ReadChoiceBelow,
    /// The own choice is made in every county, and not in those that a choice above has.
    AllCountiesChosen,
    /// The counties lie above in the chain order of their first members.
    CountiesInChainOrder,
    /// A check lays a list as one of several counties if the used rows are of several.
    SeveralOfAll,
    /// A list without mark 3 is taken for one of a single county, in a tall table too.
    OneLevelByMark,
    /// County 0 is one.
    CountyZero,
    /// A list of several counties is laid with mark 3 in a tall table, too.
    SeveralInTall,
    /// A founding looks at counties before it looks at sizes.
    CountiesFirst,
    /// A joining looks at the county before it looks for an unused row.
    CountyBeforeRoom,
    /// A joining looks at the low byte of the county only.
    CountyOfAByte,
    /// A chart is given for mark 3.
    SeveralCharted,
    /// A club at its ceiling may write on.
    CeilingPassed,
    /// What the total leaves beyond all assured numbers is taken as if nobody had taken of it.
    SharedNeverSpent,
    /// A club below its assured number is turned down when the others have spent the remainder.
    AssuredTurnedDown,
    /// A check that changes nothing sets the counts to 0, too.
    SameListClears,
    /// A check that changes the list leaves the counts.
    CountsKept,
    /// A check leaves the count of the last club.
    FifteenCleared,
    /// A refused write counts, too.
    RefusedCounts,
    /// 19 is asked before 18.
    SpentFirst,
    /// 8 is asked before 18 and 19.
    LimitBeforeClub,
    /// A club outside 1 to 16 is refused before anyone looks at the quorum.
    ClubBeforeQuorum,
    /// A write looks at the low byte of the club only.
    ClubOfAByte,
    /// A sheet is looked at after questions 2 and 3.
    SheetAfterRows,
    /// A check that changes nothing does not look at the sheet.
    SheetOfChangesOnly,
    /// A longer sheet is taken for its first 196 bytes.
    LongSheet,
    /// A 65th order of a round is done, too.
    SixtyFifthDone,
    /// A refused round has value 0.
    RefusedRoundsTellNone,
    /// Of a list that ends inside an order the whole ones are done.
    BrokenListBegun,
    /// A list that ends inside an order is refused before anything is asked.
    BrokenListFirst,
    /// An order of more than eight bytes is taken for one of eight.
    NineAsEight,
    /// An order's length is looked at before its other questions are put.
    OrdersLengthFirst,
    /// All orders of a round go to the file of the first.
    FirstOrdersFile,
    /// All orders of a round count for the club of the first.
    FirstOrdersClub,
    /// A round without orders does not look at the sheet.
    EmptyRoundsSheet,
    /// A round goes on after an order that was refused.
    RoundGoesOn,
    /// A refused round undoes what was done before.
    RoundUndone,
    /// A round counts its orders when all are done: each is judged by the sheet as it was lent.
    CountedAtTheEnd,
}

impl Blunder {
    pub const ALL: [Blunder; 91] = [
        Blunder::OutsidersCount,
        Blunder::ShortColumnWhole,
        Blunder::DesiredIgnored,
        Blunder::OldMark,
        Blunder::AllOfThree,
        Blunder::WriteForgotten,
        Blunder::FirstWriteOnly,
        Blunder::NoChoice,
        Blunder::SixByCount,
        Blunder::HighestGood,
        Blunder::LinkTooFar,
        Blunder::UnlistedEpoch,
        Blunder::VacuousQuorum,
        Blunder::PublishedChoice,
        Blunder::OldGrid,
        Blunder::MarksOfEpoch,
        Blunder::NeverTall,
        Blunder::CoordinatorsShape,
        Blunder::ShapesOfTable,
        Blunder::LargerQuorums,
        Blunder::PlacesCleared,
        Blunder::ShortListFirst,
        Blunder::FiveOfAnyLength,
        Blunder::MarkOfAByte,
        Blunder::AnsweringCalled,
        Blunder::AllCalled,
        Blunder::CalledWhenDone,
        Blunder::CalledAtAnyLength,
        Blunder::CalledLengthFirst,
        Blunder::NoneCalledBySix,
        Blunder::WriteChoiceTold,
        Blunder::PublishedChoiceTold,
        Blunder::NewestChoiceTold,
        Blunder::AllChosen,
        Blunder::KindOfAByte,
        Blunder::SetAtAnyLength,
        Blunder::StaleSender,
        Blunder::BehindReceiver,
        Blunder::ReachTooFar,
        Blunder::YoungerFirst,
        Blunder::WindowKept,
        Blunder::LongestEmpties,
        Blunder::RecordPassedOver,
        Blunder::FormsFirst,
        Blunder::OldestCarried,
        Blunder::WindowsLeft,
        Blunder::MovableListsOnly,
        Blunder::FirstFilePolled,
        Blunder::FirstFileWritten,
        Blunder::LastFileCurrent,
        Blunder::FirstFileMarks,
        Blunder::FileAfterRange,
        Blunder::FileOfAByte,
        Blunder::ReadBelow,
        Blunder::ReadChoiceBelow,
        Blunder::AllCountiesChosen,
        Blunder::CountiesInChainOrder,
        Blunder::SeveralOfAll,
        Blunder::OneLevelByMark,
        Blunder::CountyZero,
        Blunder::SeveralInTall,
        Blunder::CountiesFirst,
        Blunder::CountyBeforeRoom,
        Blunder::CountyOfAByte,
        Blunder::SeveralCharted,
        Blunder::CeilingPassed,
        Blunder::SharedNeverSpent,
        Blunder::AssuredTurnedDown,
        Blunder::SameListClears,
        Blunder::CountsKept,
        Blunder::FifteenCleared,
        Blunder::RefusedCounts,
        Blunder::SpentFirst,
        Blunder::LimitBeforeClub,
        Blunder::ClubBeforeQuorum,
        Blunder::ClubOfAByte,
        Blunder::SheetAfterRows,
        Blunder::SheetOfChangesOnly,
        Blunder::LongSheet,
        Blunder::SixtyFifthDone,
        Blunder::RefusedRoundsTellNone,
        Blunder::BrokenListBegun,
        Blunder::BrokenListFirst,
        Blunder::NineAsEight,
        Blunder::OrdersLengthFirst,
        Blunder::FirstOrdersFile,
        Blunder::FirstOrdersClub,
        Blunder::EmptyRoundsSheet,
        Blunder::RoundGoesOn,
        Blunder::RoundUndone,
        Blunder::CountedAtTheEnd,
    ];

    /// Its name on a command line.
    pub fn name(self) -> &'static str {
        match self {
            Blunder::OutsidersCount => "outsiders-count",
            Blunder::ShortColumnWhole => "short-column-whole",
            Blunder::DesiredIgnored => "desired-ignored",
            Blunder::OldMark => "old-mark",
            Blunder::AllOfThree => "all-of-three",
            Blunder::WriteForgotten => "write-forgotten",
            Blunder::FirstWriteOnly => "first-write-only",
            Blunder::NoChoice => "no-choice",
            Blunder::SixByCount => "six-by-count",
            Blunder::HighestGood => "highest-good",
            Blunder::LinkTooFar => "link-too-far",
            Blunder::UnlistedEpoch => "unlisted-epoch",
            Blunder::VacuousQuorum => "vacuous-quorum",
            Blunder::PublishedChoice => "published-choice",
            Blunder::OldGrid => "old-grid",
            Blunder::MarksOfEpoch => "marks-of-epoch",
            Blunder::NeverTall => "never-tall",
            Blunder::CoordinatorsShape => "coordinators-shape",
            Blunder::ShapesOfTable => "shapes-of-table",
            Blunder::LargerQuorums => "larger-quorums",
            Blunder::PlacesCleared => "places-cleared",
            Blunder::ShortListFirst => "short-list-first",
            Blunder::FiveOfAnyLength => "five-of-any-length",
            Blunder::MarkOfAByte => "mark-of-a-byte",
            Blunder::AnsweringCalled => "answering-called",
            Blunder::AllCalled => "all-called",
            Blunder::CalledWhenDone => "called-when-done",
            Blunder::CalledAtAnyLength => "called-at-any-length",
            Blunder::CalledLengthFirst => "called-length-first",
            Blunder::NoneCalledBySix => "none-called-by-six",
            Blunder::WriteChoiceTold => "write-choice-told",
            Blunder::PublishedChoiceTold => "published-choice-told",
            Blunder::NewestChoiceTold => "newest-choice-told",
            Blunder::AllChosen => "all-chosen",
            Blunder::KindOfAByte => "kind-of-a-byte",
            Blunder::SetAtAnyLength => "set-at-any-length",
            Blunder::StaleSender => "stale-sender",
            Blunder::BehindReceiver => "behind-receiver",
            Blunder::ReachTooFar => "reach-too-far",
            Blunder::YoungerFirst => "younger-first",
            Blunder::WindowKept => "window-kept",
            Blunder::LongestEmpties => "longest-empties",
            Blunder::RecordPassedOver => "record-passed-over",
            Blunder::FormsFirst => "forms-first",
            Blunder::OldestCarried => "oldest-carried",
            Blunder::WindowsLeft => "windows-left",
            Blunder::MovableListsOnly => "movable-lists-only",
            Blunder::FirstFilePolled => "first-file-polled",
            Blunder::FirstFileWritten => "first-file-written",
            Blunder::LastFileCurrent => "last-file-current",
            Blunder::FirstFileMarks => "first-file-marks",
            Blunder::FileAfterRange => "file-after-range",
            Blunder::FileOfAByte => "file-of-a-byte",
            Blunder::ReadBelow => "read-below",
            Blunder::ReadChoiceBelow => "read-choice-below",
            Blunder::AllCountiesChosen => "all-counties-chosen",
            Blunder::CountiesInChainOrder => "counties-in-chain-order",
            Blunder::SeveralOfAll => "several-of-all",
            Blunder::OneLevelByMark => "one-level-by-mark",
            Blunder::CountyZero => "county-zero",
            Blunder::SeveralInTall => "several-in-tall",
            Blunder::CountiesFirst => "counties-first",
            Blunder::CountyBeforeRoom => "county-before-room",
            Blunder::CountyOfAByte => "county-of-a-byte",
            Blunder::SeveralCharted => "several-charted",
            Blunder::CeilingPassed => "ceiling-passed",
            Blunder::SharedNeverSpent => "shared-never-spent",
            Blunder::AssuredTurnedDown => "assured-turned-down",
            Blunder::SameListClears => "same-list-clears",
            Blunder::CountsKept => "counts-kept",
            Blunder::FifteenCleared => "fifteen-cleared",
            Blunder::RefusedCounts => "refused-counts",
            Blunder::SpentFirst => "spent-first",
            Blunder::LimitBeforeClub => "limit-before-club",
            Blunder::ClubBeforeQuorum => "club-before-quorum",
            Blunder::ClubOfAByte => "club-of-a-byte",
            Blunder::SheetAfterRows => "sheet-after-rows",
            Blunder::SheetOfChangesOnly => "sheet-of-changes-only",
            Blunder::LongSheet => "long-sheet",
            Blunder::SixtyFifthDone => "sixty-fifth-done",
            Blunder::RefusedRoundsTellNone => "refused-rounds-tell-none",
            Blunder::BrokenListBegun => "broken-list-begun",
            Blunder::BrokenListFirst => "broken-list-first",
            Blunder::NineAsEight => "nine-as-eight",
            Blunder::OrdersLengthFirst => "orders-length-first",
            Blunder::FirstOrdersFile => "first-orders-file",
            Blunder::FirstOrdersClub => "first-orders-club",
            Blunder::EmptyRoundsSheet => "empty-rounds-sheet",
            Blunder::RoundGoesOn => "round-goes-on",
            Blunder::RoundUndone => "round-undone",
            Blunder::CountedAtTheEnd => "counted-at-the-end",
        }
    }

    pub fn from_name(name: &str) -> Option<Blunder> {
        Blunder::ALL.into_iter().find(|blunder| blunder.name() == name)
    }
}

/// The highest epoch in the set and its list, rows with an empty list among them.
pub fn highest_of_all(table: &Table, bytes: &[u8], set: u64) -> (u32, Laid) {
    let polled = rows::members(set).map(|row| table.row(bytes, row));
    polled.max_by_key(|row| row.epoch).map_or((0, Laid::EMPTY), |row| (row.epoch, row.list))
}

/// Reads a table that is well formed once each list of five has mark 0.
pub fn decode_any_marks(rules: Rules, bytes: &[u8]) -> Option<Table> {
    let mut unmarked = bytes.to_vec();
    for header in row_headers(&mut unmarked)? {
        let list = Row::read(header).list;
        if list.mark == 1 && list.members.count_ones() == 5 {
            header[24] = 0;
        }
    }
    Table::decode_by(rules, &unmarked)
}

/// Reads a table that is well formed once each list of mark 2 whose epoch has that mark throughout is marked as one of a wide table.
pub fn decode_any_shapes(rules: Rules, bytes: &[u8]) -> Option<Table> {
    let mut unmarked = bytes.to_vec();
    let listed = |row: &Row| !row.list.is_empty();
    let rows: Vec<Row> = row_headers(&mut unmarked)?.map(|header| Row::read(header)).collect();
    let counties = Counties::of(rows.iter().take(64).map(|row| row.county.clamp(1, 8)));
    for header in row_headers(&mut unmarked)? {
        let row = Row::read(header);
        let mut of_epoch = rows.iter().filter(|other| listed(other) && other.epoch == row.epoch);
        if listed(&row) && of_epoch.all(|row| row.list.shape() == Shape::Tall) {
            header[24] = if counties.several(row.list.members) { SEVERAL } else { 0 };
        }
    }
    Table::decode_by(rules, &unmarked)
}

/// The headers of all rows, used or not, of bytes that need be no table.
fn row_headers(bytes: &mut [u8]) -> Option<impl Iterator<Item = &mut [u8; ROW_HEADER]>> {
    let capacity = usize::from(*bytes.get(1)?);
    let (_, rows) = bytes.split_at_mut_checked(HEADER)?;
    let stride = rows.len().checked_div(capacity)?;
    Some(rows.chunks_mut(stride.max(1)).filter_map(|row| row.first_chunk_mut()))
}

/// Empties the window where a patch is as long as a record takes.
pub fn add_shorter(window: &mut Window, oldest: u8, offset: usize, patch: &[u8]) -> u8 {
    let too_long = [0; LONGEST_PATCH + 1];
    window::add(window, oldest, offset, if patch.len() == LONGEST_PATCH { &too_long } else { patch })
}

/// Puts a short patch into the oldest record, if there is one.
pub fn add_in_oldest(window: &mut Window, oldest: u8, offset: usize, patch: &[u8]) -> u8 {
    if oldest == 0 || patch.len() > LONGEST_PATCH {
        return window::add(window, oldest, offset, patch);
    }
    let (_, youngest) = window::chain(window, oldest);
    window::put(window, oldest, youngest, oldest, offset, patch)
}

/// Lays the sender's latest patches over the receiver's contents, the youngest first.
pub fn lay_younger_first(table: &Table, bytes: &mut [u8], transfer: Transfer) {
    let Transfer { from, to, file, behind } = transfer;
    let window = table.window(bytes, from, file);
    let mut records = Vec::new();
    let mut index = table.part(bytes, from, file).oldest;
    while index != 0 {
        records.push(window::record(window, index));
        index = window::record(window, index).next;
    }
    for record in records.iter().rev().take(behind) {
        let patch = table.window_at(from, file) + record.at;
        bytes.copy_within(patch..patch + record.length, table.contents_at(to, file) + record.offset);
    }
}

/// Reads a table that is well formed once each used row of county 0 is in county 1.
pub fn decode_county_zero(rules: Rules, bytes: &[u8]) -> Option<Table> {
    let (mut counted, used) = (bytes.to_vec(), usize::from(*bytes.get(2)?));
    for header in row_headers(&mut counted)?.take(used).filter(|_| rules.has_counties()) {
        header[COUNTY] = header[COUNTY].max(1);
    }
    Table::decode_by(rules, &counted)
}

/// Lays out a list with its counties in the chain order of their first members.
pub fn lay_in_chain_order(list: Laid, table: &Table) -> Layout {
    let mut parts: Vec<u64> = table.counties.parts(list.members).collect();
    parts.sort_by_key(|&part| table.chain.iter().position(|&row| rows::has(part, row.into())));
    let mut counties = Counties::NONE;
    for (county, part) in (1..).zip(parts) {
        rows::members(part).for_each(|row| counties.put(row, county));
    }
    Layout::of(list, &table.chain, &counties)
}

/// Counts a write of the club on a sheet that is right, if it may write.
pub fn count_any(bytes: &mut [u8], club: u64) {
    if Sheet::judge(bytes).is_some_and(|sheet| sheet.refusal(club).is_none()) {
        sheet::add(bytes, club);
    }
}

/// Counts each row outside a county's members in the place of the next one.
pub fn holds_with_outsiders(layout: &Layout, chain: &Order, quorum: Quorum, set: u64) -> bool {
    let mut held = 0;
    for (place, group) in layout.groups().iter().enumerate() {
        let (grid, members) = (group.grid, layout.members(group));
        let mut answers = vec![0; grid.columns];
        let mut position = 0;
        for row in chain.iter() {
            if rows::has(set, (*row).into()) {
                answers[position % grid.columns] += 1;
            }
            position += usize::from(members.contains(row));
        }
        let whole_column = || (1..).zip(&answers).any(|(column, &count)| count >= grid.height(column));
        let holds = answers.iter().all(|&count| count > 0) && (quorum == Quorum::Read || whole_column());
        held |= u64::from(holds) << place;
    }
    layout.above.holds(quorum, held)
}

/// Wants as many positions of a short column as of a long one, so that only a long one can be whole.
pub fn holds_long_column(grid: &Grid, quorum: Quorum, held: u64) -> bool {
    let held_in = |column| (1..=grid.rows).filter(|&row| rows::has(held, grid.position(row, column))).count();
    let long_column = || (1..=grid.columns).any(|column| held_in(column) == grid.rows);
    grid.holds(quorum, held) && (quorum == Quorum::Read || long_column())
}

/// Wants all three of three for a write.
pub fn holds_all_of_three(grid: &Grid, quorum: Quorum, held: u64) -> bool {
    let all = grid.length() != 3 || held == rows::first(3);
    grid.holds(quorum, held) && (quorum == Quorum::Read || all)
}
