//! Keeps the plain books of a history's files beside it, and compares the answers with them.

use crate::call::{result_shown, set_shown, Answer, Call};
use reference::{rows, sheet, Book, Counties, Quorum, Rules, Shape, Sheet, MAX_FILES};

/// Closed until a founding is done.
#[derive(Clone, Debug, Default)]
pub struct Ledger {
    /// How a founding's list is laid.
    rules: Rules,
    /// The book of file q at place q - 1. Each is fed every check and joining, and the writes and sends of its file.
    books: Vec<Book>,
    /// The writes done since the last changing check, or founding, orders of rounds among them, and the sheet that they and the checks
    /// were lent.
    since: u64,
    sheet: OneSheet,
}

/// The sheet that every write, check and round since the founding was lent, if it was one.
#[derive(Clone, Debug, Default, PartialEq, Eq)]
enum OneSheet {
    /// None was made yet.
    #[default]
    Unlent,
    /// As the last one left it; its counts were 0 at the founding.
    As(Vec<u8>),
    Others,
}

impl Ledger {
    /// For calls made before there were requests.
    pub fn published() -> Ledger {
        Ledger { rules: Rules::Published, ..Ledger::default() }
    }

    /// From now on lists are laid as now; the list in force keeps its grid.
    pub fn go_on_with_requests(&mut self) {
        self.rules = Rules::Newest;
        self.books.iter_mut().for_each(|book| book.rules = self.rules);
    }

    /// Was a founding done?
    pub fn is_open(&self) -> bool {
        !self.books.is_empty()
    }

    /// Takes in a call and its answer; an error says how the books differ.
    pub fn hear(&mut self, call: &Call, answer: &Answer) -> Result<(), String> {
        let done = answer.result >> 32 == 0;
        if let (Call::Found { file_len, names, choice, files, counties, .. }, true) = (call, done) {
            let names: Vec<u16> =
                names.chunks(2).map(|name| u16::from_le_bytes([name[0], name[1]])).collect();
            let shape = Shape::chosen(*choice).ok_or("a founding with another choice was done")?;
            // Before there were counties, all machines were in one.
            let one = vec![1; names.len()];
            let counties = if self.rules.has_counties() { counties } else { &one };
            if counties.len() != names.len() || !counties.iter().all(|county| (1..=8).contains(county)) {
                return Err("a founding with other counties was done".into());
            }
            let counties = Counties::of(counties.iter().copied());
            let book = Book::open(self.rules, *file_len as usize, &names, shape, counties);
            self.books = vec![book; (*files).min(MAX_FILES as u64) as usize];
            (self.since, self.sheet) = (0, OneSheet::Unlent);
        }
        let Some(first) = self.books.first() else { return Ok(()) };
        match call {
            Call::Read { coordinator, answering, offset, length, buffer, called, file } => {
                let lent_fit = *length == buffer.len() as u64 && called.len() == 1;
                let place = self.passing(*file, *coordinator, *answering, *offset, *length);
                let place = place.filter(|_| lent_fit);
                self.answered(Quorum::Read, place, *coordinator, *answering, None, answer)?;
                if !done {
                    return Ok(());
                }
                let book = &self.books[place.ok_or("a read that does not pass its questions was done")?];
                if answer.result != book.writes() as u64 {
                    return Err(format!(
                        "{}, but the book counts {} writes",
                        result_shown(answer.result),
                        book.writes()
                    ));
                }
                if answer.buffer != book.range(*offset as usize, *length as usize) {
                    return Err("the book has other bytes in the range read".into());
                }
            }
            Call::Write { coordinator, answering, offset, patch, called, file, sheet, club } => {
                let place = self.passing(*file, *coordinator, *answering, *offset, patch.len() as u64);
                let sheet = Sheet::judge(sheet);
                let place = place.filter(|_| called.len() == 1 && sheet.is_some());
                let share = sheet.and_then(|sheet| sheet.refusal(*club));
                self.answered(Quorum::Write, place, *coordinator, *answering, share, answer)?;
                if done {
                    let place = place.ok_or("a write that does not pass its questions was done")?;
                    self.books[place].write(*coordinator as usize, *answering, *offset as usize, patch);
                    self.since += 1;
                }
            }
            Call::Choice { coordinator, kind, .. } if done => {
                let quorum = Quorum::of_kind(*kind).ok_or("a choice of another kind was done")?;
                if *coordinator > first.rows() as u64 || *coordinator == 0 {
                    return Err("the choice of no row was done".into());
                }
                let chosen = first.choice(quorum, *coordinator as usize);
                if answer.buffer != chosen.to_le_bytes() || answer.result != u64::from(chosen.count_ones()) {
                    return Err(format!("another choice than the book's, {}", set_shown(chosen)));
                }
            }
            Call::Send { from, to, file, .. } if done => {
                let place = self.place(*file).ok_or("a send of no file was done")?;
                self.books[place].send(*from as usize, *to as usize);
            }
            Call::Check { answering, .. } if done => {
                if first.is_changed_by(*answering) {
                    self.since = 0;
                }
                self.books.iter_mut().for_each(|book| book.check(*answering));
            }
            Call::Join { name, county } if done => {
                let rows = first.rows() + 1;
                if !(1..=8).contains(county) {
                    return Err("a joining from no county was done".into());
                }
                self.books.iter_mut().for_each(|book| book.join(*name, *county as u8));
                if answer.result != rows as u64 {
                    return Err(format!("{}, but the book has {rows} rows", result_shown(answer.result)));
                }
            }
            Call::Round { .. } => self.hear_round(call, answer)?,
            _ => {}
        }
        self.follow(call, answer)
    }

    /// A round stands for its writes up to the first refusal, the refused one included; each is lent what the one before left of the sheet.
    /// A list without a whole order, one that ends inside an order and a 65th order stand for none.
    fn hear_round(&mut self, call: &Call, answer: &Answer) -> Result<(), String> {
        let (refusal, done) = (answer.result >> 32, answer.result as u32 as usize);
        let writes: Vec<Call> = call.writes().into_iter().flatten().collect();
        if done > writes.len() {
            return Err(format!(
                "{}, but by the book it has {} writes",
                result_shown(answer.result),
                writes.len()
            ));
        }
        let mut counted = call.sheet().unwrap_or_default().to_vec();
        for (place, mut write) in writes.into_iter().enumerate().take(done + usize::from(refusal != 0)) {
            write.lend(&counted);
            let is_done = place < done;
            if let (Call::Write { club, .. }, true) = (&write, is_done) {
                let sheet = Sheet::judge(&counted).filter(|sheet| sheet.line(*club).is_some());
                sheet.ok_or("an order with a wrong sheet, or of no club, was done")?;
                sheet::add(&mut counted, *club);
            }
            // What a write's answer holds besides its refusal is no part of a round's.
            let result = if is_done { 0 } else { refusal << 32 };
            let heard = Answer { result, sheet: counted.clone(), ..Answer::default() };
            self.hear(&write, &heard).map_err(|what| format!("order {}: {what}", place + 1))?;
        }
        if counted != answer.sheet {
            return Err("the sheet does not count the orders that were done".into());
        }
        Ok(())
    }

    /// If their counts were 0 at the founding and each write, check and round since was lent this one sheet, the clubs' counts sum to the
    /// writes done since the last changing check, or founding.
    fn follow(&mut self, call: &Call, answer: &Answer) -> Result<(), String> {
        let Some(lent) = call.sheet() else { return Ok(()) };
        if call.writes().is_some_and(|mut writes| writes.next().is_some()) {
            // Each write of a round was followed by itself.
            return Ok(());
        }
        let writes = |bytes: &[u8]| Sheet::judge(bytes).map(|sheet| sheet.writes());
        let is_one = match &self.sheet {
            OneSheet::Unlent => writes(lent) == Some(0),
            OneSheet::As(left) => left == lent,
            OneSheet::Others => false,
        };
        self.sheet = if is_one { OneSheet::As(answer.sheet.clone()) } else { OneSheet::Others };
        if is_one && writes(&answer.sheet) != Some(self.since) {
            let counted = writes(&answer.sheet);
            return Err(format!(
                "the counts sum to {counted:?}, but by the book there are {} writes",
                self.since
            ));
        }
        Ok(())
    }

    /// The writes that the one sheet counts, if it is one.
    pub fn summed(&self) -> Option<u64> {
        matches!(self.sheet, OneSheet::As(_)).then_some(self.since)
    }

    /// The place of a file's book, if there is such a file.
    fn place(&self, file: u64) -> Option<usize> {
        (1..=self.books.len() as u64).contains(&file).then(|| file as usize - 1)
    }

    /// The place of the book of a read or write that passes questions 1 to 4 and 16.
    fn passing(
        &self,
        file: u64,
        coordinator: u64,
        answering: u64,
        offset: u64,
        length: u64,
    ) -> Option<usize> {
        self.place(file).filter(|&place| passes(&self.books[place], coordinator, answering, offset, length))
    }

    /// A read or write that passes questions 1 to 5 and 16, and so has a book at a place, is done or refused as that book says, or by the
    /// number that its share of the writes asks for; any other one calls nobody.
    fn answered(
        &self,
        quorum: Quorum,
        place: Option<usize>,
        coordinator: u64,
        answering: u64,
        share: Option<u32>,
        answer: &Answer,
    ) -> Result<(), String> {
        let Some(place) = place else { return number_called(0, answer) };
        let book = &self.books[place];
        let refusal = match book.refusal(quorum, answering) {
            0 => share.unwrap_or(0),
            by_the_book => by_the_book,
        };
        agree(refusal, answer.result)?;
        number_called(book.called(quorum, coordinator as usize, answering), answer)
    }
}

/// Does a read or write on the book's table pass questions 1 to 4?
fn passes(book: &Book, coordinator: u64, answering: u64, offset: u64, length: u64) -> bool {
    let used = rows::first(book.rows());
    let coordinator_answers = coordinator <= 64 && rows::has(answering, coordinator as usize);
    let fits = offset.checked_add(length).is_some_and(|end| end <= book.file_len() as u64);
    coordinator_answers && answering & !used == 0 && length >= 1 && fits
}

/// A list of one byte holds the number called.
fn number_called(by_the_book: usize, answer: &Answer) -> Result<(), String> {
    match answer.called[..] {
        [called] if usize::from(called) != by_the_book => {
            Err(format!("{called} machines called, but by the book {by_the_book}"))
        }
        _ => Ok(()),
    }
}

fn agree(refusal: u32, result: u64) -> Result<(), String> {
    if u64::from(refusal) == result >> 32 {
        Ok(())
    } else {
        let by_the_book = if refusal == 0 { "done".into() } else { format!("refused by {refusal}") };
        Err(format!("{}, but by the book it is {by_the_book}", result_shown(result)))
    }
}

#[cfg(test)]
mod tests {
    use crate::generate::Plan;
    use crate::random::Random;
    use reference::{Blunder, Engine};

    /// Makes up to so many calls in founded histories; true if the book finds something wrong.
    fn book_finds(blunder: Option<Blunder>, calls: usize) -> bool {
        let engine = Engine { blunder, ..Engine::default() };
        let mut made = 0;
        for case in 0.. {
            let mut random = Random::new(3, case);
            let mut plan = match case % 4 {
                0 => Plan::from_the_scope(&mut random),
                1 => Plan::falling_behind(&mut random),
                _ => Plan::founded(&mut random),
            };
            let mut table = plan.table();
            let mut ledger = plan.ledger();
            for _ in 0..plan.calls() {
                let call = plan.next(&mut random, &table);
                let answer = call.refer(engine, &mut table);
                if ledger.hear(&call, &answer).is_err() {
                    return true;
                }
                plan.left(&call, &answer.sheet);
                made += 1;
            }
            if made >= calls {
                return false;
            }
        }
        false
    }

    #[test]
    fn the_book_agrees_with_the_reference() {
        assert!(!book_finds(None, 50_000));
    }

    /// Good rows of a founded history hold the same bytes, so the book cannot tell which of them was read; no history
    /// leads to two marks in one epoch, or to two shapes in one table; the book keeps no charts, and does not look at a list
    /// for the number called that has another length than one byte, nor in which order a write's file, range and that list are
    /// asked for, or a county or a sheet and what comes before it, nor at the list of a choice that was refused, nor at the sheet of a
    /// check that changes nothing or of a round without orders, nor in which order such a round, or the length of an order, and what comes
    /// before it are asked for; it lists no sends; a send goes whole where a window is shorter than it should be; no history comes
    /// to a version of 1,000,000; and none has moves.
    #[test]
    fn the_book_alone_finds_all_other_blunders() {
        let hidden = [
            Blunder::HighestGood,
            Blunder::MarksOfEpoch,
            Blunder::ShapesOfTable,
            Blunder::LargerQuorums,
            Blunder::PlacesCleared,
            Blunder::ShortListFirst,
            Blunder::FiveOfAnyLength,
            Blunder::MarkOfAByte,
            Blunder::CalledAtAnyLength,
            Blunder::CalledLengthFirst,
            Blunder::SetAtAnyLength,
            Blunder::StaleSender,
            Blunder::BehindReceiver,
            Blunder::LongestEmpties,
            Blunder::RecordPassedOver,
            Blunder::FormsFirst,
            Blunder::OldestCarried,
            Blunder::WindowsLeft,
            Blunder::MovableListsOnly,
            Blunder::FileAfterRange,
            Blunder::CountiesFirst,
            Blunder::CountyBeforeRoom,
            Blunder::SeveralCharted,
            Blunder::SheetAfterRows,
            Blunder::SheetOfChangesOnly,
            Blunder::LimitBeforeClub,
            Blunder::BrokenListFirst,
            Blunder::OrdersLengthFirst,
            Blunder::EmptyRoundsSheet,
        ];
        for blunder in Blunder::ALL {
            let is_hidden = hidden.contains(&blunder);
            let calls = if is_hidden { 50_000 } else { 500_000 };
            assert_eq!(book_finds(Some(blunder), calls), !is_hidden, "{}", blunder.name());
        }
    }
}
