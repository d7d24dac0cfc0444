//! Other ways to the same figures.

use crate::chain::Chain;
use crate::coterie::Coterie;
use crate::explore::{explore, positions, toggled};
use crate::figures::{full_grid, repair_rate, Protocol, Protocols, Unavailable};
use crate::held::{library, Both, Held, Second};
use crate::page::PAPER;
use crate::progress::Progress;
use crate::relay::ask;
use crate::runs::{made, shortest};
use crate::walk::walk;
use differ::Random;
use dyngrid::{Refusal, Rows, Shape};
use reference::Blunder;
use std::collections::HashMap;
use std::sync::LazyLock;

const SHAPES: [Shape; 2] = [Shape::Wide, Shape::Tall];

/// As the page has them.
static PROTOCOLS: LazyLock<Protocols> =
    LazyLock::new(|| Protocols::ask(crate::MOST_MACHINES, &mut Progress::new(60)).expect("asked"));

fn near(one: f64, two: f64) -> bool {
    (one - two).abs() <= 1e-10 * one.max(two)
}

fn assert_near(one: Unavailable, two: Unavailable, what: &str) {
    assert!(near(one.write, two.write) && near(one.read, two.read), "{what}: {one:?}, and {two:?}");
}

/// Rates between named states, written by hand, and the part of the time in each, by Gauss: the balance equations, the last of
/// them replaced by the sum, which is 1.
struct ByHand {
    names: Vec<&'static str>,
    rates: Vec<(usize, usize, f64)>,
}

impl ByHand {
    fn new(names: &[&'static str]) -> ByHand {
        ByHand { names: names.to_vec(), rates: Vec::new() }
    }

    fn go(&mut self, from: &str, to: &str, rate: f64) {
        let place = |name| {
            self.names.iter().position(|known| *known == name).unwrap_or_else(|| panic!("no state {name}"))
        };
        self.rates.push((place(from), place(to), rate));
    }

    /// A list of two of three machines; once one of it is lost it is in force until both are up again.
    fn list_of_two(&mut self, fail: f64, repair: f64) {
        self.names.extend(["2: 1+0", "2: 1+1", "2: 0+0", "2: 0+1"]);
        self.go("2", "2: 1+0", 2.0 * fail);
        self.go("2: 1+0", "2", repair);
        self.go("2: 1+0", "2: 1+1", repair);
        self.go("2: 1+0", "2: 0+0", fail);
        self.go("2: 1+1", "3", repair);
        self.go("2: 1+1", "2: 1+0", fail);
        self.go("2: 1+1", "2: 0+1", fail);
        self.go("2: 0+0", "2: 1+0", 2.0 * repair);
        self.go("2: 0+0", "2: 0+1", repair);
        self.go("2: 0+1", "2: 1+1", 2.0 * repair);
        self.go("2: 0+1", "2: 0+0", fail);
    }

    /// The sum of the parts of the states that pass.
    fn part(&self, pass: impl Fn(&str) -> bool) -> f64 {
        let count = self.names.len();
        let mut lines = vec![vec![0.0; count + 1]; count];
        for &(from, to, rate) in &self.rates {
            lines[to][from] += rate;
            lines[from][from] -= rate;
        }
        lines[count - 1] = vec![1.0; count + 1];
        for column in 0..count {
            let pivot = (column..count)
                .max_by(|&one, &two| lines[one][column].abs().total_cmp(&lines[two][column].abs()));
            lines.swap(column, pivot.expect("a line is left"));
            let pivot = lines[column].clone();
            for (number, line) in lines.iter_mut().enumerate() {
                let times = line[column] / pivot[column];
                if number != column {
                    line.iter_mut().zip(&pivot).for_each(|(entry, pivot)| *entry -= times * pivot);
                }
            }
        }
        let parts = (0..count).map(|state| lines[state][count] / lines[state][state]);
        parts.zip(&self.names).filter(|(_, name)| pass(name)).map(|(part, _)| part).sum()
    }
}

/// Three machines. Of a list of three the columns are {1, 3} and {2}; of a list of two a wide table has two columns, a tall one has
/// one. "3: 13" is the list of three with 1 and 3 up; "2: 1+0" is a list of two with one of them up and the third machine down.
fn three_by_hand(up: f64) -> ByHand {
    let (fail, repair) = (1.0, repair_rate(up));
    let mut chain = ByHand::new(&["3", "2", "3: 13", "3: 1", "3: -", "3: 2"]);
    // 1 or 3 lost: the others are the list of two. 2 lost: stuck.
    chain.go("3", "2", 2.0 * fail);
    chain.go("3", "3: 13", fail);
    chain.go("2", "3", repair);
    // Without 2; "3: 1" stands for 3 alone too. With 2 and one of the others there is a list of two again.
    chain.go("3: 13", "3", repair);
    chain.go("3: 13", "3: 1", 2.0 * fail);
    chain.go("3: 1", "3: 13", repair);
    chain.go("3: 1", "2", repair);
    chain.go("3: 1", "3: -", fail);
    chain.go("3: -", "3: 1", 2.0 * repair);
    chain.go("3: -", "3: 2", repair);
    chain.go("3: 2", "2", 2.0 * repair);
    chain.go("3: 2", "3: -", fail);
    chain.list_of_two(fail, repair);
    chain
}

/// Four machines. Four bear any one loss. "3: 13+1" is a list of three with 1 and 3 of it up, and the fourth machine too.
fn four_by_hand(up: f64) -> ByHand {
    let (fail, repair) = (1.0, repair_rate(up));
    let mut chain = ByHand::new(&[
        "4", "3", "2", "3: 13+0", "3: 13+1", "3: 1+0", "3: 1+1", "3: -+0", "3: -+1", "3: 2+0", "3: 2+1",
        "2: 1+0", "2: 1+1", "2: 1+2", "2: 0+0", "2: 0+1", "2: 0+2",
    ]);
    chain.go("4", "3", 4.0 * fail);
    chain.go("3", "4", repair);
    chain.go("3", "2", 2.0 * fail);
    chain.go("3", "3: 13+0", fail);
    chain.go("2", "3", 2.0 * repair);
    chain.go("2", "2: 1+0", 2.0 * fail);
    // The list of three without a write quorum; the new list has all that are up.
    for (other, with_three, with_two) in [("0", "3", "2"), ("1", "4", "3")] {
        let state = |held: &str| format!("3: {held}+{other}");
        chain.go(&state("13"), with_three, repair);
        chain.go(&state("13"), &state("1"), 2.0 * fail);
        chain.go(&state("1"), &state("13"), repair);
        chain.go(&state("1"), with_two, repair);
        chain.go(&state("1"), &state("-"), fail);
        chain.go(&state("-"), &state("1"), 2.0 * repair);
        chain.go(&state("-"), &state("2"), repair);
        chain.go(&state("2"), with_two, 2.0 * repair);
        chain.go(&state("2"), &state("-"), fail);
    }
    for held in ["13", "1", "-", "2"] {
        chain.go(&format!("3: {held}+0"), &format!("3: {held}+1"), repair);
        chain.go(&format!("3: {held}+1"), &format!("3: {held}+0"), fail);
    }
    // The list of two.
    for (others, with_two) in [("0", "2"), ("1", "3"), ("2", "4")] {
        let state = |held: &str| format!("2: {held}+{others}");
        chain.go(&state("1"), with_two, repair);
        chain.go(&state("1"), &state("0"), fail);
        chain.go(&state("0"), &state("1"), 2.0 * repair);
    }
    for held in ["0", "1"] {
        let state = |others: &str| format!("2: {held}+{others}");
        chain.go(&state("0"), &state("1"), 2.0 * repair);
        chain.go(&state("1"), &state("0"), fail);
        chain.go(&state("1"), &state("2"), repair);
        chain.go(&state("2"), &state("1"), 2.0 * fail);
    }
    chain
}

#[test]
fn three_and_four_machines_are_as_by_hand() {
    for up in [0.5, 0.7, 0.95, 0.99] {
        for (machines, by_hand) in [(3, three_by_hand(up)), (4, four_by_hand(up))] {
            let stuck = |name: &str| name.contains(':');
            let write = by_hand.part(stuck);
            // Either machine of a tall list of two reads.
            let tall = by_hand.part(|name| stuck(name) && !name.starts_with("2: 1"));
            for (shape, read) in [(Shape::Wide, write), (Shape::Tall, tall)] {
                let chain = PROTOCOLS.shaped(shape).dynamic(machines, up).unavailable;
                assert_near(
                    chain,
                    Unavailable { write, read },
                    &format!("{machines} machines, {shape:?}, up {up}"),
                );
            }
        }
    }
}

/// Three machines that vote: three bear any one loss, two bear none.
#[test]
fn votes_of_three_are_as_by_hand() {
    for up in [0.7, 0.95] {
        let (fail, repair) = (1.0, repair_rate(up));
        let mut chain = ByHand::new(&["3", "2"]);
        chain.list_of_two(fail, repair);
        chain.go("3", "2", 3.0 * fail);
        chain.go("2", "3", repair);
        let part = chain.part(|name| name.contains(':'));
        let voting = PROTOCOLS.votes.dynamic(3, up).unavailable;
        assert_near(voting, Unavailable { write: part, read: part }, "dynamic voting");
        let two_lost = 1.0 - up.powi(3) - 3.0 * up.powi(2) * (1.0 - up);
        let majority = PROTOCOLS.votes.fixed(3, up);
        assert_near(majority, Unavailable { write: two_lost, read: two_lost }, "majority voting");
    }
    // Half is no majority.
    assert_near(PROTOCOLS.votes.fixed(2, 0.95), full_grid(1, 2, 0.95), "two that vote");
}

/// The chain of all states (list in force, machines up), none of them put together; what is done is asked on the tables of the
/// library as it goes.
fn unavailable_one_by_one(machines: usize, shape: Shape, up: f64) -> Unavailable {
    let all = Rows::first(machines);
    let repair = repair_rate(up);
    let mut states = vec![(all, all)];
    let mut number = HashMap::from([(states[0], 0)]);
    let mut tables = HashMap::from([(all, library(machines, shape))]);
    let mut rates = Vec::new();
    while rates.len() < states.len() {
        let (list, now) = states[rates.len()];
        let mut out = Vec::new();
        for machine in all {
            let after = toggled(now, machine);
            let mut table = tables[&list].clone();
            let by = after.iter().next().unwrap_or(1);
            let laid = Held::check(&mut table, by, after).is_ok();
            let next = (if laid { after } else { list }, after);
            if laid {
                tables.entry(after).or_insert(table);
            }
            let next = *number.entry(next).or_insert_with(|| {
                states.push(next);
                states.len() - 1
            });
            out.push((next, if after.contains(machine) { repair } else { 1.0 }));
        }
        rates.push(out);
    }
    let chain = Chain::of_rates(rates);
    let parts = chain.parts();
    assert!(chain.residual(&parts) < 1e-12);
    let mut unavailable = Unavailable { write: 0.0, read: 0.0 };
    for (&(list, now), part) in states.iter().zip(parts) {
        let done = ask(&tables[&list], now).expect("answered");
        unavailable.write += if done.write { 0.0 } else { part };
        unavailable.read += if done.read { 0.0 } else { part };
    }
    unavailable
}

#[test]
fn states_put_together_give_what_all_of_them_give() {
    for machines in 1..=5 {
        for shape in SHAPES {
            let together = PROTOCOLS.shaped(shape).dynamic(machines, 0.8).unavailable;
            assert_near(
                together,
                unavailable_one_by_one(machines, shape, 0.8),
                &format!("{machines} machines, {shape:?}"),
            );
        }
    }
}

#[test]
fn nine_machines() {
    let of = |protocol: &Protocol| protocol.dynamic(9, 0.95).unavailable;
    let (published, wide, tall) = (of(&PROTOCOLS.published), of(&PROTOCOLS.wide), of(&PROTOCOLS.tall));
    // Found once by another program.
    assert!((published.write / 3.2e-5 - 1.0).abs() < 0.02, "{published:?}");
    assert!((wide.write / 6.1e-8 - 1.0).abs() < 0.02, "{wide:?}");
    assert!(near(tall.write, wide.write) && tall.read < wide.read, "{tall:?}");
}

#[test]
fn the_papers_diagram_gives_its_figures() {
    for said in PAPER {
        let (rows, columns) = said.best;
        let fixed = full_grid(rows, columns, 0.95).write;
        assert_eq!(
            format!("{:.2}", fixed * 1e6),
            format!("{:.2}", said.fixed * 1e6),
            "{} machines",
            said.machines
        );
        if said.figure().is_none() {
            continue;
        }
        let (digits, power) = said.dynamic.split_once('e').expect("a power of ten");
        let places = digits.split_once('.').expect("a point").1.len();
        // The digits beyond those printed are cut off there.
        let figure = PROTOCOLS.paper.dynamic(said.machines, 0.95).unavailable.write
            / format!("1e{power}").parse::<f64>().expect("a power");
        let cut = (figure * 10_f64.powi(places as i32)).floor() / 10_f64.powi(places as i32);
        assert_eq!(format!("{cut:.places$}"), digits, "{} machines", said.machines);
    }
}

#[test]
fn a_static_grid_is_as_the_formula_says() {
    for (machines, rows, columns) in
        [(1, 1, 1), (2, 1, 2), (4, 2, 2), (6, 2, 3), (9, 3, 3), (12, 3, 4), (16, 4, 4)]
    {
        assert_near(
            PROTOCOLS.wide.fixed(machines, 0.95),
            full_grid(rows, columns, 0.95),
            &format!("{machines} machines"),
        );
        // A tall table has rows and columns exchanged.
        assert_near(
            PROTOCOLS.tall.fixed(machines, 0.95),
            full_grid(columns.max(rows), rows.min(columns), 0.95),
            "tall",
        );
    }
}

#[test]
fn residuals_are_small() {
    for machines in 1..=crate::MOST_MACHINES {
        for dynamic in PROTOCOLS.columns(machines, 0.95).dynamics() {
            assert!(dynamic.residual < 1e-13, "{machines} machines: {:e}", dynamic.residual);
        }
    }
}

#[test]
fn the_library_answers_as_the_reference_in_every_state_of_six() {
    for shape in SHAPES {
        for machines in 1..=6 {
            let coterie = &PROTOCOLS.shaped(shape).coterie;
            let states = explore(&Both::found(machines, shape), machines, coterie, |_| Ok(()));
            assert!(states.is_ok(), "{shape:?}: {states:?}");
        }
    }
}

/// Five in the published grid, as tables of form 1 have them, in the library too.
#[test]
fn the_library_judges_a_published_five_as_the_reference_does() {
    let mut bytes = library(5, Shape::Wide).into_bytes();
    let grid_mark = |row: usize| reference::Table::length(row - 1, 1, 1) + 24;
    (1..=5).for_each(|row| bytes[grid_mark(row)] = 0);
    let five = dyngrid::Table::from_bytes(bytes).expect("a table");
    for held in 0..1 << 5 {
        let up = Rows::from_bits(held);
        assert_eq!(
            ask(&five, up),
            Ok(PROTOCOLS.published.coterie.of(5).of(positions(Rows::first(5), up))),
            "{up}"
        );
    }
}

#[test]
fn the_third_of_five_shows_the_difference() {
    let run = |machines| shortest(machines, &PROTOCOLS.published.coterie, &PROTOCOLS.paper.coterie);
    assert!((1..=4).all(|machines| run(machines).is_none()));
    assert_eq!(run(5), Some(vec![3]));
    assert_eq!(run(9).map(|run| run.len()), Some(5));
    let steps = made(5, &[3]).expect("made");
    assert!(steps.iter().all(|step| !step.published.read
        && !step.published.write
        && step.library.write
        && step.library.read));
    // Of what the library lays, no run shows that four or more do not bear a loss.
    assert!((1..=9)
        .all(|machines| shortest(machines, &PROTOCOLS.wide.coterie, &PROTOCOLS.paper.coterie).is_none()));
}

const BLUNDERS: [(Blunder, Shape, usize); 6] = [
    (Blunder::AllOfThree, Shape::Wide, 3),
    (Blunder::ShortColumnWhole, Shape::Wide, 3),
    (Blunder::OutsidersCount, Shape::Wide, 4),
    (Blunder::OldGrid, Shape::Wide, 6),
    (Blunder::NeverTall, Shape::Tall, 3),
    (Blunder::SixByCount, Shape::Wide, 5),
];

/// An engine that lays or judges lists otherwise is found out: its states are not as the library's lists say.
#[test]
fn blunders_are_found_out() {
    for (blunder, shape, machines) in BLUNDERS {
        let wrong = Second::newest(machines, shape).with(blunder);
        let found = explore(&wrong, machines, &PROTOCOLS.shaped(shape).coterie, |_| Ok(()));
        assert!(found.is_err(), "{blunder:?} is not found out");
    }
}

/// Beside the library it is found out where the two differ.
#[test]
fn blunders_are_found_out_beside_the_library() {
    for (blunder, shape, machines) in BLUNDERS {
        let both = Both::found(machines, shape).with(blunder);
        let coterie = &PROTOCOLS.shaped(shape).coterie;
        let found = std::panic::catch_unwind(|| explore(&both, machines, coterie, |_| Ok(())));
        assert!(found.is_err(), "{blunder:?} is not found out");
    }
}

/// A table of the library, and one call that goes wrong.
#[derive(Clone)]
struct Wrong {
    table: dyngrid::Table,
    fault: Fault,
}

#[derive(Clone, Copy, PartialEq)]
enum Fault {
    None,
    /// Every check is refused by 6.
    NoCheck,
    /// A check is done and lays no list.
    NothingLaid,
    /// A send is done and brings nothing.
    NothingSent,
}

impl Held for Wrong {
    fn check(&mut self, by: usize, up: Rows) -> Result<u32, Refusal> {
        match self.fault {
            Fault::NoCheck => Err(Refusal::NoQuorum),
            Fault::NothingLaid => Held::check(&mut self.table.clone(), by, up),
            _ => Held::check(&mut self.table, by, up),
        }
    }

    fn write(&mut self, by: usize, up: Rows) -> Result<u32, Refusal> {
        Held::write(&mut self.table, by, up)
    }

    fn read(&self, by: usize, up: Rows) -> Result<u32, Refusal> {
        Held::read(&self.table, by, up)
    }

    fn send(&mut self, from: usize, to: usize, up: Rows) -> Result<u32, Refusal> {
        match self.fault {
            Fault::NothingSent => Held::send(&mut self.table.clone(), from, to, up),
            _ => Held::send(&mut self.table, from, to, up),
        }
    }

    fn bytes(&self) -> &[u8] {
        self.table.as_bytes()
    }
}

/// Where a check is not what a write is, lays nothing, or nobody sends, the program stops. Without sends it is by 7, as the page says.
#[test]
fn faults_stop_the_program() {
    let machines = 5;
    for (fault, said) in [
        (Fault::None, ""),
        (Fault::NoCheck, "refused by 6"),
        (Fault::NothingLaid, "does not lay their list"),
        (Fault::NothingSent, "refused by 7"),
    ] {
        let founded = Wrong { table: library(machines, Shape::Wide), fault };
        let problem =
            explore(&founded, machines, &PROTOCOLS.wide.coterie, |_| Ok(())).err().unwrap_or_default();
        assert!(problem.contains(said) && problem.is_empty() == said.is_empty(), "{problem:?}, not {said:?}");
    }
    let no_check = Wrong { table: library(machines, Shape::Wide), fault: Fault::NoCheck };
    assert!(ask(&no_check, Rows::first(machines)).is_err(), "a check refused where a write is done");
}

/// A walk with published lists gives the published figure, and not the library's.
#[test]
fn a_walk_tells_one_protocol_from_another() {
    let (machines, up, events) = (6, 0.7, 50_000);
    let Protocols { published, wide, .. } = &*PROTOCOLS;
    let mut random = Random::new(1992, 0);
    let walked = walk(Second::published(machines), machines, &published.coterie, up, events, &mut random)
        .expect("walked");
    let [published, wide] = [published, wide].map(|protocol| protocol.dynamic(machines, up).unavailable);
    assert!(walked[0].holds(published.write) && walked[1].holds(published.read), "{published:?}");
    assert!(!walked[0].holds(wide.write) && !walked[1].holds(wide.read), "{wide:?}");
    // Its answers are not those of the library's lists.
    let found = walk(Second::published(machines), machines, &PROTOCOLS.wide.coterie, up, events, &mut random);
    assert!(found.is_err());
}

/// Sets that go on otherwise are not put together.
#[test]
fn classes_are_cut_until_all_go_on_alike() {
    // Three positions in two columns: {1, 3} and {2}.
    let coterie = &PROTOCOLS.wide.coterie;
    let protocol = Protocol::of(Coterie::majority(3)).expect("classes");
    assert_eq!([protocol.classes_of(3), PROTOCOLS.wide.classes_of(3)], [2, 4]);
    assert!(coterie.of(3).of(0b011).write && !coterie.of(3).of(0b101).write);
}
