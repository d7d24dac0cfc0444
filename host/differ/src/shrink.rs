//! Cuts a failing case down to few and short calls.

use crate::call::Call;
use crate::ledger::Ledger;
use crate::trial::{Case, Failure};
use reference::round::{Order, ORDER};
use reference::{rows, Sheet, Table, MAX_FILE, MAX_FILES, MAX_ROWS};

/// Tries shorter cases as long as one of them fails.
pub struct Shrinker<'a> {
    best: Case,
    failure: Failure,
    fails: &'a mut dyn FnMut(&Case) -> Option<Failure>,
}

impl<'a> Shrinker<'a> {
    /// Cuts the case down; `fails` runs a case and says how it fails, if it does.
    pub fn shrink(
        case: &Case,
        failure: &Failure,
        fails: &'a mut dyn FnMut(&Case) -> Option<Failure>,
    ) -> (Case, Failure) {
        let mut shrinker = Shrinker { best: case.clone(), failure: failure.clone(), fails };
        shrinker.best.calls.truncate(failure.call + 1);
        loop {
            let calls = shrinker.best.calls.len();
            shrinker.simplify_table();
            shrinker.drop_calls();
            shrinker.simplify_calls();
            if shrinker.best.calls.len() == calls {
                return (shrinker.best, shrinker.failure);
            }
        }
    }

    /// Takes the case over if it fails.
    fn keep(&mut self, case: Case) -> bool {
        let Some(failure) = (self.fails)(&case) else { return false };
        self.best = case;
        self.best.calls.truncate(failure.call + 1);
        self.failure = failure;
        true
    }

    /// Starts from zero bytes, and founds few files and machines.
    fn simplify_table(&mut self) {
        let zero = vec![0; self.best.table.len()];
        self.keep(Case { table: zero, ledger: Ledger::default(), ..self.best.clone() });
        let mut count = 1;
        while let Some(fewer) = with_fewer_files(&self.best, count) {
            if self.keep(fewer) {
                break;
            }
            count += 1;
        }
        count = 1;
        while let Some(fewer) = on_fewer_machines(&self.best, count) {
            if self.keep(fewer) {
                return;
            }
            count += 1;
        }
    }

    /// Leaves out stretches of calls, long ones first.
    fn drop_calls(&mut self) {
        let mut stretch = self.best.calls.len() / 2;
        while stretch > 0 {
            let mut start = 0;
            while start + stretch <= self.best.calls.len() {
                let mut shorter = self.best.clone();
                shorter.calls.drain(start..start + stretch);
                if !self.keep(shorter) {
                    start += stretch;
                }
            }
            stretch /= 2;
        }
    }

    /// Gives each call plainer arguments.
    fn simplify_calls(&mut self) {
        for index in 0..self.best.calls.len() {
            let mut tried = 0;
            while let Some(call) =
                self.best.calls.get(index).and_then(|call| plainer(call).into_iter().nth(tried))
            {
                let mut simpler = self.best.clone();
                simpler.calls[index] = call;
                if !self.keep(simpler) {
                    tried += 1;
                }
            }
        }
    }
}

/// The case with its founding cut down to the first names, and room for those that join; none if it has no more of them.
fn on_fewer_machines(case: &Case, count: usize) -> Option<Case> {
    let mut fewer = case.clone();
    let joinings = case.calls.iter().filter(|call| matches!(call, Call::Join { .. })).count();
    let rows = (count + joinings).min(MAX_ROWS);
    let Some(Call::Found { capacity, file_len, names, files, counties, .. }) = fewer.calls.first_mut() else {
        return None;
    };
    if 2 * count >= names.len() || *file_len > MAX_FILE as u64 || *files > MAX_FILES as u64 {
        return None;
    }
    names.truncate(2 * count);
    counties.truncate(count);
    *capacity = rows as u64;
    fewer.table = vec![0; Table::length(rows, *file_len as usize, *files as usize)];
    fewer.ledger = Ledger::default();
    fewer.calls.iter_mut().for_each(|call| call.cut_down(rows::first(rows)));
    Some(fewer)
}

/// The case with its founding cut down to so many files, the last of which stands for those beyond; none if it has no more of them.
fn with_fewer_files(case: &Case, count: usize) -> Option<Case> {
    let mut fewer = case.clone();
    let Some(Call::Found { capacity, file_len, files, .. }) = fewer.calls.first_mut() else { return None };
    let before = *files;
    let sizes_fit = *capacity <= MAX_ROWS as u64 && *file_len <= MAX_FILE as u64;
    if count as u64 >= before || before > MAX_FILES as u64 || !sizes_fit {
        return None;
    }
    *files = count as u64;
    fewer.table = vec![0; Table::length(*capacity as usize, *file_len as usize, count)];
    fewer.ledger = Ledger::default();
    for call in &mut fewer.calls {
        call.rename_files(|file| if file <= before { file.min(count as u64) } else { file });
    }
    Some(fewer)
}

/// Plainer calls, each one step away.
fn plainer(call: &Call) -> Vec<Call> {
    match call {
        Call::Join { name, county } => {
            fewer_counties(&[*county]).map(|plain| Call::Join { name: *name, county: plain[0] }).collect()
        }
        Call::Chart { length, mark, list } => {
            let plain = vec![0xff; list.len()];
            let with = |list| Call::Chart { length: *length, mark: *mark, list };
            if plain == *list {
                Vec::new()
            } else {
                vec![with(plain)]
            }
        }
        Call::Choice { coordinator, kind, set } => {
            let plain = vec![0xff; set.len()];
            let with = |set| Call::Choice { coordinator: *coordinator, kind: *kind, set };
            if plain == *set {
                Vec::new()
            } else {
                vec![with(plain)]
            }
        }
        Call::Move { form, to, taken } => {
            let plain = vec![0xff; to.len()];
            if plain == *to {
                Vec::new()
            } else {
                vec![Call::Move { form: *form, to: plain, taken: *taken }]
            }
        }
        Call::Found { capacity, file_len, names, choice, files, counties } => {
            let with = |choice, counties: &[u8]| Call::Found {
                capacity: *capacity,
                file_len: *file_len,
                names: names.clone(),
                choice,
                files: *files,
                counties: counties.to_vec(),
            };
            let mut calls: Vec<Call> =
                fewer_counties(counties).map(|counties| with(*choice, &counties)).collect();
            if *choice != 0 {
                calls.push(with(0, counties));
            }
            calls
        }
        Call::Read { coordinator, answering, offset, length, buffer, called, file } => {
            let with = |answering, offset, length, buffer: &[u8]| Call::Read {
                coordinator: *coordinator,
                answering,
                offset,
                length,
                buffer: buffer.to_vec(),
                called: called.clone(),
                file: *file,
            };
            let mut calls: Vec<Call> =
                fewer(*answering).map(|set| with(set, *offset, *length, buffer)).collect();
            if *length > 1 && *length == buffer.len() as u64 {
                calls.push(with(*answering, *offset, *length / 2, &buffer[..buffer.len() / 2]));
            }
            if *offset > 0 {
                calls.push(with(*answering, 0, *length, buffer));
            }
            calls
        }
        Call::Write { coordinator, answering, offset, patch, called, file, sheet, club } => {
            let with = |answering, offset, patch: &[u8]| Call::Write {
                coordinator: *coordinator,
                answering,
                offset,
                patch: patch.to_vec(),
                called: called.clone(),
                file: *file,
                sheet: sheet.clone(),
                club: *club,
            };
            let mut calls: Vec<Call> = fewer(*answering).map(|set| with(set, *offset, patch)).collect();
            if patch.len() > 1 {
                calls.push(with(*answering, *offset, &patch[..patch.len() / 2]));
            }
            if *offset > 0 {
                calls.push(with(*answering, 0, patch));
            }
            calls.extend(with_open_sheet(call));
            calls
        }
        Call::Send { from, to, answering, file } => {
            let with = |answering| Call::Send { from: *from, to: *to, answering, file: *file };
            fewer(*answering).map(with).collect()
        }
        Call::Check { coordinator, answering, sheet } => {
            let with = |answering| Call::Check { coordinator: *coordinator, answering, sheet: sheet.clone() };
            fewer(*answering).map(with).chain(with_open_sheet(call)).collect()
        }
        Call::Round { answering, orders, sheet } => {
            let with = |answering, orders| Call::Round { answering, orders, sheet: sheet.clone() };
            let shorter =
                fewer_orders(orders).chain(plainer_orders(orders)).map(|orders| with(*answering, orders));
            let sets = fewer(*answering).map(|set| with(set, orders.clone()));
            shorter.chain(sets).chain(with_open_sheet(call)).collect()
        }
    }
}

/// The list without each stretch of orders, long stretches first, and without the bytes left over.
fn fewer_orders(orders: &[u8]) -> impl Iterator<Item = Vec<u8>> + '_ {
    let count = orders.len() / ORDER;
    let halves =
        std::iter::successors(Some(count), |stretch| Some(stretch / 2)).take_while(|&stretch| stretch > 0);
    let stretches = halves.flat_map(move |stretch| {
        (0..=count - stretch).step_by(stretch).map(move |start| ORDER * start..ORDER * (start + stretch))
    });
    let without =
        move |stretch: std::ops::Range<usize>| [&orders[..stretch.start], &orders[stretch.end..]].concat();
    let over = (orders.len() > ORDER * count).then(|| orders[..ORDER * count].to_vec());
    stretches.map(without).chain(over)
}

/// The list with each order in turn made plainer: zeros where nobody reads, one byte, the first one, of the first file, for club 1.
fn plainer_orders(orders: &[u8]) -> impl Iterator<Item = Vec<u8>> + '_ {
    let whole = orders.as_chunks::<ORDER>().0;
    whole.iter().enumerate().flat_map(move |(place, bytes)| {
        let order = Order::read(bytes);
        let mut patch = [0; 8];
        patch[..order.written().len()].copy_from_slice(order.written());
        let read = Order { patch, ..order };
        let plainer =
            [read, Order { length: 1, ..read }, Order { offset: 0, ..read }, Order { file: 1, ..read }];
        let plainer = plainer.into_iter().chain([Order { club: 1, ..read }]);
        plainer.map(|order| order.bytes()).filter(move |plain| plain != bytes).map(move |plain| {
            let mut list = orders.to_vec();
            list[ORDER * place..ORDER * (place + 1)].copy_from_slice(&plain);
            list
        })
    })
}

/// The call with the sheet that turns nobody down, if it has another.
fn with_open_sheet(call: &Call) -> Option<Call> {
    let (mut opened, open) = (call.clone(), Sheet::OPEN.bytes());
    opened.lend(&open);
    (opened != *call).then_some(opened)
}

/// All in county 1, or else each in turn, if they are not.
fn fewer_counties<T: Copy + PartialEq + From<u8>>(counties: &[T]) -> impl Iterator<Item = Vec<T>> + '_ {
    let one = T::from(1);
    let others = (0..counties.len()).filter(move |&place| counties[place] != one);
    let all = counties.iter().any(|&county| county != one).then(|| vec![one; counties.len()]);
    all.into_iter().chain(others.map(move |place| {
        let mut fewer = counties.to_vec();
        fewer[place] = one;
        fewer
    }))
}

/// The set without each of its members in turn.
fn fewer(set: u64) -> impl Iterator<Item = u64> {
    rows::members(set).map(move |row| set & !rows::only(row))
}
