//! A cluster under fire: machines as processes, killed at any moment and started again, while clients write and read. faults [SECONDS]
//!
//! Every write lays other bytes over the whole of its file. So a read must give what the write of its version wrote, no two writes have
//! one version, and versions rise from each call to those that begin after it has ended.

use dyngrid::Shape;
use relay::carrier::client::{Client, Reply};
use relay::carrier::cluster::{be_a_node, connect, upkeep, Cluster};
use relay::simulate::random::Random;
use relay::{Group, Outcome, Request};
use std::collections::BTreeMap;
use std::process::ExitCode;
use std::sync::atomic::{AtomicBool, Ordering};
use std::sync::{Arc, Mutex};
use std::thread;
use std::time::{Duration, Instant};

const MACHINES: u16 = 5;
const FILES: usize = 2;
const FILE_LEN: usize = 16;
const CLIENTS: u64 = 3;
/// No more calls than these, however fast they are.
const CALLS: usize = 200_000;

/// A call that ended, or of which the end is not known.
struct Call {
    file: usize,
    begun: Instant,
    ended: Instant,
    /// What a write wrote, or what a read gave.
    bytes: Vec<u8>,
    is_read: bool,
    version: Option<u32>,
}

type Log = Arc<Mutex<Vec<Call>>>;

fn main() -> ExitCode {
    be_a_node();
    let seconds = std::env::args().nth(1).and_then(|seconds| seconds.parse().ok()).unwrap_or(20);
    match run(Duration::from_secs(seconds)) {
        Ok(summary) => {
            println!("{summary}");
            ExitCode::SUCCESS
        }
        Err(wrong) => {
            println!("WRONG: {wrong}");
            ExitCode::FAILURE
        }
    }
}

fn run(time: Duration) -> Result<String, String> {
    let text = |error: std::io::Error| error.to_string();
    let mut cluster = Cluster::new(true).map_err(text)?;
    cluster
        .found(Group { capacity: 5, files: FILES, file_len: FILE_LEN, shape: Shape::Wide }, MACHINES)
        .map_err(text)?;
    let (log, over) = (Log::default(), Arc::new(AtomicBool::new(false)));
    let clients: Vec<_> = (1..=CLIENTS)
        .map(|client| {
            let (log, over, first_port) = (log.clone(), over.clone(), cluster.first_port);
            thread::spawn(move || call(client, first_port, &log, &over))
        })
        .collect();
    let (stop, first_port) = (over.clone(), cluster.first_port);
    let keeper = thread::spawn(move || keep_up(first_port, &stop));
    let kills = fire(&mut cluster, time, &log)?;
    over.store(true, Ordering::Relaxed);
    keeper.join().map_err(|_| "upkeep broke down")?;
    clients.into_iter().try_for_each(|client| client.join()).map_err(|_| "a client broke down")?;
    let calls = log.lock().map_err(|_| "a client broke down")?;
    let summary = judge(&calls)?;
    at_the_end(&cluster, &calls)?;
    Ok(format!("{summary}, {kills} kills, in {} s", time.as_secs()))
}

/// Kills machines and starts them again, two at most at a time. In the end all are up.
fn fire(cluster: &mut Cluster, time: Duration, log: &Log) -> Result<usize, String> {
    let begun = Instant::now();
    let mut random = Random::new(begun.elapsed().as_nanos() as u64 ^ u64::from(std::process::id()));
    let mut kills = 0;
    while begun.elapsed() < time && log.lock().map_or(0, |log| log.len()) < CALLS {
        thread::sleep(Duration::from_millis(50 + random.below(300) as u64));
        let name = 1 + random.below(MACHINES.into()) as u16;
        let down = (1..=MACHINES).filter(|name| !cluster.is_up(*name)).count();
        if !cluster.is_up(name) {
            cluster.start(name).map_err(|error| error.to_string())?;
        } else if down < 2 {
            cluster.kill(name);
            kills += 1;
        }
    }
    for name in (1..=MACHINES).filter(|name| !cluster.is_up(*name)).collect::<Vec<_>>() {
        cluster.start(name).map_err(|error| error.to_string())?;
    }
    Ok(kills)
}

/// Checks and sends, by the lowest machine that is up. A call may be refused, or its machine be killed: there is a next time.
fn keep_up(first_port: u16, over: &AtomicBool) {
    while !over.load(Ordering::Relaxed) {
        thread::sleep(Duration::from_millis(100));
        if let Some((name, mut client)) =
            (1..=MACHINES).find_map(|name| Some((name, Client::connect(first_port, name).ok()?)))
        {
            let _ = upkeep(&mut client, name.into(), false);
        }
    }
}

/// Writes and reads at any machine until it is over.
fn call(client: u64, first_port: u16, log: &Log, over: &AtomicBool) {
    let mut random = Random::new(client);
    let mut links: BTreeMap<u16, Client> = BTreeMap::new();
    for number in 1u64.. {
        if over.load(Ordering::Relaxed) {
            return;
        }
        let name = 1 + random.below(MACHINES.into()) as u16;
        let Some(link) = links.remove(&name).or_else(|| Client::connect(first_port, name).ok()) else {
            thread::sleep(Duration::from_millis(2));
            continue;
        };
        let (file, is_read) = (1 + random.below(FILES), random.below(2) == 0);
        let mut patch = client.to_le_bytes().to_vec();
        patch.extend(number.to_le_bytes());
        let request = match is_read {
            true => Request::Read { file, offset: 0, length: FILE_LEN },
            false => Request::Write { file, offset: 0, patch: patch.clone() },
        };
        let begun = Instant::now();
        let mut link = link;
        let reply = link.call(request);
        let ended = Instant::now();
        let (version, bytes) = match &reply {
            Ok(Reply::Told(Outcome::Done { value, bytes })) if is_read => (Some(*value), bytes.clone()),
            Ok(Reply::Told(Outcome::Done { value, .. })) => (Some(*value), patch),
            Ok(Reply::Told(Outcome::Refused(_))) => (None, Vec::new()),
            _ => (None, if is_read { Vec::new() } else { patch }),
        };
        if reply.is_ok() {
            links.insert(name, link);
        }
        // A refused call has left no trace, and a read without an answer tells nothing.
        if !bytes.is_empty() {
            if let Ok(mut log) = log.lock() {
                log.push(Call { file, begun, ended, bytes, is_read, version });
            }
        }
    }
}

fn judge(calls: &[Call]) -> Result<String, String> {
    let mut unknown = 0;
    for file in 1..=FILES {
        let of_file = || calls.iter().filter(|call| call.file == file);
        let mut written: BTreeMap<u32, &[u8]> = BTreeMap::from([(0, &[0; FILE_LEN][..])]);
        let mut maybe: Vec<&[u8]> = Vec::new();
        for write in of_file().filter(|call| !call.is_read) {
            match write.version {
                Some(version) if written.insert(version, &write.bytes).is_some() => {
                    return Err(format!("two writes of file {file} have version {version}"));
                }
                Some(_) => {}
                None => maybe.push(&write.bytes),
            }
        }
        unknown += maybe.len();
        // By the end of each call: the highest version so far.
        let mut by_end: Vec<&Call> = of_file().filter(|call| call.version.is_some()).collect();
        by_end.sort_by_key(|call| call.ended);
        let mut by_begin = by_end.clone();
        by_begin.sort_by_key(|call| call.begun);
        let (mut ends, mut highest) = (by_end.iter().peekable(), 0);
        for call in by_begin {
            while let Some(before) = ends.next_if(|before| before.ended < call.begun) {
                highest = highest.max(before.version.unwrap_or(0));
            }
            let version = call.version.unwrap_or(0);
            let least = if call.is_read { highest } else { highest + 1 };
            if version < least {
                let what = if call.is_read { "read" } else { "write" };
                return Err(format!(
                    "a {what} of file {file} has version {version}, and {highest} was known before it began"
                ));
            }
            let fits = written
                .get(&version)
                .map_or(maybe.contains(&&call.bytes[..]), |bytes| *bytes == &call.bytes[..]);
            if !fits {
                return Err(format!(
                    "a read of version {version} of file {file} gave what no write of it wrote"
                ));
            }
        }
    }
    let done =
        |is_read| calls.iter().filter(|call| call.is_read == is_read && call.version.is_some()).count();
    if done(true) == 0 || done(false) == 0 {
        return Err("nothing was done".into());
    }
    Ok(format!("{} writes and {} reads done, {unknown} writes with an end unknown", done(false), done(true)))
}

/// All are up: no machine is in doubt, upkeep finds an end, and each machine reads the same, newer than all that was told.
fn at_the_end(cluster: &Cluster, calls: &[Call]) -> Result<(), String> {
    let text = |error: std::io::Error| error.to_string();
    (1..=MACHINES).try_for_each(|name| cluster.wait_for(name)).map_err(text)?;
    for name in [1, MACHINES] {
        upkeep(&mut connect(cluster.first_port, name).map_err(text)?, name.into(), true).map_err(text)?;
    }
    for file in 1..=FILES {
        let told = calls.iter().filter(|call| call.file == file).filter_map(|call| call.version).max();
        let mut reads = Vec::new();
        for name in 1..=MACHINES {
            let mut client = connect(cluster.first_port, name).map_err(text)?;
            match client.call(Request::Read { file, offset: 0, length: FILE_LEN }).map_err(text)? {
                Reply::Told(Outcome::Done { value, bytes }) => reads.push((Some(value), bytes)),
                other => return Err(format!("all are up, and machine {name} reads: {other:?}")),
            }
        }
        if reads[0].0 < told || reads.iter().any(|read| *read != reads[0]) {
            return Err(format!(
                "version {told:?} of file {file} was told, and in the end the machines read {reads:?}"
            ));
        }
    }
    Ok(())
}
