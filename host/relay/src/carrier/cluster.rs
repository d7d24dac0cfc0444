//! Nodes as processes on 127.0.0.1, each with a folder. A program that has a cluster begins with [`be_a_node`]: it starts itself again
//! for each node.

use super::address;
use super::client::{Client, Order, Reply};
use super::node::{run, Settings};
use crate::upkeep::due;
use crate::{Founding, Frame, Group, Outcome, Request};
use std::collections::hash_map::RandomState;
use std::collections::BTreeMap;
use std::hash::{BuildHasher, Hasher};
use std::net::TcpListener;
use std::path::PathBuf;
use std::process::{Child, Command, Stdio};
use std::time::{Duration, Instant};
use std::{env, fs, io, thread};

const NODE: &str = "node";

pub struct Cluster {
    pub first_port: u16,
    folder: PathBuf,
    founding: Founding,
    sync: bool,
    frame: Option<Frame>,
    children: BTreeMap<u16, Child>,
}

/// In a process that a cluster has started: runs the node, and does not come back.
pub fn be_a_node() {
    let args: Vec<String> = env::args().collect();
    let [_, node, name, folder, first_port, founding, sync, frame] = &args[..] else { return };
    if node != NODE {
        return;
    }
    let settings = || -> Option<Settings> {
        Some(Settings {
            founding: Founding(founding.parse().ok()?),
            name: name.parse().ok()?,
            folder: folder.into(),
            first_port: first_port.parse().ok()?,
            sync: sync == "sync",
            frame: Frame::from_bytes(&frame.as_bytes().chunks(2).map(byte).collect::<Option<Vec<u8>>>()?),
        })
    };
    let settings = settings().expect("a cluster starts nodes with good arguments");
    if let Err(error) = run(settings) {
        eprintln!("machine {name}: {error}");
        std::process::exit(1);
    }
    std::process::exit(0);
}

fn byte(figures: &[u8]) -> Option<u8> {
    u8::from_str_radix(std::str::from_utf8(figures).ok()?, 16).ok()
}

/// 64 bits that nobody has had.
fn fresh() -> u64 {
    RandomState::new().build_hasher().finish()
}

impl Cluster {
    /// A cluster of a new founding; no node runs yet.
    pub fn new(sync: bool) -> io::Result<Cluster> {
        let folder = env::temp_dir().join(format!("relay-{:016x}", fresh()));
        fs::create_dir_all(&folder)?;
        let founding = Founding(u128::from(fresh()) << 64 | u128::from(fresh()));
        Ok(Cluster {
            first_port: free_ports()?,
            folder,
            founding,
            sync,
            frame: None,
            children: BTreeMap::new(),
        })
    }

    pub fn start(&mut self, name: u16) -> io::Result<()> {
        let frame = self
            .frame
            .iter()
            .flat_map(|frame| frame.as_bytes())
            .map(|byte| format!("{byte:02x}"))
            .collect::<String>();
        let child = Command::new(env::current_exe()?)
            .args([NODE, &name.to_string()])
            .arg(self.folder.join(name.to_string()))
            .args([self.first_port.to_string(), self.founding.0.to_string()])
            .args([if self.sync { "sync" } else { "no" }, &frame])
            .stdin(Stdio::piped())
            .spawn()?;
        self.children.insert(name, child);
        Ok(())
    }

    /// Kills a node: its process is gone at once, in the middle of whatever it does.
    pub fn kill(&mut self, name: u16) {
        if let Some(mut child) = self.children.remove(&name) {
            let _ = child.kill();
            let _ = child.wait();
        }
    }

    pub fn is_up(&self, name: u16) -> bool {
        self.children.contains_key(&name)
    }

    pub fn client(&self, name: u16) -> io::Result<Client> {
        connect(self.first_port, name)
    }

    /// Founds a group on the machines 1, 2, 3, .. and waits until each has its row.
    pub fn found(&mut self, group: Group, machines: u16) -> io::Result<()> {
        let names: Vec<u16> = (1..=machines).collect();
        let (frame, _) = Frame::found(group, &names).map_err(io::Error::other)?;
        self.frame = Some(frame);
        names.iter().try_for_each(|name| self.start(*name))?;
        match self.client(1)?.ask(&Order::Found(group, names.clone()))? {
            Reply::Told(Outcome::Done { .. }) => names.iter().try_for_each(|name| self.wait_for(*name)),
            other => Err(io::Error::other(format!("the founding ended so: {other:?}"))),
        }
    }

    /// Waits until a machine has its row and is in no doubt.
    pub fn wait_for(&self, name: u16) -> io::Result<()> {
        let mut client = self.client(name)?;
        for _ in 0..1000 {
            if client.ask(&Order::Ready)? == Reply::Ready(true) {
                return Ok(());
            }
            thread::sleep(Duration::from_millis(10));
        }
        Err(io::Error::other(format!("machine {name} is not ready after ten seconds")))
    }
}

/// A node that has just been started may not listen yet.
pub fn connect(first_port: u16, name: u16) -> io::Result<Client> {
    let begun = Instant::now();
    loop {
        match Client::connect(first_port, name) {
            Err(_) if begun.elapsed() < Duration::from_secs(5) => thread::sleep(Duration::from_millis(5)),
            end => return end,
        }
    }
}

/// Makes the calls that are due, by the machine of this name, until none is; gives how many. A call that is refused, or whose end is
/// not known, is left for the next time.
pub fn upkeep(client: &mut Client, own: usize, refresh: bool) -> io::Result<usize> {
    let mut made = 0;
    for _ in 0..20 {
        let Some((table, rows)) = client.survey()? else { break };
        let next = due(&table, rows, own, refresh);
        if next.is_empty() {
            break;
        }
        for request in next {
            let check = matches!(request, Request::Check { .. });
            match client.call(request)? {
                Reply::Told(Outcome::Done { .. }) => made += 1,
                _ if check => return Ok(made),
                _ => {}
            }
        }
    }
    Ok(made)
}

/// The first of 70 ports, none of which is in use.
fn free_ports() -> io::Result<u16> {
    for _ in 0..100 {
        let first = 20_000 + (fresh() % 30_000) as u16;
        if (1..70).all(|name| TcpListener::bind(address(first, name)).is_ok()) {
            return Ok(first);
        }
    }
    Err(io::Error::other("no 70 ports in a row are free"))
}

impl Drop for Cluster {
    fn drop(&mut self) {
        for name in self.children.keys().copied().collect::<Vec<_>>() {
            self.kill(name);
        }
        let _ = fs::remove_dir_all(&self.folder);
    }
}

/// How long something took, in milliseconds.
pub fn timed<T>(what: impl FnOnce() -> T) -> (T, f64) {
    let begun = Instant::now();
    let value = what();
    (value, begun.elapsed().as_secs_f64() * 1000.0)
}
