//! The core on TCP and files: a process for each machine.
//!
//! - [`disk`]: a record in a file, replaced as a whole;
//! - [`node`]: a machine and its coordinator, their clock and their connections;
//! - [`client`]: what asks a node for a call;
//! - [`cluster`]: nodes as processes of this machine, started, killed and started again.
//!
//! It is an example and a test, not a product: everyone who can connect may call.

pub mod client;
pub mod cluster;
pub mod disk;
pub mod node;

use std::io::{self, Read, Write};
use std::net::{Ipv4Addr, SocketAddr, TcpStream};

/// What a connection carries, its first byte.
const FROM_NODE: u8 = 0;
const FROM_CLIENT: u8 = 1;
/// No record is longer.
const LONGEST: u32 = 16 << 20;

/// Where the machine of a name listens.
pub fn address(first_port: u16, name: u16) -> SocketAddr {
    (Ipv4Addr::LOCALHOST, first_port + name).into()
}

fn send(stream: &mut TcpStream, bytes: &[u8]) -> io::Result<()> {
    let mut record = (bytes.len() as u32).to_le_bytes().to_vec();
    record.extend(bytes);
    stream.write_all(&record)
}

fn receive(stream: &mut TcpStream) -> io::Result<Vec<u8>> {
    let mut length = [0; 4];
    stream.read_exact(&mut length)?;
    let length = u32::from_le_bytes(length);
    if length > LONGEST {
        return Err(io::ErrorKind::InvalidData.into());
    }
    let mut bytes = vec![0; length as usize];
    stream.read_exact(&mut bytes)?;
    Ok(bytes)
}
