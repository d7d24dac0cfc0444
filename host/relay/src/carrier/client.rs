//! Asks a node for a call, and waits for its end.

use super::{address, receive, send, FROM_CLIENT};
use crate::wire::Wire;
use crate::{Group, Outcome, Request};
use dyngrid::{Rows, Shape, Table};
use std::io;
use std::net::TcpStream;
use std::time::Duration;

/// What a client asks for.
pub enum Order {
    Call(Request),
    /// Found a group on these names.
    Found(Group, Vec<u16>),
    /// This machine is gone for good.
    Bury(u16),
    /// Is the machine there, with its row and no row in doubt?
    Ready,
}

/// What it hears.
#[derive(Clone, Debug, PartialEq)]
pub enum Reply {
    Told(Outcome),
    /// A table of the rows that answered.
    Seen(Vec<u8>, Rows),
    Ready(bool),
    /// It has not ended in time. It may be done, now or later: read before you write again.
    Unknown,
}

pub struct Client {
    stream: TcpStream,
}

impl Client {
    pub fn connect(first_port: u16, name: u16) -> io::Result<Client> {
        let mut stream = TcpStream::connect_timeout(&address(first_port, name), Duration::from_millis(300))?;
        stream.set_nodelay(true)?;
        stream.set_read_timeout(Some(Duration::from_secs(8)))?;
        io::Write::write_all(&mut stream, &[FROM_CLIENT])?;
        Ok(Client { stream })
    }

    pub fn ask(&mut self, order: &Order) -> io::Result<Reply> {
        send(&mut self.stream, &order.to_bytes())?;
        Reply::from_bytes(&receive(&mut self.stream)?).ok_or_else(|| io::ErrorKind::InvalidData.into())
    }

    pub fn call(&mut self, request: Request) -> io::Result<Reply> {
        self.ask(&Order::Call(request))
    }

    /// The rows that answered, as a table.
    pub fn survey(&mut self) -> io::Result<Option<(Table, Rows)>> {
        Ok(match self.call(Request::Survey)? {
            Reply::Seen(bytes, rows) => Table::from_bytes(bytes).ok().map(|table| (table, rows)),
            _ => None,
        })
    }
}

impl Wire for Order {
    fn put(&self, to: &mut Vec<u8>) {
        match self {
            Order::Call(request) => {
                to.push(0);
                request.put(to);
            }
            Order::Found(group, names) => {
                to.push(1);
                (group.capacity, (group.files, (group.file_len, group.shape == Shape::Tall))).put(to);
                names.put(to);
            }
            Order::Bury(name) => {
                to.push(2);
                name.put(to);
            }
            Order::Ready => to.push(3),
        }
    }

    fn get(from: &mut &[u8]) -> Option<Self> {
        Some(match u8::get(from)? {
            0 => Order::Call(Wire::get(from)?),
            1 => {
                let (capacity, (files, (file_len, tall))) = Wire::get(from)?;
                let shape = if tall { Shape::Tall } else { Shape::Wide };
                Order::Found(Group { capacity, files, file_len, shape }, Wire::get(from)?)
            }
            2 => Order::Bury(Wire::get(from)?),
            3 => Order::Ready,
            _ => return None,
        })
    }
}

impl Wire for Reply {
    fn put(&self, to: &mut Vec<u8>) {
        match self {
            Reply::Told(outcome) => {
                to.push(0);
                outcome.put(to);
            }
            Reply::Seen(bytes, rows) => {
                to.push(1);
                bytes.put(to);
                rows.put(to);
            }
            Reply::Ready(ready) => {
                to.push(2);
                ready.put(to);
            }
            Reply::Unknown => to.push(3),
        }
    }

    fn get(from: &mut &[u8]) -> Option<Self> {
        Some(match u8::get(from)? {
            0 => Reply::Told(Wire::get(from)?),
            1 => Reply::Seen(Wire::get(from)?, Wire::get(from)?),
            2 => Reply::Ready(Wire::get(from)?),
            3 => Reply::Unknown,
            _ => return None,
        })
    }
}
