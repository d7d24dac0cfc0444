//! Messages, and what machines and coordinators keep, as bytes: numbers low byte first, lists with their length before them.

use crate::coordinator::Birth;
use crate::{
    Body, CallNumber, Change, Coordinator, Doubt, Fate, Founding, Frame, Machine, Message, Note, Outcome,
    Request, Seat,
};
use dyngrid::{Refusal, Rows};

/// Something that is written as bytes and read again.
pub trait Wire: Sized {
    fn put(&self, to: &mut Vec<u8>);
    /// Reads one and leaves the rest; none if it is not there.
    fn get(from: &mut &[u8]) -> Option<Self>;

    fn to_bytes(&self) -> Vec<u8> {
        let mut bytes = Vec::new();
        self.put(&mut bytes);
        bytes
    }

    /// One that takes all the bytes.
    fn from_bytes(mut bytes: &[u8]) -> Option<Self> {
        let value = Self::get(&mut bytes)?;
        bytes.is_empty().then_some(value)
    }
}

macro_rules! numbers {
    ($($number:ty),*) => {$(
        impl Wire for $number {
            fn put(&self, to: &mut Vec<u8>) {
                to.extend(self.to_le_bytes());
            }

            fn get(from: &mut &[u8]) -> Option<Self> {
                let (first, rest) = from.split_first_chunk()?;
                *from = rest;
                Some(<$number>::from_le_bytes(*first))
            }
        }
    )*};
}

numbers!(u8, u16, u32, u64, u128);

impl Wire for usize {
    fn put(&self, to: &mut Vec<u8>) {
        (*self as u32).put(to);
    }

    fn get(from: &mut &[u8]) -> Option<Self> {
        u32::get(from).map(|number| number as usize)
    }
}

impl Wire for bool {
    fn put(&self, to: &mut Vec<u8>) {
        u8::from(*self).put(to);
    }

    fn get(from: &mut &[u8]) -> Option<Self> {
        u8::get(from).map(|byte| byte == 1)
    }
}

impl<T: Wire> Wire for Vec<T> {
    fn put(&self, to: &mut Vec<u8>) {
        self.len().put(to);
        self.iter().for_each(|item| item.put(to));
    }

    fn get(from: &mut &[u8]) -> Option<Self> {
        (0..usize::get(from)?).map(|_| T::get(from)).collect()
    }
}

impl<T: Wire> Wire for Option<T> {
    fn put(&self, to: &mut Vec<u8>) {
        self.is_some().put(to);
        self.iter().for_each(|item| item.put(to));
    }

    fn get(from: &mut &[u8]) -> Option<Self> {
        if bool::get(from)? {
            T::get(from).map(Some)
        } else {
            Some(None)
        }
    }
}

impl<A: Wire, B: Wire> Wire for (A, B) {
    fn put(&self, to: &mut Vec<u8>) {
        self.0.put(to);
        self.1.put(to);
    }

    fn get(from: &mut &[u8]) -> Option<Self> {
        Some((A::get(from)?, B::get(from)?))
    }
}

impl Wire for Rows {
    fn put(&self, to: &mut Vec<u8>) {
        self.bits().put(to);
    }

    fn get(from: &mut &[u8]) -> Option<Self> {
        u64::get(from).map(Rows::from_bits)
    }
}

impl Wire for Frame {
    fn put(&self, to: &mut Vec<u8>) {
        self.as_bytes().to_vec().put(to);
    }

    fn get(from: &mut &[u8]) -> Option<Self> {
        Frame::from_bytes(&Vec::get(from)?)
    }
}

/// A record is its fields, one after the other.
macro_rules! records {
    ($($record:ident { $($field:ident),* })*) => {$(
        impl Wire for $record {
            fn put(&self, to: &mut Vec<u8>) {
                $(self.$field.put(to);)*
            }

            fn get(from: &mut &[u8]) -> Option<Self> {
                Some($record { $($field: Wire::get(from)?),* })
            }
        }
    )*};
}

records! {
    CallNumber { name, start, count }
    Change { frame, ranges }
    Doubt { call, frame, bytes, heard }
    Seat { row, frame, kept, count, doubt, taken }
    Birth { row, frame, bytes }
    Message { founding, to, call, row, body }
}

impl Wire for Founding {
    fn put(&self, to: &mut Vec<u8>) {
        self.0.put(to);
    }

    fn get(from: &mut &[u8]) -> Option<Self> {
        u128::get(from).map(Founding)
    }
}

/// A choice of several is the number of the one, and its fields.
macro_rules! choices {
    ($($choice:ident { $($number:literal: $name:ident $({ $($field:ident),* })? $(($item:ident))?,)* })*) => {$(
        impl Wire for $choice {
            fn put(&self, to: &mut Vec<u8>) {
                match self {
                    $($choice::$name $({ $($field),* })? $(($item))? => {
                        to.push($number);
                        $($($field.put(to);)*)?
                        $($item.put(to);)?
                    })*
                }
            }

            fn get(from: &mut &[u8]) -> Option<Self> {
                Some(match u8::get(from)? {
                    $($number => {
                        $($(let $field = Wire::get(from)?;)*)?
                        $(let $item = Wire::get(from)?;)?
                        $choice::$name $({ $($field),* })? $(($item))?
                    })*
                    _ => return None,
                })
            }
        }
    )*};
}

choices! {
    Fate {
        0: Holds,
        1: Took,
        2: Never,
        3: Unknown,
    }
    Body {
        0: Give { file, lock },
        1: Store { count, change, heard },
        2: Take,
        3: Drop,
        4: Unlock,
        5: Again { count },
        6: Found { frame, bytes },
        7: Row { count, frame, bytes },
        8: Busy,
        9: Stored,
        10: NotStored,
        11: Took,
        12: Still,
        13: NotStill,
        14: InDoubt { asker },
        15: Inquire { asker, count },
        16: Knows(fate),
    }
    Request {
        0: Read { file, offset, length },
        1: Write { file, offset, patch },
        2: Send { file, from, to },
        3: Check { without },
        4: Join,
        5: Survey,
    }
    Outcome {
        0: Done { value, bytes },
        1: Refused(refusal),
    }
}

impl Wire for Refusal {
    fn put(&self, to: &mut Vec<u8>) {
        self.number().put(to);
    }

    fn get(from: &mut &[u8]) -> Option<Self> {
        Refusal::from_number(u32::get(from)?)
    }
}

/// Without those that have taken.
impl Wire for Note {
    fn put(&self, to: &mut Vec<u8>) {
        self.call.put(to);
        self.frame.put(to);
        self.rows.put(to);
        self.births.put(to);
    }

    fn get(from: &mut &[u8]) -> Option<Self> {
        let (call, frame, rows) = (Wire::get(from)?, Wire::get(from)?, Wire::get(from)?);
        Some(Note { call, frame, rows, births: Wire::get(from)?, took: Rows::EMPTY })
    }
}

/// What a machine has on its disk.
impl Wire for Machine {
    fn put(&self, to: &mut Vec<u8>) {
        self.founding.put(to);
        self.name.put(to);
        self.seat.put(to);
        self.buried.put(to);
    }

    fn get(from: &mut &[u8]) -> Option<Self> {
        let machine = Machine::new(Wire::get(from)?, Wire::get(from)?);
        Some(Machine { seat: Wire::get(from)?, buried: Wire::get(from)?, ..machine })
    }
}

/// What a coordinator has on its disk; read, it is one that starts anew.
impl Wire for Coordinator {
    fn put(&self, to: &mut Vec<u8>) {
        self.founding.put(to);
        self.name.put(to);
        self.start.put(to);
        self.notes.put(to);
    }

    fn get(from: &mut &[u8]) -> Option<Self> {
        Some(Coordinator::start(Wire::get(from)?, Wire::get(from)?, Wire::get(from)?, Wire::get(from)?))
    }
}
