use crate::{raw, Refusal, Rows, Sheet, Table};
use std::error::Error;
use std::fmt;

/// The bytes of an order in C, where they have what it says, and how many a patch can have.
const BYTES: usize = 16;
const OFFSET: usize = 2;
const PATCH: usize = 4;
const FILE: usize = 12;
const CLUB: usize = 13;
const LONGEST: usize = FILE - PATCH;

/// One write of a [round](Table::round): a patch of 1 to 8 bytes.
///
/// It is of file 1 and by club 1, unless [`Order::in_file`] and [`Order::by_club`] say otherwise. Rows, offsets, files and clubs that a
/// table does not have may be named: the round refuses such an order as a single write would be.
///
/// ```
/// use dyngrid::Order;
///
/// let order = Order::new(2, 24, b"1-0")?.in_file(3).by_club(7);
/// assert_eq!((order.coordinator(), order.offset(), order.patch()), (2, 24, &b"1-0"[..]));
/// assert_eq!(order.to_string(), "3 bytes at 24 of file 3, by row 2, for club 7");
/// assert_eq!(
///     Order::new(2, 24, b"1-0 0-1 1-0").map_err(|error| error.to_string()),
///     Err("an order writes 1 to 8 bytes, and here are 11: split them over two orders or more, or write them singly".into())
/// );
/// # Ok::<(), dyngrid::NotAnOrder>(())
/// ```
#[derive(Clone, Copy, Debug, PartialEq, Eq, Hash)]
pub struct Order {
    coordinator: usize,
    offset: usize,
    length: usize,
    /// Zero behind its length.
    patch: [u8; LONGEST],
    file: usize,
    club: usize,
}

impl Order {
    /// Lays the patch over file 1 from `offset` on, for club 1.
    ///
    /// # Errors
    ///
    /// A patch of no byte, or of more than 8.
    pub fn new(coordinator: usize, offset: usize, patch: &[u8]) -> Result<Order, NotAnOrder> {
        let length = patch.len();
        if length == 0 || length > LONGEST {
            return Err(NotAnOrder { length });
        }
        let mut order = Order { coordinator, offset, length, patch: [0; LONGEST], file: 1, club: 1 };
        order.patch[..length].copy_from_slice(patch);
        Ok(order)
    }

    /// The same by the machine of this row.
    #[must_use]
    pub fn by_row(self, coordinator: usize) -> Order {
        Order { coordinator, ..self }
    }

    /// The same in the file of this number.
    #[must_use]
    pub fn in_file(self, file: usize) -> Order {
        Order { file, ..self }
    }

    /// The same by this club, 1 to 16, for which it counts.
    #[must_use]
    pub fn by_club(self, club: usize) -> Order {
        Order { club, ..self }
    }

    /// The row of the machine that coordinates it.
    #[must_use]
    pub fn coordinator(&self) -> usize {
        self.coordinator
    }

    /// Where in the file its patch begins.
    #[must_use]
    pub fn offset(&self) -> usize {
        self.offset
    }

    /// The 1 to 8 bytes that it writes.
    #[must_use]
    pub fn patch(&self) -> &[u8] {
        &self.patch[..self.length]
    }

    /// The number of the file that it writes.
    #[must_use]
    pub fn file(&self) -> usize {
        self.file
    }

    /// The club that it counts for.
    #[must_use]
    pub fn club(&self) -> usize {
        self.club
    }

    /// The order as C has it. A number that is too high for its byte, or two, becomes the highest that these can say: no table has
    /// that row, file or club, and no file that offset, so that it is refused as the number itself would be.
    #[must_use]
    pub fn to_bytes(&self) -> [u8; BYTES] {
        let byte = |number: usize| u8::try_from(number).unwrap_or(u8::MAX);
        let offset = u16::try_from(self.offset).unwrap_or(u16::MAX);
        let mut bytes = [0; BYTES];
        bytes[0] = byte(self.coordinator);
        bytes[1] = byte(self.length);
        bytes[OFFSET..PATCH].copy_from_slice(&offset.to_le_bytes());
        bytes[PATCH..FILE].copy_from_slice(&self.patch);
        bytes[FILE] = byte(self.file);
        bytes[CLUB] = byte(self.club);
        bytes
    }
}

impl fmt::Display for Order {
    fn fmt(&self, f: &mut fmt::Formatter) -> fmt::Result {
        let Order { coordinator, offset, length, file, club, .. } = self;
        let plural = if *length == 1 { "" } else { "s" };
        write!(f, "{length} byte{plural} at {offset} of file {file}, by row {coordinator}, for club {club}")
    }
}

/// A patch that no order can have.
#[derive(Clone, Copy, Debug, PartialEq, Eq, Hash)]
#[non_exhaustive]
pub struct NotAnOrder {
    /// How many bytes it has.
    pub length: usize,
}

impl fmt::Display for NotAnOrder {
    fn fmt(&self, f: &mut fmt::Formatter) -> fmt::Result {
        match self.length {
            0 => f.write_str("an order writes 1 to 8 bytes, and here are none: leave it out"),
            length => write!(
                f,
                "an order writes 1 to 8 bytes, and here are {length}: split them over two orders or more, or write them singly"
            ),
        }
    }
}

impl Error for NotAnOrder {}

/// A round that was refused at one of its orders, or as a whole.
///
/// **What the orders before it wrote stays.** Where only the refusal counts, `?` and [`Refusal::from`] take it.
#[derive(Clone, Copy, Debug, PartialEq, Eq, Hash)]
pub struct Stopped {
    /// So many orders are done: the first ones. The next one was refused, and those behind it were not looked at.
    pub done: usize,
    /// Why that one was refused.
    pub refusal: Refusal,
}

impl fmt::Display for Stopped {
    fn fmt(&self, f: &mut fmt::Formatter) -> fmt::Result {
        let (done, next) = (self.done, self.done + 1);
        let (orders, are) = if done == 1 { ("order", "is") } else { ("orders", "are") };
        write!(f, "{done} {orders} {are} done; order {next} is {}", self.refusal)
    }
}

impl Error for Stopped {}

impl From<Stopped> for Refusal {
    fn from(stopped: Stopped) -> Refusal {
        stopped.refusal
    }
}

impl Table {
    /// A round: up to 64 short writes entered together. They are made in their order, by the same machines that answered, up to the first
    /// that is refused; gives how many are done, which is all of them.
    ///
    /// The table is as the single writes would leave it, in a fraction of the calls: what a relay has gathered for one write serves a whole
    /// round. A round of no order asks whether the table is in order and the rows in use, and is done with 0.
    ///
    /// ```
    /// use dyngrid::{Order, Refusal, Rows, Shape, Stopped, Table};
    ///
    /// let mut table = Table::found_group(4, 16, &[1, 2, 3, 4], Shape::Wide, 2)?;
    /// let results = [Order::new(1, 0, b"1-0")?, Order::new(1, 4, b"0-1")?, Order::new(2, 0, b"0:47")?.in_file(2)];
    /// assert_eq!(table.round(Rows::of(&[1, 2, 3])?, &results), Ok(3));
    ///
    /// // The second ends beyond the file: the first is done and stays, the third was not looked at.
    /// let results = [Order::new(1, 8, b"1/2")?, Order::new(1, 14, b"1/2")?, Order::new(1, 0, b"0-0")?];
    /// let stopped = Stopped { done: 1, refusal: Refusal::OutOfRange };
    /// assert_eq!(table.round(Rows::first(4), &results), Err(stopped));
    /// let (file, read) = table.file(1).read_whole(4, Rows::first(4))?;
    /// assert_eq!((&file[..12], read.version), (&b"1-0\x000-1\x001/2\0"[..], 3));
    /// # Ok::<(), Box<dyn std::error::Error>>(())
    /// ```
    ///
    /// # Errors
    ///
    /// Refused by 1 to 4, 6 to 8 and 16, as its writes would be; by 4 too at a 65th order, which is not looked at. The error tells how
    /// many orders are done all the same.
    pub fn round(&mut self, answering: Rows, orders: &[Order]) -> Result<usize, Stopped> {
        self.round_with(&mut Sheet::open(), answering, orders)
    }

    /// The same on a sheet, where each done order counts for its [club](Order::by_club). It is refused also by 18 if the club is at its
    /// ceiling or none of 1 to 16, by 19 if it has made its assured writes and of those that the clubs share none is left.
    ///
    /// ```
    /// use dyngrid::{Allowance, Order, Refusal, Rows, Shape, Sheet, Stopped, Table};
    ///
    /// let mut table = Table::found(4, 16, &[1, 2, 3, 4], Shape::Wide)?;
    /// // Of three writes two are club 1's own, and one is shared.
    /// let mut sheet = Sheet::new(&[Allowance { assured: 2, ceiling: 9 }, Allowance { assured: 0, ceiling: 9 }], 3)?;
    /// let result = |club| Order::new(1, 0, b"1-0").map(|order| order.by_club(club));
    /// let results = [result(2)?, result(1)?, result(2)?, result(1)?];
    /// let stopped = Stopped { done: 2, refusal: Refusal::NoneLeftToShare };
    /// assert_eq!(table.round_with(&mut sheet, Rows::first(4), &results), Err(stopped));
    /// assert_eq!(sheet.clubs().map(|club| club.made).sum::<u32>(), 2);
    /// # Ok::<(), Box<dyn std::error::Error>>(())
    /// ```
    pub fn round_with(
        &mut self,
        sheet: &mut Sheet,
        answering: Rows,
        orders: &[Order],
    ) -> Result<usize, Stopped> {
        // Nothing behind the 65th is looked at.
        let orders: Vec<u8> = orders.iter().take(65).flat_map(Order::to_bytes).collect();
        let (table, sheet) = (&mut self.bytes, sheet.bytes_mut());
        // SAFETY: the table, the orders, which are only read, and the sheet are live for the call and cannot overlap.
        let result = unsafe {
            raw::grid_round(
                table.as_mut_ptr(),
                table.len(),
                answering.bits(),
                orders.as_ptr(),
                orders.len(),
                sheet.as_mut_ptr(),
                sheet.len(),
            )
        };
        // Unlike that of any other call, the value tells even where it was refused.
        let done = result as u32 as usize;
        match Refusal::from_number((result >> 32) as u32) {
            None => Ok(done),
            Some(refusal) => Err(Stopped { done, refusal }),
        }
    }
}
