//! The orders of a round: writes entered together, under one answering set and with one sheet.

/// The most orders that a round does.
pub const MOST_ORDERS: u32 = 64;
/// The bytes of an order, the last two of which nobody reads.
pub const ORDER: usize = 16;
/// The longest patch of an order.
pub const LONGEST_ORDERED: usize = 8;

#[derive(Clone, Copy, Debug, Default, PartialEq, Eq)]
pub struct Order {
    pub coordinator: u8,
    pub length: u8,
    pub offset: u16,
    /// As much of it as the length says; what is behind that is not read.
    pub patch: [u8; 8],
    pub file: u8,
    pub club: u8,
}

impl Order {
    pub fn read(bytes: &[u8; ORDER]) -> Order {
        let [coordinator, length, low, high, patch @ .., file, club, _, _] = *bytes;
        Order { coordinator, length, offset: u16::from_le_bytes([low, high]), patch, file, club }
    }

    /// With zeros where nobody reads.
    pub fn bytes(&self) -> [u8; ORDER] {
        let mut bytes = [0; ORDER];
        let [low, high] = self.offset.to_le_bytes();
        bytes[..4].copy_from_slice(&[self.coordinator, self.length, low, high]);
        bytes[4..12].copy_from_slice(&self.patch);
        bytes[12..14].copy_from_slice(&[self.file, self.club]);
        bytes
    }

    /// What its write lays over the file: as many bytes as the length says, or none, which question 4 refuses, if that is no length.
    pub fn written(&self) -> &[u8] {
        match usize::from(self.length) {
            length @ 1..=LONGEST_ORDERED => &self.patch[..length],
            _ => &[],
        }
    }
}

#[cfg(test)]
mod tests {
    use super::*;

    #[test]
    fn an_order_in_bytes() {
        let bytes = [7, 3, 0x34, 0x12, 1, 2, 3, 4, 5, 6, 7, 8, 9, 16, 0xee, 0xff];
        let order = Order {
            coordinator: 7,
            length: 3,
            offset: 0x1234,
            patch: [1, 2, 3, 4, 5, 6, 7, 8],
            file: 9,
            club: 16,
        };
        assert_eq!(Order::read(&bytes), order);
        assert_eq!((&order.bytes()[..14], &order.bytes()[14..]), (&bytes[..14], &[0; 2][..]));
        let written = |length| Order { length, ..order }.written().len();
        assert_eq!([0, 1, 7, 8, 9, 16, 255].map(written), [0, 1, 7, 8, 0, 0, 0]);
    }
}
