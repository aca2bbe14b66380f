//! Memory that is lent to calls, in the midst of bytes that no call may touch.

/// The bytes before and after an area.
const MARGIN: usize = 4_096;

/// An area whose front is lent. It and its margins are filled with a pattern
/// first, so that a stray write shows.
pub struct Area {
    bytes: Vec<u8>,
    expected: Vec<u8>,
}

impl Area {
    pub fn new(length: usize) -> Area {
        let pattern = (0..MARGIN + length + MARGIN).map(|place| (place % 251) as u8);
        let bytes: Vec<u8> = pattern.collect();
        Area {
            expected: bytes.clone(),
            bytes,
        }
    }

    /// The area itself, without its margins.
    pub fn front(&mut self, length: usize) -> &mut [u8] {
        let end = self.bytes.len() - MARGIN;
        &mut self.bytes[MARGIN..end][..length]
    }

    /// Sets bytes that are then to stay.
    pub fn set(&mut self, place: usize, bytes: &[u8]) {
        self.front(place + bytes.len())[place..].copy_from_slice(bytes);
        self.expect(place, bytes);
    }

    /// Says what is to stand at a place.
    pub fn expect(&mut self, place: usize, bytes: &[u8]) {
        self.expected[MARGIN + place..][..bytes.len()].copy_from_slice(bytes);
    }

    /// Takes out the first bytes; the pattern is back in their place.
    pub fn take(&mut self, length: usize) -> Vec<u8> {
        let pattern = &self.expected[MARGIN..][..length];
        let taken = &mut self.bytes[MARGIN..][..length];
        let copy = taken.to_vec();
        taken.copy_from_slice(pattern);
        copy
    }

    /// The first place that differs from what is to stand there, counted from
    /// the area's front.
    pub fn difference(&self) -> Option<isize> {
        if self.bytes == self.expected {
            return None;
        }
        let mut pairs = self.bytes.iter().zip(&self.expected);
        let place = pairs.position(|(found, due)| found != due)?;
        Some(place as isize - MARGIN as isize)
    }
}

#[cfg(test)]
mod tests {
    use super::*;

    #[test]
    fn stray_writes_show() {
        let mut area = Area::new(10);
        assert_eq!(area.difference(), None);
        area.set(3, b"xyz");
        assert_eq!(area.difference(), None);
        area.expect(4, b"-");
        assert_eq!(area.difference(), Some(4));
        area.front(10)[4] = b'-';
        assert_eq!(area.difference(), None);
        area.bytes[MARGIN - 1] ^= 1;
        assert_eq!(area.difference(), Some(-1));
        area.bytes[MARGIN - 1] ^= 1;
        area.bytes[MARGIN + 10] ^= 1;
        assert_eq!(area.difference(), Some(10));
    }

    #[test]
    fn what_is_taken_is_filled_again() {
        let mut area = Area::new(10);
        area.front(2).copy_from_slice(b"ab");
        assert_eq!(area.take(2), b"ab");
        assert_eq!(area.difference(), None);
    }
}
