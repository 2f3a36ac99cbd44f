//! A part of some bytes, lent; what is around it must stay.

use inputs::random::Random;

#[derive(Clone)]
pub struct Lent(Vec<u8>);

const AROUND: usize = 16;

impl Lent {
    pub fn random(random: &mut Random, length: usize) -> Lent {
        Lent(random.bytes(AROUND + length + AROUND))
    }

    /// What is lent.
    pub fn part(&mut self) -> &mut [u8] {
        let end = self.0.len() - AROUND;
        &mut self.0[AROUND..end]
    }

    /// Writes as many of the bytes as there is room for.
    pub fn write(&mut self, bytes: &[u8]) {
        let fits = self.part().len().min(bytes.len());
        self.part()[..fits].copy_from_slice(&bytes[..fits]);
    }

    /// The first byte that is not as expected, counted from the part's first.
    pub fn compare(&self, expected: &Lent) -> Result<(), String> {
        match (0..self.0.len()).find(|at| self.0[*at] != expected.0[*at]) {
            Some(at) => {
                let (length, at) = (self.0.len() - 2 * AROUND, at as isize - AROUND as isize);
                Err(format!("of {length} bytes: byte {at}"))
            }
            None => Ok(()),
        }
    }
}
