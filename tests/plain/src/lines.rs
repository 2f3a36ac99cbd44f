//! Text, line by line: as many bytes as there is room for are written.

/// The text's bytes so far.
pub struct Lines<'a> {
    out: &'a mut [u8],
    pub length: usize,
}

impl<'a> Lines<'a> {
    pub fn over(out: &'a mut [u8]) -> Lines<'a> {
        Lines { out, length: 0 }
    }

    fn byte(&mut self, byte: u8) {
        if let Some(place) = self.out.get_mut(self.length) {
            *place = byte;
        }
        self.length += 1;
    }

    pub fn text(&mut self, text: &[u8]) {
        for byte in text {
            self.byte(*byte);
        }
    }

    /// A number below 10,000 in decimal digits.
    pub fn number(&mut self, number: usize) {
        for unit in [1000, 100, 10] {
            if number >= unit {
                self.byte(b'0' + (number / unit % 10) as u8);
            }
        }
        self.byte(b'0' + (number % 10) as u8);
    }

    /// A number and a blank.
    pub fn field(&mut self, number: usize) {
        self.number(number);
        self.byte(b' ');
    }

    /// A number and the line's end.
    pub fn last(&mut self, number: usize) {
        self.number(number);
        self.byte(b'\n');
    }

    /// All that is written of what is refused.
    pub fn refused(&mut self, refusal: u8) {
        self.text(b"refused ");
        self.last(refusal as usize);
    }
}
