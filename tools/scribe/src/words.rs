//! The words of a line, read one after the other.

use crate::written::Source;

/// A line that has words, by its number in the text.
pub struct Line<'a> {
    pub number: usize,
    words: Vec<&'a str>,
    next: usize,
}

/// The lines that have words. `#` starts a comment.
pub fn lines(text: &str) -> impl Iterator<Item = Line<'_>> {
    text.lines().enumerate().filter_map(|(k, line)| {
        let plain = line.split('#').next().unwrap_or("");
        let words: Vec<&str> = plain.split_whitespace().collect();
        (!words.is_empty()).then_some(Line { number: k + 1, words, next: 0 })
    })
}

impl<'a> Line<'a> {
    /// The line's first word.
    pub fn name(&self) -> &'a str {
        self.words[0]
    }

    /// The line as written, without its comment.
    pub fn source(&self) -> Source {
        Source { line: self.number, words: self.words.join(" ") }
    }

    pub fn error(&self, message: &str) -> String {
        format!("line {}: {}", self.number, message)
    }

    /// The error of a word that is not what was expected here.
    pub fn expected(&self, what: &str) -> String {
        match self.peek() {
            Some(word) => self.error(&format!("expected {what}, found '{word}'")),
            None => self.error(&format!("expected {what}, found the end of the line")),
        }
    }

    pub fn peek(&self) -> Option<&'a str> {
        self.words.get(self.next).copied()
    }

    /// This very word.
    pub fn word(&mut self, word: &str) -> Result<(), String> {
        if self.peek() != Some(word) {
            return Err(self.expected(&format!("'{word}'")));
        }
        self.next += 1;
        Ok(())
    }

    /// A number in decimal digits, from `least` to `most`.
    pub fn number(&mut self, what: &str, least: u32, most: u32) -> Result<u32, String> {
        let number = self.peek().and_then(decimal).filter(|n| (least..=most).contains(n));
        let Some(number) = number else {
            return Err(self.expected(&format!("{what} ({least} to {most})")));
        };
        self.next += 1;
        Ok(number)
    }

    /// Different numbers, up to the word `stop` or the end of the line.
    pub fn numbers(
        &mut self,
        what: &str,
        least: u32,
        most: u32,
        stop: Option<&str>,
    ) -> Result<Vec<u32>, String> {
        let mut numbers = Vec::new();
        while self.peek().is_some() && self.peek() != stop {
            let number = self.number(what, least, most)?;
            if numbers.contains(&number) {
                return Err(self.error(&format!("expected {number} once, found it twice")));
            }
            numbers.push(number);
        }
        Ok(numbers)
    }

    /// The bytes up to the end of the line, two hexadecimal digits each.
    pub fn bytes(&mut self, what: &str) -> Result<Vec<u8>, String> {
        let mut bytes = Vec::new();
        while let Some(word) = self.peek() {
            let Some(byte) = two_digits(word) else {
                return Err(self.expected(&format!("{what} of two hexadecimal digits")));
            };
            bytes.push(byte);
            self.next += 1;
        }
        Ok(bytes)
    }

    pub fn end(&self) -> Result<(), String> {
        if self.peek().is_some() {
            return Err(self.expected("the end of the line"));
        }
        Ok(())
    }
}

fn decimal(word: &str) -> Option<u32> {
    if !word.bytes().all(|c| c.is_ascii_digit()) {
        return None;
    }
    word.parse().ok()
}

fn two_digits(word: &str) -> Option<u8> {
    if word.len() != 2 || !word.bytes().all(|c| c.is_ascii_hexdigit()) {
        return None;
    }
    u8::from_str_radix(word, 16).ok()
}
