//! A line as words, numbers and hex.

use consensus::aggregation::scheme::Fixed;
use world::Armed;

/// No such line.
pub struct Bad;

pub struct Words<'a>(std::iter::Peekable<std::vec::IntoIter<&'a str>>);

impl<'a> Words<'a> {
    pub fn new(line: &'a str) -> Self {
        let words: Vec<_> = line
            .split([' ', '\t'])
            .filter(|word| !word.is_empty())
            .collect();
        Self(words.into_iter().peekable())
    }

    pub fn left(&mut self) -> bool {
        self.0.peek().is_some()
    }

    pub fn end(&mut self) -> Result<(), Bad> {
        if self.left() { Err(Bad) } else { Ok(()) }
    }

    pub fn word(&mut self) -> Result<&'a str, Bad> {
        self.0.next().ok_or(Bad)
    }

    pub fn number(&mut self) -> Result<u64, Bad> {
        number(self.word()?)
    }

    /// A number that ends the line.
    pub fn last_number(&mut self) -> Result<u64, Bad> {
        let number = self.number()?;
        self.end()?;
        Ok(number)
    }

    pub fn hex(&mut self) -> Result<Vec<u8>, Bad> {
        hex(self.word()?)
    }

    /// Hex of so many bytes at most; zeros follow.
    pub fn fixed<const N: usize>(&mut self) -> Result<Fixed<N>, Bad> {
        Fixed::padded(&self.hex()?).ok_or(Bad)
    }

    pub fn mask(&mut self) -> Result<Vec<bool>, Bad> {
        mask(self.word()?)
    }

    pub fn armed(&mut self) -> Result<Armed, Bad> {
        match self.word()? {
            "done" => Ok(Armed::Done),
            word => Ok(Armed::Mask(mask(word)?)),
        }
    }
}

pub fn number(word: &str) -> Result<u64, Bad> {
    word.parse().map_err(|_| Bad)
}

fn mask(word: &str) -> Result<Vec<bool>, Bad> {
    word.chars()
        .map(|c| match c {
            '0' => Ok(false),
            '1' => Ok(true),
            _ => Err(Bad),
        })
        .collect()
}

/// An even number of hex digits, or `-` for no bytes.
pub fn hex(word: &str) -> Result<Vec<u8>, Bad> {
    if word == "-" {
        return Ok(Vec::new());
    }
    if word.len() % 2 == 1 {
        return Err(Bad);
    }
    word.as_bytes()
        .chunks(2)
        .map(|pair| {
            let text = std::str::from_utf8(pair).map_err(|_| Bad)?;
            u8::from_str_radix(text, 16).map_err(|_| Bad)
        })
        .collect()
}

pub fn hex_or_dash(bytes: &[u8]) -> String {
    if bytes.is_empty() {
        "-".to_string()
    } else {
        world::hex(bytes)
    }
}

/// Hex without the zero bytes at the end; `-` for nothing.
pub fn short(bytes: &[u8]) -> String {
    let len = bytes
        .iter()
        .rposition(|byte| *byte != 0)
        .map_or(0, |at| at + 1);
    hex_or_dash(&bytes[..len])
}
