//! The line protocol of PROTOCOL.md: the words of a call, its numbers, the answer line, and the loop
//! that answers each line of standard input with one line of standard output.

use std::io::{self, BufRead, BufReader, BufWriter, Write};

/// Why a line could not be understood, or what the driver found wrong besides the result.
pub type Bad = &'static str;

/// What `nan` reads as.
const NAN: f64 = f64::from_bits(0x7FF8_0000_0000_0000);

/// The value of each hexadecimal digit; 255 for every other byte.
const DIGITS: [u8; 256] = digits();

const fn digits() -> [u8; 256] {
    let mut table = [255; 256];
    let mut value = 0;
    while value < 16 {
        table[b"0123456789ABCDEF"[value] as usize] = value as u8;
        table[b"0123456789abcdef"[value] as usize] = value as u8;
        value += 1;
    }
    table
}

/// The words of one line that are still to be read.
pub struct Words<'a> {
    rest: &'a [u8],
}

impl<'a> Words<'a> {
    pub fn new(line: &'a [u8]) -> Self {
        Words { rest: line }
    }

    fn skip_spaces(&mut self) {
        while let [b' ', rest @ ..] = self.rest {
            self.rest = rest;
        }
    }

    /// Whether a word is left.
    pub fn more(&mut self) -> bool {
        self.skip_spaces();
        !self.rest.is_empty()
    }

    pub fn word(&mut self) -> Result<&'a [u8], Bad> {
        if !self.more() {
            return Err("a word is missing");
        }
        let end = self.rest.iter().position(|&c| c == b' ').unwrap_or(self.rest.len());
        let (word, rest) = self.rest.split_at(end);
        self.rest = rest;
        Ok(word)
    }

    /// Nothing may follow.
    pub fn end(&mut self) -> Result<(), Bad> {
        if self.more() {
            return Err("a word too many");
        }
        Ok(())
    }

    pub fn number(&mut self) -> Result<f64, Bad> {
        let word = self.word()?;
        if word == b"nan" {
            return Ok(NAN);
        }
        if word.len() != 16 {
            return Err("not a number");
        }
        let mut bits = 0u64;
        for &c in word {
            let value = DIGITS[c as usize];
            if value == 255 {
                return Err("not a number");
            }
            bits = bits << 4 | value as u64;
        }
        Ok(f64::from_bits(bits))
    }

    pub fn fill(&mut self, cells: &mut [f64]) -> Result<(), Bad> {
        for cell in cells {
            *cell = self.number()?;
        }
        Ok(())
    }

    pub fn vector<const N: usize>(&mut self) -> Result<[f64; N], Bad> {
        let mut cells = [0.0; N];
        self.fill(&mut cells)?;
        Ok(cells)
    }

    pub fn cells(&mut self, count: usize) -> Result<Vec<f64>, Bad> {
        let mut cells = vec![0.0; count];
        self.fill(&mut cells)?;
        Ok(cells)
    }

    /// A decimal whole number.
    pub fn whole<T: std::str::FromStr>(&mut self) -> Result<T, Bad> {
        let word = std::str::from_utf8(self.word()?).map_err(|_| "not a whole number")?;
        word.parse().map_err(|_| "not a whole number")
    }

    /// A size, 1 to 4.
    pub fn size(&mut self) -> Result<usize, Bad> {
        match self.whole()? {
            n @ 1..=4 => Ok(n),
            _ => Err("a size outside 1 to 4"),
        }
    }

    /// An index below `limit`.
    pub fn index(&mut self, limit: usize) -> Result<usize, Bad> {
        match self.whole()? {
            i if i < limit => Ok(i),
            _ => Err("an index outside the matrix"),
        }
    }

    /// How many slots are offered.
    pub fn slots(&mut self) -> Result<usize, Bad> {
        match self.whole()? {
            s if s <= 1000 => Ok(s),
            _ => Err("more slots than the protocol allows"),
        }
    }
}

/// The answer line while it is being written.
#[derive(Default)]
pub struct Answer {
    text: Vec<u8>,
}

impl Answer {
    fn put(&mut self, word: &[u8]) {
        if !self.text.is_empty() {
            self.text.push(b' ');
        }
        self.text.extend_from_slice(word);
    }

    pub fn ok(&mut self) {
        self.put(b"ok");
    }

    pub fn refused(&mut self, number: u8) {
        self.put(b"refused");
        self.whole(number as usize);
    }

    /// What follows is left behind.
    pub fn bar(&mut self) {
        self.put(b"|");
    }

    /// The next step's answer follows.
    pub fn then(&mut self) {
        self.put(b";");
    }

    pub fn whole(&mut self, value: usize) {
        self.put(value.to_string().as_bytes());
    }

    pub fn number(&mut self, x: f64) {
        if x.is_nan() {
            return self.put(b"nan");
        }
        let mut word = [0; 16];
        let mut bits = x.to_bits();
        for digit in word.iter_mut().rev() {
            *digit = b"0123456789ABCDEF"[(bits & 15) as usize];
            bits >>= 4;
        }
        self.put(&word);
    }

    pub fn numbers(&mut self, cells: &[f64]) {
        for &cell in cells {
            self.number(cell);
        }
    }
}

/// Equal bits, all NaNs counting as one.
pub fn same(a: &[f64], b: &[f64]) -> bool {
    let alike = |(x, y): (&f64, &f64)| x.to_bits() == y.to_bits() || (x.is_nan() && y.is_nan());
    a.len() == b.len() && a.iter().zip(b).all(alike)
}

/// What a driver does with one call.
pub type Driver = fn(&mut Words, &mut Answer) -> Result<(), Bad>;

fn answer_line(line: &[u8], answer: &mut Answer, driver: Driver) {
    answer.text.clear();
    if line.is_empty() || line[0] == b'#' {
        return;
    }
    if let Err(text) = driver(&mut Words::new(line), answer) {
        answer.text.clear();
        answer.put(b"bad");
        answer.put(text.as_bytes());
    }
}

/// Answers standard input line by line.
pub fn serve(driver: Driver) -> io::Result<()> {
    let mut input = BufReader::with_capacity(1 << 20, io::stdin().lock());
    let mut output = BufWriter::with_capacity(1 << 20, io::stdout().lock());
    let mut line = Vec::new();
    let mut answer = Answer::default();
    while input.read_until(b'\n', &mut line)? != 0 {
        if line.last() == Some(&b'\n') {
            line.pop();
        }
        answer_line(&line, &mut answer, driver);
        output.write_all(&answer.text)?;
        output.write_all(b"\n")?;
        line.clear();
    }
    output.flush()
}

/// The `main` of a driver that has a module for each family of calls, each with its own `call`.
#[macro_export]
macro_rules! driver {
    () => {
        fn call(
            words: &mut $crate::protocol::Words,
            answer: &mut $crate::protocol::Answer,
        ) -> Result<(), $crate::protocol::Bad> {
            use $crate::ops::{family, Family};
            let op = words.word()?;
            match family(op)? {
                Family::Scalar => scalar::call(op, words, answer),
                Family::Matrix => matrix::call(op, words, answer),
                Family::Kalman => kalman::call(op, words, answer),
                Family::Imm => imm::call(op, words, answer),
                Family::SqrtKalman => sqrt_kalman::call(op, words, answer),
                Family::Information => information_filter::call(op, words, answer),
                Family::RtsSmoother => rts_smoother::call(op, words, answer),
            }
        }

        fn main() -> std::io::Result<()> {
            $crate::protocol::serve(call)
        }
    };
}
