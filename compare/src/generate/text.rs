//! A call while it is being written.

/// The bits that are printed as `nan`; other NaNs are printed by their bits, so that both sides meet
/// signalling and negative ones too.
const PLAIN_NANS: [u64; 2] = [0x7FF8_0000_0000_0000, 0xFFF8_0000_0000_0000];

#[derive(Clone)]
pub struct Call {
    line: Vec<u8>,
}

impl Call {
    pub fn new(op: &str) -> Self {
        Call { line: op.as_bytes().to_vec() }
    }

    pub fn line(&self) -> &[u8] {
        &self.line
    }

    pub fn word(&mut self, word: &str) {
        self.line.push(b' ');
        self.line.extend_from_slice(word.as_bytes());
    }

    /// With the sizes, counts or indices behind the name.
    pub fn wholes(mut self, values: &[usize]) -> Self {
        for value in values {
            self.word(&value.to_string());
        }
        self
    }

    pub fn with(mut self, cells: &[f64]) -> Self {
        self.numbers(cells);
        self
    }

    pub fn numbers(&mut self, cells: &[f64]) {
        for cell in cells {
            self.number(*cell);
        }
    }

    pub fn number(&mut self, x: f64) {
        self.line.push(b' ');
        let bits = x.to_bits();
        if PLAIN_NANS.contains(&bits) {
            return self.line.extend_from_slice(b"nan");
        }
        for shift in (0..16).rev() {
            self.line.push(b"0123456789ABCDEF"[(bits >> (4 * shift) & 15) as usize]);
        }
    }
}
