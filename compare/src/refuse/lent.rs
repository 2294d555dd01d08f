//! What a call lends: slices of marked cells, and single cells behind a pointer without a length. One marked cell
//! stands beyond each end.

/// The bits of every number that is lent.
pub const MARKER: u64 = 0xC0DE_C0DE_C0DE_C0DE;

#[derive(Clone, Copy, Debug)]
pub enum Part {
    /// A slice of so many numbers.
    Slice(usize),
    /// One cell of 8 bytes that holds these bits.
    Cell(u64),
}

impl Part {
    fn cells(self) -> Vec<u64> {
        match self {
            Part::Slice(length) => vec![MARKER; length + 2],
            Part::Cell(bits) => vec![MARKER, bits, MARKER],
        }
    }
}

/// The parts of a call in the order of its parameters, and the one whose turn it is.
pub struct Lent {
    parts: Vec<Part>,
    cells: Vec<Vec<u64>>,
    at: usize,
}

impl Lent {
    pub fn new(parts: &[Part]) -> Self {
        Lent { parts: parts.to_vec(), cells: parts.iter().map(|part| part.cells()).collect(), at: 0 }
    }

    /// The pointer to the part whose turn it is.
    pub fn pointer<T>(&mut self) -> *mut T {
        self.cells[self.at][1..].as_mut_ptr().cast()
    }

    /// The length of that slice; the next part's turn comes.
    pub fn length(&mut self) -> usize {
        self.at += 1;
        self.cells[self.at - 1].len() - 2
    }

    /// The pointer to a part that has no length; the next part's turn comes.
    pub fn cell<T>(&mut self) -> *mut T {
        let pointer = self.pointer();
        self.at += 1;
        pointer
    }

    /// Whether everything is as it was lent.
    pub fn is_untouched(&self) -> bool {
        self.parts.iter().zip(&self.cells).all(|(part, cells)| part.cells() == *cells)
    }
}
