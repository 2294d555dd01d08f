//! A sheet as numbers, before it is bytes.

/// The width of a field.
pub const COLUMNS: usize = 8;

/// The greatest metres that a sheet holds.
pub const FAR: i64 = 9_999_999;

/// The most stages and the most readings.
pub const STAGES: usize = 32;
pub const READINGS: usize = 64;

#[derive(Clone)]
pub struct Plan {
    /// Step, process noise and measurement noise; the two counts follow from what is below.
    pub first: [i64; 3],
    pub ends: Vec<i64>,
    /// Kind and metres.
    pub readings: Vec<[i64; 2]>,
}

fn line(out: &mut Vec<u8>, fields: &[i64]) {
    fields.iter().for_each(|value| out.extend(format!("{value:>8}").into_bytes()));
    out.push(b'\n');
}

impl Plan {
    /// Three stages and four readings, one of them missing.
    pub fn small() -> Self {
        let readings = vec![[1, 250], [1, 610], [0, 0], [1, 1350]];
        Plan { first: [20, 3, 15], ends: vec![300, 1000, 1300], readings }
    }

    /// As many stages and readings as asked for, a bus at a steady pace.
    pub fn steady(stages: usize, readings: usize) -> Self {
        let distance = |k: usize| [1, 137 * k as i64];
        Plan {
            first: [10, 2, 9],
            ends: (1..=stages).map(|k| 250 * k as i64).collect(),
            readings: (1..=readings).map(distance).collect(),
        }
    }

    pub fn bytes(&self) -> Vec<u8> {
        let mut out = Vec::new();
        let [step, process, measurement] = self.first;
        let counts = [self.ends.len() as i64, self.readings.len() as i64];
        line(&mut out, &[step, process, measurement, counts[0], counts[1]]);
        self.ends.iter().for_each(|end| line(&mut out, &[*end]));
        self.readings.iter().for_each(|reading| line(&mut out, reading));
        out
    }

    /// Where each line begins, and how many fields it has.
    pub fn lines(&self) -> Vec<(usize, usize)> {
        let mut at = 0;
        let stages = self.ends.iter().map(|_| 1);
        let counts = std::iter::once(5).chain(stages).chain(self.readings.iter().map(|_| 2));
        let place = |fields: usize| {
            at += fields * COLUMNS + 1;
            (at - fields * COLUMNS - 1, fields)
        };
        counts.map(place).collect()
    }

    /// Where each field begins.
    pub fn fields(&self) -> Vec<usize> {
        let of_line = |(at, fields): (usize, usize)| (0..fields).map(move |k| at + k * COLUMNS);
        self.lines().into_iter().flat_map(of_line).collect()
    }

    /// The bytes with this text in the field at a place.
    pub fn with(&self, at: usize, field: &[u8]) -> Vec<u8> {
        let mut bytes = self.bytes();
        bytes[at..at + COLUMNS].copy_from_slice(field);
        bytes
    }
}

/// A number as a field has it.
pub fn field(value: i64) -> Vec<u8> {
    let text = format!("{value:>8}").into_bytes();
    assert_eq!(text.len(), COLUMNS, "{value} is wider than a field");
    text
}
