//! Fields that are malformed, or just well formed, and lines that are.

use super::plan::{field, Plan, COLUMNS};

/// Numbers at a limit of some field, and beside it.
pub const NUMBERS: [i64; 30] = [
    -9_999_999, -9_999_998, -1_000_000, -100, -99, -2, -1, 0, 1, 2, 3, 31, 32, 33, 63, 64, 65, 98, 99, 100,
    101, 9_998, 9_999, 10_000, 999_999, 9_999_998, 9_999_999, 10_000_000, 12_345_678, 99_999_999,
];

/// Texts of up to 8 bytes, put at a field's end with spaces before them; most are no number.
#[rustfmt::skip]
const TEXTS: [&[u8]; 54] = [
    b"-0", b"00", b"05", b"+5", b"+0", b"-", b"+", b"", b"5 ", b"- 5", b"-  5", b"5 5", b"--5", b"-+5", b"-05",
    b"-00", b"5-", b"5-5", b"\t5", b"5\t", b"\t", b"5\r", b"\r", b"5\0", b"\0", b"\x005", b"a", b"5a", b"a5", b"1e1",
    b"5.", b".5", b"5.0", b"0x5", b"1,0", b"1_0", b"/", b":", b"5/", b"5:", b"5\n", b"\n5", b"\n", b"\x0B5", b"\x1F5",
    b"\x215", b"\x7F", b"\xA05", b"\xB5", b"5\xFF", b"\xFF5", b"\xC2\xB2", b"\xD9\xA5", b"-\x805",
];

/// Texts that fill a field.
#[rustfmt::skip]
const WHOLE: [&[u8]; 16] = [
    b"5       ", b"    5   ", b" 5     5", b"-      5", b"   -   5", b"      -0", b"00000000", b"00000005", b"-0000005",
    b"-0000000", b"+0000005", b"0      5", b"--------", b"-5      ", b"\0\0\0\0\0\0\x005", b"\t\t\t\t\t\t\t5",
];

/// Every text of the lists above, 8 bytes each.
pub fn malformed() -> Vec<Vec<u8>> {
    let padded = |text: &&[u8]| [&b"        "[text.len()..], text].concat();
    TEXTS.iter().chain(&WHOLE).map(padded).collect()
}

/// Each text and each number in each field of a small sheet.
pub fn fields() -> Vec<Vec<u8>> {
    let plan = Plan::small();
    let mut texts = malformed();
    texts.extend(NUMBERS.map(field));
    let places = plan.fields();
    places.iter().flat_map(|at| texts.iter().map(|text| plan.with(*at, text)).collect::<Vec<_>>()).collect()
}

/// Every byte at every place of a sheet of one stage and one reading.
pub fn bytes() -> Vec<Vec<u8>> {
    let mut plan = Plan::steady(1, 1);
    plan.readings[0] = [1, -137];
    let good = plan.bytes();
    let changed = |at: usize, byte: u8| [&good[..at], &[byte], &good[at + 1..]].concat();
    (0..good.len())
        .flat_map(|at| (0..=255).map(move |byte| (at, byte)))
        .map(|(at, byte)| changed(at, byte))
        .collect()
}

/// A small sheet cut at every byte, as it is and with an 0A put there; a byte left out, doubled, or put in.
pub fn cuts() -> Vec<Vec<u8>> {
    let good = Plan::small().bytes();
    let mut sheets = Vec::new();
    for at in 0..=good.len() {
        let (before, after) = good.split_at(at);
        sheets.push(before.to_vec());
        sheets.push([before, b"\n"].concat());
        for put in [&b"\n"[..], b" ", b"5", b"\r", b"        ", b"       1"] {
            sheets.push([before, put, after].concat());
        }
        if let [_, rest @ ..] = after {
            sheets.push([before, rest].concat());
        }
    }
    sheets
}

/// What may stand after the last line: each byte, lines, much of something.
pub fn tails() -> Vec<Vec<u8>> {
    let mut tails: Vec<Vec<u8>> = (0..=255).map(|byte| vec![byte]).collect();
    tails.extend(
        [&b"\n\n"[..], b"     300\n", b"       0       0\n", b"       1     400\n", b"\r\n"]
            .map(<[u8]>::to_vec),
    );
    tails.extend([2, 17, 100, 1418, 70_000].map(|count| vec![b' '; count]));
    tails.extend([2, 1418, 70_000].map(|count| vec![b'\n'; count]));
    let mut sheets = Vec::new();
    for plan in [Plan::small(), Plan::steady(1, 1)] {
        sheets.extend(tails.iter().map(|tail| [plan.bytes(), tail.clone()].concat()));
    }
    sheets.extend(tails.iter().skip(230).map(|tail| [Plan::steady(32, 64).bytes(), tail.clone()].concat()));
    sheets
}

/// Lines left out, doubled, exchanged with the next, shortened by a field and widened by one; other ends of lines.
pub fn lines() -> Vec<Vec<u8>> {
    let plan = Plan::small();
    let good = plan.bytes();
    let mut sheets = Vec::new();
    let places = plan.lines();
    for (k, (at, fields)) in places.iter().enumerate() {
        let end = at + fields * COLUMNS + 1;
        let (before, line, after) = (&good[..*at], &good[*at..end], &good[end..]);
        sheets.push([before, after].concat());
        sheets.push([before, line, line, after].concat());
        sheets.push([before, &line[COLUMNS..], after].concat());
        sheets.push([before, &line[..COLUMNS], line, after].concat());
        sheets.push([before, &line[..line.len() - 1], after].concat());
        sheets.push([before, &line[..line.len() - 1], b"\r\n", after].concat());
        sheets.push([before, &line[..line.len() - 1], b"\r", after].concat());
        sheets.push([before, b"\n", line, after].concat());
        if let Some((_, next)) = places.get(k + 1) {
            let next_end = end + next * COLUMNS + 1;
            sheets.push([before, &good[end..next_end], line, &good[next_end..]].concat());
        }
    }
    sheets
}
