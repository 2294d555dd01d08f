//! Writes lines: numbers in 8 columns each, and one byte 0A.

/// At most 8 digits, or a minus and 7.
fn field(out: &mut Vec<u8>, value: i32) {
    let mut columns = [b' '; 8];
    let mut left = value.unsigned_abs();
    let mut at = columns.len();
    loop {
        at -= 1;
        columns[at] = b'0' + (left % 10) as u8;
        left /= 10;
        if left == 0 {
            break;
        }
    }
    if value < 0 {
        columns[at - 1] = b'-';
    }
    out.extend_from_slice(&columns);
}

pub fn line(out: &mut Vec<u8>, values: &[i32]) {
    values.iter().for_each(|value| field(out, *value));
    out.push(b'\n');
}
