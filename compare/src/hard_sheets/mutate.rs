//! A good sheet with one to three changes: of bytes, of fields, of lines.

use super::draw::Draw;
use super::form;
use super::plan::{field, Plan, COLUMNS};

/// Bytes that a sheet is made of, and their neighbours.
const NEAR: &[u8] = b"0123456789 -\n\r\t\0+./:,\x1F\x80\xFF";

/// A field of the plan, where it stands before other changes, gets another text.
fn other_field(draw: &mut Draw, plan: &Plan, bytes: &mut [u8]) {
    let at = *draw.pick(&plan.fields());
    let text = match draw.below(3) {
        0 => draw.pick(&form::malformed()).clone(),
        1 => field(*draw.pick(&form::NUMBERS)),
        _ => field(draw.between(-100, 100)),
    };
    if let Some(place) = bytes.get_mut(at..at + COLUMNS) {
        place.copy_from_slice(&text);
    }
}

fn change(draw: &mut Draw, plan: &Plan, bytes: &mut Vec<u8>) {
    let at = draw.below(bytes.len() + 1);
    let (any, near) = (draw.next() as u8, *draw.pick(NEAR));
    match draw.below(12) {
        0 => bytes.truncate(at),
        1 => bytes.insert(at, near),
        2 => bytes.insert(at, any),
        3 => bytes.extend(vec![near; 1 + draw.below(20)]),
        4 | 5 => other_field(draw, plan, bytes),
        6 => {
            let (from, fields) = *draw.pick(&plan.lines());
            let end = from + fields * COLUMNS + 1;
            if end <= bytes.len() {
                let line: Vec<u8> = bytes.drain(from..end).collect();
                if draw.once_in(2) {
                    let lines = plan.lines();
                    let to = draw.pick(&lines).0.min(bytes.len());
                    bytes.splice(to..to, line);
                }
            }
        }
        _ if at == bytes.len() => bytes.push(near),
        7 => drop(bytes.remove(at)),
        8 => bytes.swap(at, 0),
        9 => bytes[at] ^= 1 << (any & 7),
        10 => bytes[at] = any,
        _ => bytes[at] = near,
    }
}

pub fn changed(draw: &mut Draw, plan: &Plan) -> Vec<u8> {
    let mut bytes = plan.bytes();
    for _ in 0..1 + draw.below(3) {
        change(draw, plan, &mut bytes);
    }
    bytes
}
