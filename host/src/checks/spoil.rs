//! Damaged buffers of a case: any bytes of the module, the request, the report or the context.
use super::Case;
use crate::compare::longest;
use crate::context::Context;
use crate::damage::damaged;
use crate::part::Part;
use crate::random::Random;
use crate::record::{fields, write_long, Cursor};
use std::ops::Range;

/// The case with one buffer damaged, now and then another one too. `stretch` are the bytes of the report that are looked at.
pub fn spoiled(case: &Case, stretch: Range<usize>, random: &mut Random) -> Case {
    let mut copy = case.clone();
    loop {
        match random.below(16) {
            0 if random.chance(10) => copy.module = longest(&copy.module, random),
            0..=4 => copy.module = damaged(&copy.module, random),
            5..=7 => copy.request = request(&copy.request, random),
            8..=11 => copy.report = report(&copy.report, stretch.clone(), random),
            _ => copy.context = context(&copy.context, random),
        }
        if !random.chance(10) {
            return copy;
        }
    }
}

fn request(bytes: &[u8], random: &mut Random) -> Vec<u8> {
    match random.below(8) {
        0 => [bytes, &[0; 3][..random.between(1, 3)]].concat(),
        1 => [bytes, bytes].concat(),
        2..=3 if bytes.len() > 6 => {
            let mut copy = bytes.to_vec();
            copy[4] = copy[4].wrapping_add(random.between(1, 5) as u8);
            copy
        }
        _ => damaged(bytes, random),
    }
}

/// Too short, by one byte or more, or with another number than 0 and 1 where it is looked at or elsewhere.
fn report(bytes: &[u8], stretch: Range<usize>, random: &mut Random) -> Vec<u8> {
    let end = stretch.end.min(bytes.len());
    let mut copy = bytes.to_vec();
    match random.below(6) {
        0 => copy.truncate(end.saturating_sub(1)),
        1 => copy.truncate(random.below(end + 1)),
        2 => copy.truncate(end),
        3 if !copy.is_empty() => {
            let at = random.below(copy.len());
            copy[at] = random.bits() as u8;
        }
        _ if stretch.start < end => {
            let at = random.between(stretch.start, end - 1);
            copy[at] = *random.pick(&[2, 3, 128, 255]);
        }
        _ => copy.clear(),
    }
    copy
}

/// A context that is cut, has bytes more, another head, or other fields.
fn context(bytes: &[u8], random: &mut Random) -> Vec<u8> {
    let mut copy = bytes.to_vec();
    match random.below(10) {
        0 => copy.truncate(random.below(bytes.len() + 1)),
        1 => copy.extend(&[0; 4][..random.between(1, 4)]),
        2 if bytes.len() >= 6 => {
            let at = random.below(6);
            copy[at] = copy[at].wrapping_add(*random.pick(&[1, 2, 254, 255]));
        }
        3 if bytes.len() > 6 => {
            let at = random.between(6, bytes.len() - 1);
            copy[at] ^= 1 << random.below(8);
        }
        4..=5 => copy = unknown(bytes, random).unwrap_or(copy),
        _ if bytes.len() >= 6 => copy = write_long(*b"CX", &other_fields(fields(&bytes[6..]), random)),
        _ => {}
    }
    copy
}

/// A context that names one variable more, which the function may not have.
fn unknown(bytes: &[u8], random: &mut Random) -> Option<Vec<u8>> {
    let mut context = Context::read(&mut Cursor::new(&fields(bytes.get(6..)?)))?;
    let parts = match random.below(3) {
        0 => &mut context.globals,
        1 => &mut context.arguments,
        _ => &mut context.locals,
    };
    let next = parts.last().map_or(0, |p| p.0 + 1);
    parts.push((next.max(random.below(20) as u16), Part::All));
    Some(context.record())
}

fn other_fields(mut values: Vec<u16>, random: &mut Random) -> Vec<u16> {
    if values.is_empty() {
        return vec![random.below(4) as u16];
    }
    let at = random.below(values.len());
    match random.below(6) {
        0 => drop(values.remove(at)),
        1 => values.insert(at, random.below(5) as u16),
        2 => {
            let other = random.below(values.len());
            values.swap(at, other);
        }
        _ => {
            let old = values[at];
            values[at] = *random.pick(&[old.wrapping_add(1), old.wrapping_sub(1), 0, 1, 2, 3, 4, 16, 17, 63, 64, 65534, 65535]);
        }
    }
    values
}
