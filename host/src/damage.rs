//! Damaged copies of a file: a bit turned, a field changed, a record left out, doubled, exchanged or renamed, the end cut off.
use crate::form::FORMS;
use crate::random::Random;
use crate::record::{fields, records, write};

pub fn damaged(bytes: &[u8], random: &mut Random) -> Vec<u8> {
    if bytes.is_empty() {
        return vec![random.bits() as u8];
    }
    match random.below(10) {
        0 => bit(bytes, random),
        1 => bytes[..random.below(bytes.len())].to_vec(),
        n => parts(bytes, n, random),
    }
}

fn bit(bytes: &[u8], random: &mut Random) -> Vec<u8> {
    let mut copy = bytes.to_vec();
    copy[random.below(bytes.len())] ^= 1 << random.below(8);
    copy
}

/// A file as the list of its records, the cut end as one more.
fn parts(bytes: &[u8], way: usize, random: &mut Random) -> Vec<u8> {
    let (found, rest) = records(bytes);
    let mut parts: Vec<Vec<u8>> = found.iter().map(|r| bytes[r.at..r.at + 4 + r.body.len()].to_vec()).collect();
    parts.push(rest.to_vec());
    let at = random.below(parts.len());
    match way {
        2 => drop(parts.remove(at)),
        3 => parts.insert(at, parts[at].clone()),
        4 => {
            let other = random.below(parts.len());
            parts.swap(at, other);
        }
        5 if parts[at].len() >= 2 => {
            let letters = random.pick(&FORMS).letters;
            parts[at][..2].copy_from_slice(&letters);
        }
        _ => parts[at] = changed(&parts[at], random),
    }
    parts.concat()
}

/// A record with a field changed, one more or one less.
fn changed(record: &[u8], random: &mut Random) -> Vec<u8> {
    if record.len() < 4 {
        return record.to_vec();
    }
    let mut values = fields(&record[4..]);
    match random.below(6) {
        0 => drop(values.pop()),
        1 => values.push(random.below(5) as u16),
        _ if values.is_empty() => {}
        _ => {
            let at = random.below(values.len());
            let old = values[at];
            let new = [old.wrapping_add(1), old.wrapping_sub(1), old ^ 1, 0, 2, 3, 4, 16, 17, 63, 64, 65534, 65535];
            values[at] = *random.pick(&new);
        }
    }
    write([record[0], record[1]], &values).unwrap_or_else(|| record.to_vec())
}
