//! The same request with other buffers, whose answer follows from that with the right ones: buffers that are too short, a pruner with
//! other bytes.
use crate::lent::{Buffer, Lent, Served};
use crate::library::Reply;
use crate::outline::Outline;
use crate::random::Random;
use crate::totals::Totals;

/// A request that was served, the buffers as they were before it, and its module.
pub struct Asked<'a> {
    pub module: &'a [u8],
    pub outline: &'a Outline,
    pub request: &'a [u8],
    pub before: &'a Lent,
    pub served: &'a Served,
}

/// What it came to, in a word; a message if that is wrong.
pub fn probe(asked: &Asked, random: &mut Random) -> Result<String, String> {
    if random.chance(50) {
        short(asked, random)
    } else {
        other_pruner(asked, random)
    }
}

/// Whether module and request are refused before any buffer is looked at.
fn early(reply: Reply) -> bool {
    matches!(reply, Reply::Refused { number: 1..=12, .. })
}

fn refused(number: u32) -> Reply {
    Reply::Refused { number, place: None }
}

/// Each buffer may be too short; the first of 18, 19 and 20 that holds is the answer.
fn short(asked: &Asked, random: &mut Random) -> Result<String, String> {
    let mut lent = asked.before.clone();
    let which = random.between(1, 7);
    let mut wanted = asked.served.reply;
    for (bit, number, buffer) in [(4, 20, &mut lent.answer), (2, 19, &mut lent.pruner), (1, 18, &mut lent.report)] {
        if which & bit != 0 {
            shorten(buffer, random);
            wanted = if early(asked.served.reply) { asked.served.reply } else { refused(number) };
        }
    }
    let given = lent.serve(asked.module, asked.outline, asked.request)?.reply;
    if given == wanted {
        Ok(format!("short buffer: {}", number(given)))
    } else {
        Err(format!("with short buffers ({which}) the answer is {given:?}, not {wanted:?}"))
    }
}

/// By one byte, or to any length.
fn shorten(buffer: &mut Buffer, random: &mut Random) {
    let length = buffer.bytes().len() - 1;
    let length = if random.chance(50) { length } else { random.below(length) };
    *buffer = buffer.cut(length);
}

fn number(reply: Reply) -> String {
    match reply {
        Reply::Visited(_) => "accepted".into(),
        Reply::Refused { number, .. } => format!("refused {number}"),
    }
}

/// A damaged pruner: 19 where this program's own reading of it finds no totals, the same answer where it finds the same.
fn other_pruner(asked: &Asked, random: &mut Random) -> Result<String, String> {
    let mut lent = asked.before.clone();
    let before = Totals::read(asked.outline, lent.pruner.bytes());
    change(lent.pruner.lent(), random);
    let after = Totals::read(asked.outline, lent.pruner.bytes());
    let (unread, unchanged) = (after.is_none(), after == before);
    let given = lent.serve(asked.module, asked.outline, asked.request)?;
    let right = match given.reply {
        reply if early(asked.served.reply) => reply == asked.served.reply,
        reply if unread => reply == refused(19),
        _ if unchanged => given == *asked.served,
        reply => reply != refused(19),
    };
    let sort = if unread {
        "no pruner"
    } else if unchanged {
        "the same pruner"
    } else {
        "another pruner"
    };
    if right {
        Ok(format!("{sort}: {}", number(given.reply)))
    } else {
        Err(format!("with {sort} the answer is {:?}; with its own, {:?}", given.reply, asked.served.reply))
    }
}

/// Other bytes past the record, a byte of its head, or a change to its fields.
fn change(pruner: &mut [u8], random: &mut Random) {
    let length = u32::from_le_bytes([pruner[2], pruner[3], pruner[4], pruner[5]]) as usize;
    let fresh = pruner[..2] == [0, 0];
    let end = if fresh { 2 } else { (6 + length).min(pruner.len() - 1) };
    match random.below(4) {
        0 => pruner[end..].fill(random.bits() as u8),
        1 => pruner[random.below(6.min(end))] = random.bits() as u8,
        _ if fresh => pruner[0] = b'P',
        _ => fields(&mut pruner[..end], random),
    }
}

/// One field is another.
fn fields(record: &mut [u8], random: &mut Random) {
    let at = 6 + 2 * random.below((record.len() - 6) / 2);
    let field = u16::from_le_bytes([record[at], record[at + 1]]);
    let new = *random.pick(&[field ^ 1, field.wrapping_add(1), field.wrapping_sub(1), 0, 1, 2, 3, 16, 17, 64, 65535]);
    record[at..at + 2].copy_from_slice(&new.to_le_bytes());
}
