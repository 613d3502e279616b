//! A file as a listing. Every file has one that assembles to the same bytes: a record that does not have the form of its
//! kind stands as `record` with its fields, and bytes that are no record as `bytes`.
use crate::form::{Form, Mark};
use crate::operands::{show, show_number};
use crate::record::{fields, records, Cursor, Record};
use crate::request::Request;

pub fn list(bytes: &[u8]) -> String {
    let (found, rest) = records(bytes);
    let mut numbers = Numbers::default();
    let mut text = String::new();
    for record in &found {
        text += &line(record, &mut numbers).unwrap_or_else(|| raw(record));
    }
    text + &raw_bytes(rest)
}

/// The next number of each record; those inside a function start again with it.
#[derive(Default)]
pub struct Numbers([usize; 9]);

impl Numbers {
    pub fn next(&mut self, mark: Mark) -> usize {
        if mark == Mark::Function {
            self.0[Mark::Argument as usize..=Mark::Statement as usize].fill(0);
        }
        let number = &mut self.0[mark as usize];
        *number += 1;
        *number - 1
    }
}

fn indent(mark: Mark) -> &'static str {
    match mark {
        Mark::Type | Mark::Global | Mark::Function | Mark::Request => "",
        Mark::Statement => "    ",
        _ => "  ",
    }
}

/// A record's line, if it has the form of its kind.
fn line(record: &Record, numbers: &mut Numbers) -> Option<String> {
    let mark = Mark::of_letters(record.letters)?;
    if record.body.len() % 2 != 0 {
        return None; // `bytes` in a listing have no number
    }
    let number = numbers.next(mark);
    let fields = fields(record.body);
    let text = match mark {
        Mark::Request => format!(" {}", Request::read(&fields)?.show()),
        _ => operands(mark.form(), &fields)?,
    };
    Some(format!("{}{} {number}:{text}\n", indent(mark), mark.form().word))
}

fn operands(form: &Form, fields: &[u16]) -> Option<String> {
    let mut cursor = Cursor::new(fields);
    let mut text = show(form.head, &mut cursor)?;
    if !form.kinds.is_empty() {
        let kind = form.kinds.get(cursor.next()? as usize)?;
        text += " ";
        text += kind.name;
        text += &show(kind.operands, &mut cursor)?;
    }
    (cursor.left() == 0).then_some(text)
}

fn raw(record: &Record) -> String {
    let letters = record.letters.map(char::from);
    if record.body.len() % 2 != 0 || !letters.iter().all(char::is_ascii_alphanumeric) {
        let length = (record.body.len() as u16).to_le_bytes();
        return raw_bytes(&[&record.letters[..], &length[..], record.body].concat());
    }
    let fields = fields(record.body);
    let shown: String = fields.iter().map(|f| format!(" {}", show_number(*f))).collect();
    format!("record {}{}{shown}\n", letters[0], letters[1])
}

fn raw_bytes(bytes: &[u8]) -> String {
    let line = |c: &[u8]| format!("bytes{}\n", c.iter().map(|b| format!(" {b:02x}")).collect::<String>());
    bytes.chunks(32).map(line).collect()
}
