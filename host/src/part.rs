//! A requirement: all, exist, none (of a return value alone), or a part: indexes, each with a requirement. Its text is
//! `all`, `exist`, `none` or `{0:all,1:{2:exist}}`; its fields are 0, 1, 3 or 2 with a count and the entries.
use crate::form::ABSENT;
use crate::limits;
use crate::record::Cursor;
use std::fmt;

/// Variables or indexes, each with a requirement.
pub type Parts = Vec<(u16, Part)>;

#[derive(Clone, PartialEq, Eq, Debug)]
pub enum Part {
    All,
    Exist,
    None,
    Entries(Parts),
}

impl fmt::Display for Part {
    fn fmt(&self, f: &mut fmt::Formatter) -> fmt::Result {
        match self {
            Part::All => f.write_str("all"),
            Part::Exist => f.write_str("exist"),
            Part::None => f.write_str("none"),
            Part::Entries(entries) => {
                f.write_str("{")?;
                for (n, (index, part)) in entries.iter().enumerate() {
                    let comma = if n == 0 { "" } else { "," };
                    write!(f, "{comma}{index}:{part}")?;
                }
                f.write_str("}")
            }
        }
    }
}

impl Part {
    pub fn parse(text: &str) -> Result<Part, String> {
        let mut rest = text;
        let part = parse_at(&mut rest, 0)?;
        if rest.is_empty() {
            Ok(part)
        } else {
            Err(format!("'{rest}' after the part"))
        }
    }

    pub fn write(&self, fields: &mut Vec<u16>) {
        match self {
            Part::All => fields.push(0),
            Part::Exist => fields.push(1),
            Part::None => fields.push(3),
            Part::Entries(entries) => {
                fields.extend([2, entries.len() as u16]);
                for (index, part) in entries {
                    fields.push(*index);
                    part.write(fields);
                }
            }
        }
    }

    /// Whatever the fields say, allowed in a request or not; nothing if they are cut or nest too deeply.
    pub fn read(fields: &mut Cursor, nesting: usize) -> Option<Part> {
        match fields.next()? {
            0 => Some(Part::All),
            1 => Some(Part::Exist),
            3 => Some(Part::None),
            2 if nesting < limits::NESTING => {
                let count = fields.next()?;
                let mut entries = Vec::new();
                for _ in 0..count {
                    let index = fields.next()?;
                    entries.push((index, Part::read(fields, nesting + 1)?));
                }
                Some(Part::Entries(entries))
            }
            _ => None,
        }
    }

    /// The entries at every depth.
    pub fn entries(&self) -> usize {
        if let Part::Entries(entries) = self {
            pieces(entries)
        } else {
            0
        }
    }

    /// What 16 counts of it as a record or a return part, which may be none.
    pub fn record_pieces(&self) -> usize {
        if *self == Part::None {
            0
        } else {
            1 + self.entries()
        }
    }

    /// Why a request may not ask for it, if it may not; `top` for a return value's own requirement.
    pub fn fault(&self, depth: usize, top: bool) -> Option<String> {
        match self {
            Part::None if !top => Some("none stands for a return value only".into()),
            Part::Entries(_) if depth == limits::DEPTH => Some(format!("a part is deeper than {}", limits::DEPTH)),
            Part::Entries(e) if e.len() > limits::ENTRIES => Some(format!("a part has more than {} entries", limits::ENTRIES)),
            Part::Entries(e) => ascending(e).or_else(|| e.iter().find_map(|(_, p)| p.fault(depth + 1, false))),
            _ => None,
        }
    }
}

/// A count, then number and part each, as `Part::read` has it.
pub fn read_list(fields: &mut Cursor) -> Option<Parts> {
    let count = fields.next()?;
    (0..count).map(|_| Some((fields.next()?, Part::read(fields, 0)?))).collect()
}

pub fn write_list(parts: &Parts, fields: &mut Vec<u16>) {
    fields.push(parts.len() as u16);
    for (n, part) in parts {
        fields.push(*n);
        part.write(fields);
    }
}

/// What 16 counts: one for each, and its entries at every depth.
pub fn pieces(parts: &Parts) -> usize {
    parts.iter().map(|(_, part)| 1 + part.entries()).sum()
}

/// Whether they are of variables below `count` that ascend, each part within the limits.
pub fn fits(parts: &Parts, count: usize) -> bool {
    let known = parts.iter().all(|(n, part)| (*n as usize) < count && part.fault(0, false).is_none());
    known && ascending(parts).is_none()
}

/// Why these numbers do not ascend, if they do not.
pub fn ascending(entries: &[(u16, Part)]) -> Option<String> {
    if entries.iter().any(|e| e.0 == ABSENT) {
        return Some("65535 is no index".into());
    }
    let pair = entries.windows(2).find(|w| w[0].0 >= w[1].0)?;
    Some(format!("{} before {} does not ascend", pair[0].0, pair[1].0))
}

fn parse_at(rest: &mut &str, nesting: usize) -> Result<Part, String> {
    for (word, part) in [("all", Part::All), ("exist", Part::Exist), ("none", Part::None)] {
        if let Some(after) = rest.strip_prefix(word) {
            *rest = after;
            return Ok(part);
        }
    }
    if nesting == limits::NESTING {
        return Err(format!("a part nests deeper than {}", limits::NESTING));
    }
    expect(rest, '{')?;
    let mut entries = Vec::new();
    while !rest.starts_with('}') {
        if !entries.is_empty() {
            expect(rest, ',')?;
        }
        let index = number_at(rest)?;
        expect(rest, ':')?;
        entries.push((index, parse_at(rest, nesting + 1)?));
    }
    expect(rest, '}')?;
    if entries.len() > ABSENT as usize {
        Err("too many entries".into())
    } else {
        Ok(Part::Entries(entries))
    }
}

fn expect(rest: &mut &str, c: char) -> Result<(), String> {
    *rest = rest.strip_prefix(c).ok_or_else(|| match rest.chars().next() {
        Some(found) => format!("'{c}' expected in a part, not '{found}'"),
        None => format!("'{c}' expected at the end of a part"),
    })?;
    Ok(())
}

fn number_at(rest: &mut &str) -> Result<u16, String> {
    let end = rest.find(|c: char| !c.is_ascii_digit()).unwrap_or(rest.len());
    let (digits, after) = rest.split_at(end);
    *rest = after;
    digits.parse().map_err(|_| format!("an index from 0 to 65535 expected in a part, not '{digits}'"))
}

#[cfg(test)]
mod tests {
    use super::*;

    #[test]
    fn text_and_fields_agree() {
        for (text, wanted) in
            [("all", vec![0]), ("none", vec![3]), ("{}", vec![2, 0]), ("{0:all,1:{2:exist}}", vec![2, 2, 0, 0, 1, 2, 1, 2, 1])]
        {
            let part = Part::parse(text).unwrap();
            let mut fields = Vec::new();
            part.write(&mut fields);
            assert_eq!(fields, wanted);
            assert_eq!(Part::read(&mut Cursor::new(&fields), 0), Some(part.clone()));
            assert_eq!(part.to_string(), text);
        }
    }

    #[test]
    fn bad_text_is_refused() {
        for text in ["", "al", "all,", "{0}", "{0:all", "{0:all 1:all}", "{65536:all}", "{-1:all}", "{,0:all}"] {
            assert!(Part::parse(text).is_err(), "{text}");
        }
        assert!(Part::parse(&"{0:".repeat(100_000)).is_err());
        let deep = [2u16, 1, 0].repeat(10_000);
        assert_eq!(Part::read(&mut Cursor::new(&deep), 0), None);
    }

    #[test]
    fn limits_of_a_request() {
        let fault = |t: &str| Part::parse(t).unwrap().fault(0, true);
        let nest = |n: usize| "{0:".repeat(n) + "all" + &"}".repeat(n);
        assert_eq!(fault(&nest(8)), None);
        assert!(fault(&nest(9)).is_some());
        assert!(fault("{1:all,0:all}").is_some());
        assert!(fault("{0:none}").is_some());
        assert_eq!(fault("none"), None);
    }
}
