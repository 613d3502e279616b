//! Operands as text: a number, `-` (absent), `default` (a case's value), `[1 2 3]` (a count, then the items), `0:5` (two
//! fields), `.zx` (a swizzle pattern), and the names of sample levels and gather modes. Text is turned into fields as it
//! stands, whatever the kind; `check` says whether the fields fit.
use crate::form::{Operand, Shape, ABSENT, LETTERS, LEVELS, MODES};
use crate::record::Cursor;

/// Words and brackets; spaces and commas stand between them.
pub fn tokens(text: &str) -> Vec<&str> {
    let mut found = Vec::new();
    for word in text.split(|c: char| c.is_whitespace() || c == ',') {
        let mut rest = word;
        while !rest.is_empty() {
            let end = match rest.find(['[', ']']) {
                Some(0) => 1,
                Some(n) => n,
                None => rest.len(),
            };
            found.push(&rest[..end]);
            rest = &rest[end..];
        }
    }
    found
}

pub fn parse(tokens: &[&str]) -> Result<Vec<u16>, String> {
    let mut fields = Vec::new();
    let mut open: Option<usize> = None; // where the count of the open list stands
    for token in tokens {
        match (*token, open) {
            ("[", None) => {
                open = Some(fields.len());
                fields.push(0);
            }
            ("[", Some(_)) => return Err("'[' inside a list".into()),
            ("]", Some(_)) => open = None,
            ("]", None) => return Err("']' without '['".into()),
            (word, _) => {
                fields.extend(item(word)?);
                if let Some(at) = open {
                    fields[at] += 1;
                }
            }
        }
        if fields.len() > ABSENT as usize {
            return Err("too many operands".into());
        }
    }
    if open.is_some() {
        Err("']' is missing".into())
    } else {
        Ok(fields)
    }
}

fn item(word: &str) -> Result<Vec<u16>, String> {
    if let Some(letters) = word.strip_prefix('.') {
        return pattern(letters);
    }
    for names in [&LEVELS[..], &MODES[..]] {
        if let Some(code) = names.iter().position(|n| n.0 == word) {
            return Ok(vec![code as u16]);
        }
    }
    word.split(':').map(number).collect()
}

fn pattern(letters: &str) -> Result<Vec<u16>, String> {
    let mut fields = vec![0];
    for c in letters.chars().take(ABSENT as usize) {
        let letter = LETTERS.find(c).ok_or_else(|| format!("'{c}' is no letter of a pattern ({LETTERS})"))?;
        fields[0] += 1;
        fields.push(letter as u16);
    }
    Ok(fields)
}

pub fn number(word: &str) -> Result<u16, String> {
    match word {
        "-" | "default" => Ok(ABSENT),
        _ if word.starts_with('+') => Err(format!("'{word}' is no number")),
        _ => word.parse().map_err(|_| format!("'{word}' is no number from 0 to 65535")),
    }
}

/// The operands' text, each with a space before it; nothing if the fields are of another shape.
pub fn show(operands: &[Operand], fields: &mut Cursor) -> Option<String> {
    let mut text = String::new();
    for (_, shape) in operands {
        text.push(' ');
        text += &show_one(*shape, fields)?;
    }
    Some(text)
}

fn show_one(shape: Shape, fields: &mut Cursor) -> Option<String> {
    let first = fields.next()?;
    let count = first as usize;
    match shape {
        Shape::Expressions => Some(list(fields.take(count)?.iter().map(|f| show_number(*f)))),
        Shape::Members => Some(list(fields.take(2 * count)?.chunks(2).map(|m| pair(show_number(m[0]), m[1])))),
        Shape::Cases => Some(list(fields.take(2 * count)?.chunks(2).map(|c| pair(case(c[0]), c[1])))),
        Shape::Pattern => {
            let letters = fields.take(count)?.iter().map(|f| LETTERS.chars().nth(*f as usize));
            Some(format!(".{}", letters.collect::<Option<String>>()?))
        }
        Shape::Level => coded(&LEVELS, count, fields),
        Shape::Mode => coded(&MODES, count, fields),
        Shape::Range => Some(format!("{} {}", show_number(first), show_number(fields.next()?))),
        _ => Some(show_number(first)),
    }
}

fn list(items: impl Iterator<Item = String>) -> String {
    format!("[{}]", items.collect::<Vec<_>>().join(" "))
}

fn pair(left: String, right: u16) -> String {
    format!("{left}:{}", show_number(right))
}

fn case(value: u16) -> String {
    if value == ABSENT {
        "default".into()
    } else {
        value.to_string()
    }
}

fn coded(names: &[(&str, usize)], code: usize, fields: &mut Cursor) -> Option<String> {
    let (name, handles) = names.get(code)?;
    let mut text = name.to_string();
    for f in fields.take(*handles)? {
        text += &format!(" {}", show_number(*f));
    }
    Some(text)
}

pub fn show_number(field: u16) -> String {
    if field == ABSENT {
        "-".into()
    } else {
        field.to_string()
    }
}

#[cfg(test)]
mod tests {
    use super::*;

    #[test]
    fn text_becomes_fields() {
        for (text, wanted) in [
            ("1 -", vec![1, ABSENT]),
            ("0 [1 2,3] 4", vec![0, 3, 1, 2, 3, 4]),
            ("[]", vec![0]),
            ("[0:1 default:2]", vec![2, 0, 1, ABSENT, 2]),
            ("3 .zx", vec![3, 2, 2, 0]),
            ("Gradient 5 6", vec![4, 5, 6]),
        ] {
            assert_eq!(parse(&tokens(text)), Ok(wanted));
        }
        for text in ["x", "65536", "[1", "1]", "[[1]]", ".q", "+1", "1:", "-1"] {
            assert!(parse(&tokens(text)).is_err(), "{text}");
        }
    }
}
