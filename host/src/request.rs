//! A request: a function, what is asked of its return value, and what is asked of globals. As text: `0 all 3={1:exist}`.
use crate::form::ABSENT;
use crate::operands::{number, show_number};
use crate::part::{ascending, read_list, write_list, Part, Parts};
use crate::record::Cursor;

#[derive(Clone, PartialEq, Eq, Debug)]
pub struct Request {
    pub function: u16,
    pub retval: Part,
    pub globals: Parts,
}

impl Request {
    pub fn parse(text: &str) -> Result<Request, String> {
        let mut words = text.split_whitespace();
        let function = number(words.next().ok_or("a request names a function first")?)?;
        let retval = Part::parse(words.next().ok_or("a request asks a part of the return value, or none")?)?;
        let mut globals = Vec::new();
        for word in words {
            let (global, part) = word.split_once('=').ok_or_else(|| format!("'{word}' is no GLOBAL=PART"))?;
            globals.push((number(global)?, Part::parse(part)?));
        }
        if globals.len() > ABSENT as usize {
            Err("too many globals".into())
        } else {
            Ok(Request { function, retval, globals })
        }
    }

    pub fn show(&self) -> String {
        let mut text = format!("{} {}", show_number(self.function), self.retval);
        for (global, part) in &self.globals {
            text += &format!(" {}={part}", show_number(*global));
        }
        text
    }

    pub fn fields(&self) -> Vec<u16> {
        let mut fields = vec![self.function];
        self.retval.write(&mut fields);
        write_list(&self.globals, &mut fields);
        fields
    }

    /// Whatever the fields say; nothing if they are no request at all.
    pub fn read(fields: &[u16]) -> Option<Request> {
        let mut cursor = Cursor::new(fields);
        let function = cursor.next()?;
        let retval = Part::read(&mut cursor, 0)?;
        let globals = read_list(&mut cursor)?;
        (cursor.left() == 0).then_some(Request { function, retval, globals })
    }

    /// Why it is malformed (refusal 12), if it is.
    pub fn fault(&self) -> Option<String> {
        if self.function == ABSENT {
            return Some("no function is named".into());
        }
        let globals = || self.globals.iter().find_map(|(_, p)| p.fault(0, false));
        self.retval.fault(0, true).or_else(|| ascending(&self.globals)).or_else(globals)
    }
}

#[cfg(test)]
mod tests {
    use super::*;

    #[test]
    fn text_and_fields_agree() {
        let text = "2 none 0=all 5={1:{0:exist}}";
        let request = Request::parse(text).unwrap();
        assert_eq!(request.show(), text);
        assert_eq!(Request::read(&request.fields()), Some(request.clone()));
        assert_eq!(request.fault(), None);
        assert_eq!(Request::read(&request.fields()[..5]), None);
    }

    #[test]
    fn malformed_requests_are_named() {
        for text in ["- all", "0 all 1=all 1=all", "0 all 0=none", "0 all -=all", "0 {2:all,1:all}"] {
            assert!(Request::parse(text).unwrap().fault().is_some(), "{text}");
        }
        for text in ["", "0", "0 all 1", "0 all x=all", "q all"] {
            assert!(Request::parse(text).is_err(), "{text}");
        }
    }
}
