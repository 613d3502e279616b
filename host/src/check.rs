//! What reading refuses (1 to 5) and what a request refuses at once (12, 11), with the place and the reason. It decides
//! nothing: the library does. It is here to tell a listing's author what is wrong with a line.
use crate::form::{Kind, Mark, Operand, Shape, ABSENT, LEVELS, MODES};
use crate::limits;
use crate::operands::show_number;
use crate::record::{fields, records, split, Cursor, Record};
use crate::request::Request;

#[derive(Clone, PartialEq, Eq, Debug)]
pub struct Refusal {
    pub number: u16,
    /// The byte where the record in question starts.
    pub at: usize,
    pub reason: String,
}

fn refusal<T>(number: u16, at: usize, reason: impl Into<String>) -> Result<T, Refusal> {
    Err(Refusal { number, at, reason: reason.into() })
}

/// A file: a module, and then any number of requests.
pub fn file(bytes: &[u8]) -> Result<(), Refusal> {
    let start = split(bytes);
    let module = module(&bytes[..start])?;
    let (found, rest) = records(&bytes[start..]);
    for record in &found {
        let place = |r: Refusal| Refusal { at: r.at + start, ..r };
        request(record, &module).map_err(place)?;
    }
    if rest.is_empty() {
        Ok(())
    } else {
        refusal(12, bytes.len() - rest.len(), "the request is cut short")
    }
}

/// A request's record against a module that is read.
pub fn request(record: &Record, module: &Module) -> Result<(), Refusal> {
    let even = record.letters == *b"RQ" && record.body.len() % 2 == 0;
    let read = even.then(|| Request::read(&fields(record.body))).flatten();
    let Some(request) = read else { return refusal(12, record.at, "this is no request") };
    if let Some(reason) = request.fault() {
        return refusal(12, record.at, reason);
    }
    if request.function as usize >= module.entries.len() {
        return refusal(11, record.at, format!("there is no function {}", request.function));
    }
    match request.globals.iter().find(|g| g.0 as usize >= module.globals) {
        Some((global, _)) => refusal(11, record.at, format!("there is no global {global}")),
        None => Ok(()),
    }
}

/// What is known of a module while its records are read.
#[derive(Default)]
pub struct Module {
    types: usize,
    globals: usize,
    /// Of each function, whether it is an entry.
    entries: Vec<bool>,
    function: Function,
}

/// What is known of the function that is open.
#[derive(Default)]
struct Function {
    arguments: usize,
    locals: usize,
    /// Of each expression, whether an emit has it.
    emitted: Vec<bool>,
    statements: usize,
    /// Where each block's record starts.
    blocks: Vec<usize>,
    held: Vec<Held>,
}

/// A block that a statement holds, the block that this statement is in, and where its record starts.
struct Held {
    block: u16,
    inside: usize,
    at: usize,
}

pub fn module(bytes: &[u8]) -> Result<Module, Refusal> {
    if bytes.len() > limits::BYTES {
        return refusal(1, 0, format!("the module has more than {} bytes", limits::BYTES));
    }
    let (found, rest) = records(bytes);
    let mut module = Module::default();
    let mut last = Mark::Type;
    for record in &found {
        last = module.record(record, last)?;
    }
    if !rest.is_empty() {
        return refusal(2, bytes.len() - rest.len(), "the record is cut short");
    }
    module.end(bytes.len())?;
    Ok(module)
}

impl Module {
    /// Reads one record; its mark comes back, for the next one's place.
    fn record(&mut self, record: &Record, last: Mark) -> Result<Mark, Refusal> {
        let mark = match Mark::of_letters(record.letters) {
            Some(mark) if mark != Mark::Request => mark,
            _ => return refusal(3, record.at, "this is no record of a module"),
        };
        if !placed(mark, last) {
            return refusal(3, record.at, format!("{} may not stand here", mark.form().word));
        }
        if mark == Mark::Function {
            self.end(record.at)?;
        }
        let fields = fields(record.body);
        if let Some(reason) = self.over(mark, &fields) {
            return refusal(4, record.at, reason);
        }
        if record.body.len() % 2 != 0 {
            return refusal(5, record.at, "the record's length is odd");
        }
        if mark == Mark::Function {
            self.function = Function::default();
        }
        self.fields(mark, &fields, record.at).or_else(|reason| refusal(5, record.at, reason))?;
        self.count(mark, &fields, record.at);
        Ok(mark)
    }

    /// The limit that one more such record passes, if it does.
    fn over(&self, mark: Mark, fields: &[u16]) -> Option<String> {
        let f = &self.function;
        let (count, limit) = match mark {
            Mark::Type => (self.types, limits::TYPES),
            Mark::Global => (self.globals, limits::GLOBALS),
            Mark::Function => (self.entries.len(), limits::FUNCTIONS),
            Mark::Argument => (f.arguments, limits::ARGUMENTS),
            Mark::Local => (f.locals, limits::LOCALS),
            Mark::Expression => (f.emitted.len(), limits::EXPRESSIONS),
            Mark::Statement => (f.statements, limits::STATEMENTS),
            Mark::Block | Mark::Request => (0, 1),
        };
        if count >= limit {
            return Some(format!("more than {limit} {} records", mark.form().word));
        }
        let items = match (mark, fields) {
            (Mark::Type, [6, n, ..]) => *n,
            (Mark::Expression, [_, 8, n, ..]) => *n,
            (Mark::Statement, [14, _, n, ..]) => *n,
            _ => 0,
        };
        (items as usize > limits::ITEMS).then(|| format!("more than {} members, components or arguments", limits::ITEMS))
    }

    fn fields(&mut self, mark: Mark, fields: &[u16], at: usize) -> Result<(), String> {
        let form = mark.form();
        let mut cursor = Cursor::new(fields);
        self.operands("", form.head, &mut cursor, at)?;
        if !form.kinds.is_empty() {
            let code = cursor.next().ok_or("the kind is missing")?;
            let kind: &Kind = form.kinds.get(code as usize).ok_or_else(|| format!("there is no kind {code}"))?;
            self.operands(kind.name, kind.operands, &mut cursor, at)?;
        }
        if mark == Mark::Function && fields[1] == ABSENT && fields[2] != ABSENT {
            return Err("a binding without a result".into());
        }
        match cursor.left() {
            0 => Ok(()),
            n => Err(format!("operands left over: {n}")),
        }
    }

    fn operands(&mut self, kind: &str, operands: &[Operand], cursor: &mut Cursor, at: usize) -> Result<(), String> {
        for (name, shape) in operands {
            let place = |reason| format!("{kind} {name}: {reason}").trim_start().to_string();
            self.operand(*shape, cursor, at).map_err(place)?;
        }
        Ok(())
    }

    fn operand(&mut self, shape: Shape, cursor: &mut Cursor, at: usize) -> Result<(), String> {
        let first = cursor.next().ok_or("is missing")?;
        let f = &self.function;
        match shape {
            Shape::Type => below(first, self.types, "type"),
            Shape::ResultType => absent_or(first, |t| below(t, self.types, "type")),
            Shape::Binding => absent_or(first, binding),
            Shape::Size => within(first, 2, 4),
            Shape::Number => within(first, 0, ABSENT - 1),
            Shape::Expression => self.expression(first),
            Shape::Optional => absent_or(first, |e| self.expression(e)),
            Shape::Expressions => self.expressions(first as usize, cursor),
            Shape::Pattern => within(first, 2, 4).and_then(|_| letters(take(cursor, first as usize)?)),
            Shape::Argument => below(first, f.arguments, "argument"),
            Shape::Global => below(first, self.globals, "global"),
            Shape::Local => below(first, f.locals, "local"),
            Shape::Level => self.coded(&LEVELS, first, cursor),
            Shape::Mode => self.coded(&MODES, first, cursor),
            Shape::Members => self.members(take(cursor, 2 * first as usize)?),
            Shape::Block => Ok(self.hold(first, at)),
            Shape::Cases => self.cases(take(cursor, 2 * first as usize)?, at),
            Shape::Function => self.callee(first),
            Shape::Range => self.emit(first, cursor.next().ok_or("the last is missing")?),
        }
    }

    fn expression(&self, number: u16) -> Result<(), String> {
        below(number, self.function.emitted.len(), "earlier expression")
    }

    fn expressions(&self, count: usize, cursor: &mut Cursor) -> Result<(), String> {
        take(cursor, count)?.iter().try_for_each(|e| self.expression(*e))
    }

    fn coded(&self, names: &[(&str, usize)], code: u16, cursor: &mut Cursor) -> Result<(), String> {
        let (_, handles) = names.get(code as usize).ok_or_else(|| format!("there is no code {code}"))?;
        self.expressions(*handles, cursor)
    }

    fn members(&self, fields: &[u16]) -> Result<(), String> {
        fields.chunks(2).try_for_each(|m| {
            below(m[0], self.types, "type")?;
            absent_or(m[1], binding)
        })
    }

    fn hold(&mut self, block: u16, at: usize) {
        let inside = self.function.blocks.len().saturating_sub(1);
        self.function.held.push(Held { block, inside, at });
    }

    fn cases(&mut self, fields: &[u16], at: usize) -> Result<(), String> {
        let mut values: Vec<u16> = fields.chunks(2).map(|c| c[0]).collect();
        values.sort();
        if let Some(twice) = values.windows(2).find(|w| w[0] == w[1]) {
            return Err(format!("the value {} stands twice", twice[0]));
        }
        if values.last() != Some(&ABSENT) {
            return Err("there is no default".into());
        }
        fields.chunks(2).for_each(|c| self.hold(c[1], at));
        Ok(())
    }

    fn callee(&self, number: u16) -> Result<(), String> {
        let before = self.entries.len().saturating_sub(1);
        below(number, before, "earlier function")?;
        if self.entries[number as usize] {
            Err(format!("function {number} is an entry"))
        } else {
            Ok(())
        }
    }

    fn emit(&mut self, first: u16, last: u16) -> Result<(), String> {
        if first > last {
            return Err(format!("{first} to {last} does not ascend"));
        }
        self.expression(last)?;
        for e in first..=last {
            if std::mem::replace(&mut self.function.emitted[e as usize], true) {
                return Err(format!("expression {e} is in two emits"));
            }
        }
        Ok(())
    }

    fn count(&mut self, mark: Mark, fields: &[u16], at: usize) {
        let f = &mut self.function;
        match mark {
            Mark::Type => self.types += 1,
            Mark::Global => self.globals += 1,
            Mark::Function => self.entries.push(fields[0] == 1),
            Mark::Argument => f.arguments += 1,
            Mark::Local => f.locals += 1,
            Mark::Expression => f.emitted.push(false),
            Mark::Block => f.blocks.push(at),
            Mark::Statement => f.statements += 1,
            Mark::Request => {}
        }
    }

    /// The block rule of the open function, if one is open.
    fn end(&self, at: usize) -> Result<(), Refusal> {
        let f = &self.function;
        if self.entries.is_empty() {
            return Ok(());
        }
        let Some(body) = f.blocks.len().checked_sub(1) else { return refusal(5, at, "the function has no block") };
        let mut held = vec![false; body];
        for h in &f.held {
            if h.block as usize >= h.inside {
                return refusal(5, h.at, format!("block {} is not below the statement's own block {}", show_number(h.block), h.inside));
            }
            if std::mem::replace(&mut held[h.block as usize], true) {
                return refusal(5, h.at, format!("block {} is held twice", h.block));
            }
        }
        match held.iter().position(|h| !h) {
            Some(b) => refusal(5, f.blocks[b], format!("no statement holds block {b}, and it is not the last")),
            None => Ok(()),
        }
    }
}

/// Whether a record may follow this last one.
fn placed(mark: Mark, last: Mark) -> bool {
    match mark {
        Mark::Type | Mark::Global => last <= mark,
        Mark::Function => true,
        Mark::Argument | Mark::Local | Mark::Expression => Mark::Function <= last && last <= mark,
        Mark::Block => Mark::Function <= last,
        Mark::Statement => Mark::Block <= last,
        Mark::Request => false,
    }
}

fn below(number: u16, count: usize, what: &str) -> Result<(), String> {
    match number {
        ABSENT => Err("may not be absent".into()),
        n if (n as usize) < count => Ok(()),
        n => Err(format!("there is no {what} {n}")),
    }
}

fn within(number: u16, low: u16, high: u16) -> Result<(), String> {
    match number {
        n if low <= n && n <= high => Ok(()),
        ABSENT => Err("may not be absent".into()),
        n => Err(format!("{n} is not from {low} to {high}")),
    }
}

fn binding(number: u16) -> Result<(), String> {
    within(number, 0, limits::BINDING)
}

fn absent_or(number: u16, check: impl FnOnce(u16) -> Result<(), String>) -> Result<(), String> {
    if number == ABSENT {
        Ok(())
    } else {
        check(number)
    }
}

fn letters(pattern: &[u16]) -> Result<(), String> {
    pattern.iter().try_for_each(|l| within(*l, 0, 3))
}

fn take<'a>(cursor: &mut Cursor<'a>, count: usize) -> Result<&'a [u16], String> {
    cursor.take(count).ok_or_else(|| format!("fewer than {count} fields are left"))
}

#[cfg(test)]
mod tests {
    use super::*;
    use crate::assemble::assemble;

    fn refused(text: &str) -> (u16, usize, String) {
        let made = assemble(text).unwrap();
        let refusal = file(&made.bytes).expect_err(text);
        (refusal.number, made.line(refusal.at), refusal.reason)
    }

    #[test]
    fn refusals_name_line_and_reason() {
        let start = "type Scalar\nfn function - -\nexpr 0 Literal\nblock\n";
        for (more, wanted) in [
            ("stmt Store 0 1", (5, 5, "Store value: there is no earlier expression 1")),
            ("stmt Emit 0 0\nstmt Emit 0 0", (5, 6, "Emit range: expression 0 is in two emits")),
            ("stmt If 0 0 1", (5, 5, "block 0 is not below the statement's own block 0")),
            ("block\nblock\nstmt Block 0", (5, 5, "no statement holds block 1, and it is not the last")),
            ("expr 0 Literal", (3, 5, "expr may not stand here")),
            ("request 1 none", (11, 5, "there is no function 1")),
            ("request 0 none 0=all", (11, 5, "there is no global 0")),
            ("request 0 {1:all,0:all}", (12, 5, "1 before 0 does not ascend")),
            ("bytes 53", (2, 5, "the record is cut short")),
        ] {
            let (number, line, reason) = refused(&format!("{start}{more}"));
            assert_eq!((number, line, reason.as_str()), wanted);
        }
        assert_eq!(refused("repeat 257 type Scalar").0, 4);
        assert_eq!(refused("repeat 16385 record TY").0, 1);
    }
}
