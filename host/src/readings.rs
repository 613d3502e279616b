//! Byte strings for tests of reading: each record and kind, valid and with every field changed; pairs at each limit; each record
//! after each other; blocks held rightly and wrongly; cut, damaged and random ones.
use crate::damage::damaged;
use crate::draft::Draft;
use crate::form::{Mark, Shape, ABSENT, FORMS};
use crate::limits;
use crate::random::Random;
use crate::record::write;

/// All of them, and `copies` damaged copies of each small source.
pub fn all(sources: &[Vec<u8>], copies: usize, seed: u64) -> Vec<Vec<u8>> {
    let mut random = Random::new(seed);
    let mut found = sources.to_vec();
    for form in &FORMS {
        found.extend(of_record(form.mark));
    }
    found.extend(at_limits());
    found.extend(orders());
    found.extend(holdings());
    found.extend(cuts());
    found.extend(noise(&mut random));
    for source in sources.iter().filter(|s| s.len() < 600) {
        found.extend((0..copies).map(|_| damaged(source, &mut random)));
    }
    once(found)
}

/// Each string where it stands first.
fn once(strings: Vec<Vec<u8>>) -> Vec<Vec<u8>> {
    let mut seen = std::collections::HashSet::new();
    strings.into_iter().filter(|s| seen.insert(s.clone())).collect()
}

/// A module as far as a record of this mark may follow, with things for its operands to name.
fn before(mark: Mark) -> Draft {
    let mut draft = Draft::default();
    draft.put(Mark::Type, &[0]).put(Mark::Type, &[1, 3]);
    if mark > Mark::Type {
        draft.repeat(2, Mark::Global, &[1]);
    }
    if mark > Mark::Global {
        draft.put(Mark::Function, &[0, ABSENT, ABSENT]).put(Mark::Block, &[]);
        draft.put(Mark::Function, &[1, 0, 3]).put(Mark::Block, &[]);
    }
    if mark > Mark::Function {
        draft.put(Mark::Function, &[0, 1, ABSENT]).repeat(2, Mark::Argument, &[1, ABSENT]);
    }
    if mark > Mark::Argument {
        draft.repeat(2, Mark::Local, &[1]);
    }
    if mark > Mark::Local {
        draft.repeat(3, Mark::Expression, &[0, 0]);
    }
    draft
}

/// What makes a whole module of it.
fn after(mark: Mark, draft: &mut Draft) {
    if Mark::Function <= mark && mark < Mark::Block {
        draft.put(Mark::Block, &[]);
    }
}

/// A module with this record last; a statement's held blocks stand before its own.
fn with(mark: Mark, body: &[u8], held: u16) -> Vec<u8> {
    let mut draft = before(mark);
    if mark == Mark::Statement {
        draft.repeat(held as usize + 1, Mark::Block, &[]);
    }
    draft.0.extend(mark.form().letters);
    draft.0.extend((body.len() as u16).to_le_bytes());
    draft.0.extend(body);
    after(mark, &mut draft);
    draft.0
}

fn body(fields: &[u16]) -> Vec<u8> {
    fields.iter().flat_map(|f| f.to_le_bytes()).collect()
}

/// Samples of a record, valid ones and their changed copies.
fn of_record(mark: Mark) -> Vec<Vec<u8>> {
    let mut found = Vec::new();
    let kinds = mark.form().kinds.len().max(1);
    for kind in 0..kinds {
        for variant in 0..5 {
            let (fields, held) = sample(mark, kind, variant);
            found.push(with(mark, &body(&fields), held));
        }
        let (fields, held) = sample(mark, kind, 4);
        found.extend(changed(&fields).iter().map(|b| with(mark, b, held)));
    }
    if !mark.form().kinds.is_empty() {
        let mut fields = sample(mark, 0, 0).0;
        fields[mark.form().head.len()] = kinds as u16;
        found.push(with(mark, &body(&fields), 0));
    }
    found
}

/// A valid record's fields, and how many blocks it holds.
fn sample(mark: Mark, kind: usize, variant: usize) -> (Vec<u16>, u16) {
    let form = mark.form();
    let (mut fields, mut held) = (Vec::new(), 0);
    for (_, shape) in form.head {
        operand(*shape, variant, &mut fields, &mut held);
    }
    if let Some(found) = form.kinds.get(kind) {
        fields.push(kind as u16);
        for (_, shape) in found.operands {
            operand(*shape, variant, &mut fields, &mut held);
        }
    }
    (fields, held)
}

/// An operand that fits what `before` has.
fn operand(shape: Shape, variant: usize, fields: &mut Vec<u16>, held: &mut u16) {
    let n = variant as u16;
    let absent = |v: u16| if variant % 2 == 1 { ABSENT } else { v };
    match shape {
        Shape::Type | Shape::Argument | Shape::Global | Shape::Local => fields.push(n % 2),
        Shape::Expression => fields.push(n % 3),
        Shape::ResultType => fields.push(absent(1)),
        Shape::Binding => fields.push(absent([0, 0, 31, 0, 63][variant])),
        Shape::Optional => fields.push(absent(2)),
        Shape::Size => fields.push(2 + n % 3),
        Shape::Number => fields.push([0, 1, 7, 300, 65534][variant]),
        Shape::Members => fields.extend([n].into_iter().chain((0..n).flat_map(|i| [i % 2, if i == 1 { ABSENT } else { 31 + i }]))),
        Shape::Expressions => fields.extend([n].into_iter().chain((0..n).map(|i| i % 3))),
        Shape::Pattern => fields.extend([2 + n % 3].into_iter().chain((0..2 + n % 3).map(|i| 3 - i))),
        Shape::Level => fields.extend([n].into_iter().chain((0..[0, 0, 1, 1, 2][variant]).map(|i| 2 - i))),
        Shape::Mode => fields.extend([n % 2].into_iter().chain((0..n % 2).map(|_| 1))),
        Shape::Block => fields.push(next(held)),
        Shape::Cases => {
            fields.push(1 + n);
            for i in 0..n {
                fields.extend([10 * i, next(held)]);
            }
            fields.extend([ABSENT, next(held)]);
        }
        Shape::Function => fields.push(0),
        Shape::Range => fields.extend([n % 2, 1 + n % 2]),
    }
}

fn next(held: &mut u16) -> u16 {
    *held += 1;
    *held - 1
}

/// Bodies with one field changed, a field more or less, an odd length.
pub fn changed(fields: &[u16]) -> Vec<Vec<u8>> {
    let mut found = Vec::new();
    for (at, old) in fields.iter().enumerate() {
        for new in [old.wrapping_add(1), 3, 17, 64, ABSENT] {
            let mut copy = fields.to_vec();
            copy[at] = new;
            found.push(body(&copy));
        }
    }
    let whole = body(fields);
    found.push([&whole[..], &[0, 0]].concat());
    found.push([&whole[..], &[0]].concat());
    for less in [1, 2] {
        found.extend(whole.len().checked_sub(less).map(|n| whole[..n].to_vec()));
    }
    found
}

/// A module of one function with this many of a record.
fn many(mark: Mark, count: usize, fields: &[u16]) -> Vec<u8> {
    let mut draft = Draft::default();
    let place = |draft: &mut Draft, here: Mark, least: usize, fields: &[u16]| {
        let count = if here == mark { count } else { least };
        draft.repeat(count, here, fields);
    };
    place(&mut draft, Mark::Type, 1, if mark == Mark::Type { fields } else { &[0] });
    place(&mut draft, Mark::Global, 0, &[0]);
    if mark == Mark::Function {
        for _ in 0..count {
            draft.put(Mark::Function, fields).put(Mark::Block, &[]);
        }
        return draft.0;
    }
    draft.put(Mark::Function, &[0, ABSENT, ABSENT]);
    place(&mut draft, Mark::Argument, 0, &[0, ABSENT]);
    place(&mut draft, Mark::Local, 0, &[0]);
    place(&mut draft, Mark::Expression, 1, if mark == Mark::Expression { fields } else { &[0, 0] });
    draft.put(Mark::Block, &[]);
    place(&mut draft, Mark::Statement, 0, fields);
    draft.0
}

fn at_limits() -> Vec<Vec<u8>> {
    let mut found = Vec::new();
    for (mark, limit, fields) in [
        (Mark::Type, limits::TYPES, vec![0]),
        (Mark::Global, limits::GLOBALS, vec![0]),
        (Mark::Function, limits::FUNCTIONS, vec![1, ABSENT, ABSENT]),
        (Mark::Argument, limits::ARGUMENTS, vec![]),
        (Mark::Local, limits::LOCALS, vec![]),
        (Mark::Expression, limits::EXPRESSIONS, vec![0, 0]),
        (Mark::Statement, limits::STATEMENTS, vec![8]),
    ] {
        found.extend([many(mark, limit, &fields), many(mark, limit + 1, &fields)]);
    }
    for count in [limits::ITEMS as u16, limits::ITEMS as u16 + 1, ABSENT] {
        let items = count.min(limits::ITEMS as u16 + 1) as usize;
        found.push(with(Mark::Type, &body(&[vec![6, count], [0, ABSENT].repeat(items)].concat()), 0));
        found.push(with(Mark::Expression, &body(&[vec![0, 8, count], vec![0; items]].concat()), 0));
        found.push(with(Mark::Statement, &body(&[vec![14, 0, count], vec![0; items], vec![ABSENT]].concat()), 0));
        found.push(with(Mark::Type, &body(&[6, count]), 0));
        found.push(with(Mark::Expression, &body(&[0, 8, count]), 0));
        found.push(with(Mark::Statement, &body(&[14, 0, count]), 0));
    }
    found.extend(long_files());
    found.push(nested(limits::STATEMENTS));
    found.push(wide(1000));
    found
}

/// At the limit of bytes, and a byte over it.
fn long_files() -> Vec<Vec<u8>> {
    let mut draft = Draft::default();
    draft.put(Mark::Type, &[0]);
    while draft.0.len() < limits::BYTES - 1200 {
        draft.put(Mark::Function, &[0, ABSENT, ABSENT]).repeat(120, Mark::Expression, &[0, 0]);
        draft.put(Mark::Block, &[]).repeat(12, Mark::Statement, &[9]);
    }
    draft.put(Mark::Function, &[0, ABSENT, ABSENT]);
    // expressions of 8 bytes until statements of 6 fill the rest
    while (limits::BYTES - draft.0.len() - 4) % 6 != 0 {
        draft.put(Mark::Expression, &[0, 0]);
    }
    draft.put(Mark::Block, &[]);
    let left = limits::BYTES - draft.0.len();
    draft.repeat(left / 6, Mark::Statement, &[9]);
    let over = [&draft.0[..], b"S"].concat();
    vec![draft.0, over]
}

/// Blocks in blocks, as deep as there may be statements.
fn nested(depth: usize) -> Vec<u8> {
    let mut draft = before(Mark::Block);
    draft.put(Mark::Block, &[]);
    for inner in 0..depth as u16 {
        draft.put(Mark::Block, &[]).put(Mark::Statement, &[1, inner]);
    }
    draft.0
}

/// A switch with many cases: they have no limit.
fn wide(cases: u16) -> Vec<u8> {
    let mut fields = vec![3, 0, cases];
    for i in 0..cases {
        fields.extend([if i == 3 { ABSENT } else { i }, i]);
    }
    with(Mark::Statement, &body(&fields), cases)
}

/// Each record at each place where another has just stood, RQ inside a module among them, and an unknown one.
fn orders() -> Vec<Vec<u8>> {
    let mut found = Vec::new();
    for first in FORMS.iter().filter(|f| f.mark != Mark::Request) {
        let start = with(first.mark, &body(&sample(first.mark, 0, 0).0), 0);
        for second in FORMS.iter().filter(|f| f.mark != Mark::Request) {
            let record = write(second.letters, &sample(second.mark, 0, 1).0).expect("short");
            found.push([&start[..], &record[..]].concat());
        }
        for letters in [*b"RQ", *b"XX", *b"ty", [0, 0]] {
            let record = write(letters, &[0, 3, 0]).expect("short");
            found.push([&start[..], &record[..]].concat());
            found.push([&start[..], &record[..record.len() - 1]].concat());
        }
    }
    found
}

/// Blocks held in each way by an if, a loop or a switch in the block 2 of 3 or 4.
fn holdings() -> Vec<Vec<u8>> {
    let mut found = Vec::new();
    let numbers = [0, 1, 2, 3, ABSENT];
    for a in numbers {
        for b in numbers {
            for (kind, fields) in [(2, vec![0, a, b]), (3, vec![0, 2, 7, a, ABSENT, b]), (4, vec![a, b, ABSENT])] {
                let mut draft = before(Mark::Block);
                draft.repeat(3, Mark::Block, &[]).put(Mark::Statement, &[vec![kind], fields].concat());
                found.push(draft.0.clone());
                if kind == 2 {
                    found.push(draft.put(Mark::Block, &[]).put(Mark::Statement, &[1, 2]).0.clone());
                    found.push(draft.put(Mark::Function, &[1, ABSENT, ABSENT]).put(Mark::Block, &[]).0.clone());
                }
            }
        }
    }
    // a function without a block, and what comes before that is noticed
    let open = before(Mark::Argument).0;
    for more in [&b""[..], b"F", b"FN\x06\x00\x00", b"XX\x00\x00", b"FN\x02\x00\x09\x00", b"BK\x00\x00"] {
        found.push([&open[..], more].concat());
    }
    found
}

/// Every beginning of a module that has each record.
fn cuts() -> Vec<Vec<u8>> {
    let mut draft = before(Mark::Statement);
    draft.put(Mark::Block, &[]).put(Mark::Statement, &[0, 1, 2]).put(Mark::Block, &[]);
    draft.put(Mark::Statement, &[1, 0]).put(Mark::Statement, &[7, 1]);
    (0..=draft.0.len()).map(|n| draft.0[..n].to_vec()).collect()
}

fn noise(random: &mut Random) -> Vec<Vec<u8>> {
    let mut found = Vec::new();
    for n in 0..60 {
        let length = random.below(60);
        let mut bytes: Vec<u8> = (0..length).map(|_| random.bits() as u8).collect();
        if n % 2 == 1 && length >= 8 {
            // a record of small fields, and then anything
            bytes[..2].copy_from_slice(&random.pick(&FORMS).letters);
            bytes[2..8].copy_from_slice(&[4, 0, random.below(8) as u8, 0, random.below(4) as u8, 0]);
        }
        found.push(bytes);
    }
    found
}
