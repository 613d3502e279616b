//! Small functions with everything that is judged: stores through dynamic indexes, early returns, breaks and continues anywhere, break_if,
//! dead code, loads that are used late, expressions that no emit gives before their use.
use crate::assemble::assemble;
use crate::random::Random;

/// Types by number: scalar, vectors, a matrix of two columns, a struct, an array of it, and a struct of those; an atomic, a struct of
/// nothing, a third vector, and a struct of those; then pointers to them.
const TYPES: &str = "type Scalar\ntype Vector 2\ntype Vector 3\ntype Matrix 2 3\ntype Struct [0:- 1:-]\ntype Array 4 3\n\
                     type Struct [5:- 0:- 3:- 4:-]\ntype Atomic\ntype Struct []\ntype Vector 4\ntype Struct [7:- 8:- 9:-]\n";
const COUNT: usize = 11;
const MEMBERS: [&[usize]; COUNT] =
    [&[], &[0, 0], &[0, 0, 0], &[2, 2], &[0, 1], &[4, 4, 4], &[5, 0, 3, 4], &[], &[], &[0, 0, 0, 0], &[7, 8, 9]];
const VECTORS: [usize; 3] = [1, 2, 9];
const STRUCTS: [usize; 4] = [4, 6, 8, 10];
/// Those that have no value of their own to compose.
const SINGLE: [usize; 2] = [0, 7];
const GLOBALS: [usize; 4] = [6, 4, 5, 10];

struct Wild {
    random: Random,
    expressions: Vec<String>,
    /// Values that may be used, with their types.
    values: Vec<(usize, usize)>,
    emitted: usize,
    blocks: Vec<Vec<String>>,
    left: usize,
    result: usize,
    /// How many paths of a hundred have the type of what they lead to, and no pointer to it.
    plain: usize,
}

/// What may be left from where a statement stands.
#[derive(Clone, Copy, Default)]
struct Inside {
    breaks: bool,
    continues: bool,
    continuing: bool,
}

/// A function of about so many statements, with one request.
pub fn generate(statements: usize, seed: u64) -> Vec<u8> {
    let mut random = Random::new(seed);
    let result = drawn(&mut random);
    let plain = *random.pick(&[0, 0, 50, 100]);
    let (expressions, values, blocks) = (Vec::new(), Vec::new(), Vec::new());
    let mut wild = Wild { random, expressions, values, emitted: 0, blocks, left: statements, result, plain };
    wild.first_expressions();
    let body = wild.block(Inside::default(), statements, 3, true);
    assert_eq!(body + 1, wild.blocks.len());
    assemble(&wild.listing()).unwrap_or_else(|f| panic!("line {}: {}", f.line, f.reason)).bytes
}

/// A type: the first ones more often.
fn drawn(random: &mut Random) -> usize {
    let count = if random.chance(70) { 7 } else { COUNT };
    random.below(count)
}

impl Wild {
    fn first_expressions(&mut self) {
        for t in 0..COUNT {
            let argument = self.add(t, format!("FunctionArgument {t}"));
            self.values.push((t, argument));
        }
        for t in 0..COUNT {
            self.add(COUNT + t, format!("LocalVariable {t}"));
        }
        for (g, t) in GLOBALS.iter().enumerate() {
            self.add(COUNT + t, format!("GlobalVariable {g}"));
        }
        self.emitted = self.expressions.len();
    }

    /// A kind past the values' is a path's.
    fn add(&mut self, kind: usize, operator: String) -> usize {
        let kind = if kind >= COUNT && self.random.chance(self.plain) { kind - COUNT } else { kind };
        self.expressions.push(format!("expr {kind} {operator}\n"));
        self.expressions.len() - 1
    }

    /// A pointer to a part of this type.
    fn pointer(&mut self, kind: usize) -> usize {
        for _ in 0..6 {
            let (mut at, mut own) = *self.random.pick(&[
                (COUNT + 6, 6),
                (COUNT + 5, 5),
                (2 * COUNT, 6),
                (2 * COUNT + 1, 4),
                (2 * COUNT + 2, 5),
                (2 * COUNT + 3, 10),
            ]);
            while own != kind && !MEMBERS[own].is_empty() {
                (at, own) = self.step(COUNT, at, own);
            }
            if own == kind {
                return at;
            }
        }
        COUNT + kind
    }

    /// A member of a value or, with pointers' types, of a pointer.
    fn step(&mut self, pointer: usize, at: usize, own: usize) -> (usize, usize) {
        let index = self.random.below(MEMBERS[own].len());
        let inner = MEMBERS[own][index];
        if !STRUCTS.contains(&own) && self.random.chance(35) {
            let by = self.value(0, 0);
            return (self.add(pointer + inner, format!("Access {at} {by}")), inner);
        }
        (self.add(pointer + inner, format!("AccessIndex {at} {index}")), inner)
    }

    /// A value of this type, over operands of at most this depth.
    fn value(&mut self, kind: usize, depth: usize) -> usize {
        let ready: Vec<usize> = self.values.iter().filter(|v| v.0 == kind).map(|v| v.1).collect();
        if !ready.is_empty() && (depth == 0 || self.random.chance(30)) {
            return *self.random.pick(&ready);
        }
        let made = match self.random.below(100) {
            0..=39 => {
                let pointer = self.pointer(kind);
                self.add(kind, format!("Load {pointer}"))
            }
            40..=44 => self.add(kind, "Literal".into()),
            45..=47 => self.add(kind, "ZeroValue".into()),
            48..=69 if kind < 3 => self.member(kind, depth),
            _ => self.node(kind, depth.saturating_sub(1)),
        };
        self.values.push((kind, made));
        made
    }

    /// A part of a greater value.
    fn member(&mut self, kind: usize, depth: usize) -> usize {
        let mut own = *self.random.pick(&[1, 2, 2, 3, 4, 5, 6, 9, 10]);
        let mut at = self.value(own, depth.saturating_sub(1));
        while own != kind && !MEMBERS[own].is_empty() {
            (at, own) = self.step(0, at, own);
        }
        if own == kind {
            at
        } else {
            self.add(kind, "Constant".into())
        }
    }

    fn node(&mut self, kind: usize, depth: usize) -> usize {
        let operator = match self.random.below(10) {
            0 => format!("Unary {}", self.value(kind, depth)),
            1 => format!("As {}", self.value(kind, depth)),
            2 => format!("Select {} {} {}", self.any(depth), self.value(kind, depth), self.value(kind, depth)),
            3 => format!("Math {} - {} -", self.any(depth), self.any(depth)),
            4 => format!("Relational {}", self.any(depth)),
            5 => format!("Binary {} {}", self.any(depth), self.value(kind, depth)),
            6 if VECTORS.contains(&kind) => format!("Splat {}", self.value(0, depth)),
            7 if VECTORS.contains(&kind) => self.swizzle(kind, depth),
            8 | 9 if !SINGLE.contains(&kind) => self.compose(kind, depth),
            _ => format!("Binary {} {}", self.value(kind, depth), self.value(kind, depth)),
        };
        self.add(kind, operator)
    }

    /// A value of any type, most often a scalar.
    fn any(&mut self, depth: usize) -> usize {
        let kind = if self.random.chance(70) { 0 } else { drawn(&mut self.random) };
        self.value(kind, depth)
    }

    fn swizzle(&mut self, kind: usize, depth: usize) -> String {
        let from = *self.random.pick(&VECTORS);
        let vector = self.value(from, depth);
        let known = &['x', 'y', 'z', 'w'][..MEMBERS[from].len()];
        let letters: String = (0..MEMBERS[kind].len()).map(|_| *self.random.pick(known)).collect();
        format!("Swizzle {vector} .{letters}")
    }

    fn compose(&mut self, kind: usize, depth: usize) -> String {
        let mut types = MEMBERS[kind].to_vec();
        if kind == 2 && self.random.chance(60) {
            types = self.random.pick(&[vec![1, 0], vec![0, 1], vec![2]]).clone();
        }
        if kind == 9 && self.random.chance(60) {
            types = self.random.pick(&[vec![1, 1], vec![0, 2], vec![1, 0, 0], vec![9]]).clone();
        }
        let components: Vec<String> = types.iter().map(|t| self.value(*t, depth).to_string()).collect();
        format!("Compose [{}]", components.join(" "))
    }

    /// Emits of the new expressions; now and then some are left for later, or for good.
    fn emit(&mut self, out: &mut Vec<String>) {
        let end = self.expressions.len();
        let last = if self.random.chance(8) { self.random.between(self.emitted, end) } else { end };
        if self.emitted < last && self.random.chance(96) {
            out.push(format!("Emit {} {}", self.emitted, last - 1));
        }
        self.emitted = self.emitted.max(last);
    }

    fn block(&mut self, inside: Inside, most: usize, depth: usize, body: bool) -> usize {
        let mut out = Vec::new();
        let known = self.values.len();
        for _ in 0..most {
            if self.left > 0 {
                self.left -= 1;
                self.statement(&mut out, inside, depth);
            }
        }
        if body && self.random.chance(90) {
            self.returned(&mut out);
        }
        if self.random.chance(85) {
            self.values.truncate(known);
        }
        self.blocks.push(out);
        self.blocks.len() - 1
    }

    fn statement(&mut self, out: &mut Vec<String>, inside: Inside, depth: usize) {
        match self.random.below(100) {
            0..=11 if depth > 0 => self.branch(out, inside, depth - 1),
            12..=17 if depth > 0 => self.switch(out, inside, depth - 1),
            18..=31 if depth > 0 => self.looped(out, inside, depth - 1),
            32..=33 if depth > 0 => {
                let block = self.block(inside, 2, depth - 1, false);
                out.push(format!("Block {block}"));
            }
            34..=38 if inside.breaks => out.push("Break".into()),
            39..=43 if inside.continues => out.push("Continue".into()),
            44..=46 if !inside.continuing => self.returned(out),
            _ => {
                let kind = drawn(&mut self.random);
                let mut value = self.value(kind, 2);
                let pointer = self.pointer(kind);
                if self.random.chance(25) {
                    let before = self.add(kind, format!("Load {pointer}"));
                    value = self.add(kind, format!("Binary {before} {value}"));
                }
                self.emit(out);
                out.push(format!("Store {pointer} {value}"));
            }
        }
    }

    fn returned(&mut self, out: &mut Vec<String>) {
        if self.random.chance(10) {
            return out.push("Return -".into());
        }
        let value = self.value(self.result, 2);
        self.emit(out);
        out.push(format!("Return {value}"));
    }

    fn branch(&mut self, out: &mut Vec<String>, inside: Inside, depth: usize) {
        let condition = self.any(1);
        self.emit(out);
        let (accept, reject) = (self.block(inside, 3, depth, false), self.block(inside, 2, depth, false));
        out.push(format!("If {condition} {accept} {reject}"));
    }

    /// A block that often ends with a break or a continue.
    fn block_to_end(&mut self, inside: Inside, most: usize, depth: usize) -> usize {
        let block = self.block(inside, most, depth, false);
        match self.random.below(10) {
            0..=2 => self.blocks[block].push("Break".into()),
            3..=4 if inside.continues => self.blocks[block].push("Continue".into()),
            _ => {}
        }
        block
    }

    fn switch(&mut self, out: &mut Vec<String>, inside: Inside, depth: usize) {
        let selector = self.any(1);
        self.emit(out);
        let inside = Inside { breaks: true, ..inside };
        let blocks: Vec<usize> = (0..3).map(|_| self.block_to_end(inside, 2, depth)).collect();
        out.push(format!("Switch {selector} [0:{} default:{} 1:{}]", blocks[0], blocks[1], blocks[2]));
    }

    fn looped(&mut self, out: &mut Vec<String>, inside: Inside, depth: usize) {
        let inner = Inside { breaks: true, continues: true, ..inside };
        let body = self.block_to_end(inner, 4, depth);
        let continuing = self.block(Inside { continuing: true, ..Inside::default() }, 2, depth, false);
        let condition = if self.random.chance(75) { self.condition_in(continuing).to_string() } else { "-".into() };
        out.push(format!("Loop {body} {continuing} {condition}"));
    }

    /// A condition, most often made at the end of a block; often from the scalar local, which changes there.
    fn condition_in(&mut self, block: usize) -> usize {
        let changes = self.random.chance(50);
        let condition = if changes {
            let now = self.add(0, format!("Load {COUNT}"));
            let other = self.value(0, 1);
            self.add(0, format!("Binary {now} {other}"))
        } else {
            self.value(0, 2)
        };
        let mut out = std::mem::take(&mut self.blocks[block]);
        self.emit(&mut out);
        if changes {
            out.push(format!("Store {COUNT} {condition}"));
        }
        self.blocks[block] = out;
        condition
    }

    /// What is asked of a type.
    fn part(&mut self, kind: usize) -> String {
        match self.random.below(10) {
            0..=2 => "all".into(),
            3 => "exist".into(),
            _ if MEMBERS[kind].is_empty() => "all".into(),
            _ => {
                let mut entries = Vec::new();
                for (i, inner) in MEMBERS[kind].iter().enumerate() {
                    if self.random.chance(50) {
                        entries.push(format!("{i}:{}", self.part(*inner)));
                    }
                }
                format!("{{{}}}", entries.join(","))
            }
        }
    }

    fn listing(mut self) -> String {
        let retval = if self.random.chance(15) { "none".into() } else { self.part(self.result) };
        let mut request = format!("request 0 {retval}");
        for (g, kind) in GLOBALS.iter().enumerate() {
            if self.random.chance(30) {
                request += &format!(" {g}={}", self.part(*kind));
            }
        }
        let pointers: String = (0..COUNT).map(|t| format!("type Pointer {t}\n")).collect();
        let globals: String = GLOBALS.iter().map(|t| format!("global {t}\n")).collect();
        let arguments: String = (0..COUNT).map(|t| format!("arg {t} -\n")).collect();
        let locals: String = (0..COUNT).map(|t| format!("local {t}\n")).collect();
        let block = |b: &Vec<String>| "block\n".to_string() + &b.iter().map(|s| format!("stmt {s}\n")).collect::<String>();
        let blocks: String = self.blocks.iter().map(block).collect();
        let function = format!("fn function {} -\n", self.result);
        [TYPES, &pointers, &globals, &function, &arguments, &locals, &self.expressions.concat(), &blocks, &request].concat()
    }
}
