//! The form of a file, in one place: its records, the kinds that they have, and the operands of each kind.

/// The field that says "absent"; a switch's default case too.
pub const ABSENT: u16 = 65535;

/// What stands in an operand's place.
#[derive(Clone, Copy, PartialEq, Eq, Debug)]
pub enum Shape {
    Type,
    /// A type or absent.
    ResultType,
    Binding,
    /// 2 to 4: of a vector or a matrix.
    Size,
    /// Any number but 65535: an array's count, an index.
    Number,
    /// A count, then type and binding each.
    Members,
    Expression,
    /// An expression or absent.
    Optional,
    /// A count, then expressions.
    Expressions,
    /// A count of 2 to 4, then letters 0 to 3.
    Pattern,
    Argument,
    Global,
    Local,
    /// A code, then no, one or two expressions.
    Level,
    /// A code, then no or one expression.
    Mode,
    Block,
    /// A count, then value and block each.
    Cases,
    Function,
    /// The first and the last expression of an emit.
    Range,
}
use Shape::*;

pub type Operand = (&'static str, Shape);

/// A kind: naga's name, a short one for listings written by hand, and its operands in pattern order.
pub struct Kind {
    pub name: &'static str,
    pub short: &'static str,
    pub operands: &'static [Operand],
}

const fn kind(name: &'static str, short: &'static str, operands: &'static [Operand]) -> Kind {
    Kind { name, short, operands }
}

pub const TYPES: [Kind; 9] = [
    kind("Scalar", "scalar", &[]),
    kind("Vector", "vec", &[("size", Size)]),
    kind("Matrix", "mat", &[("columns", Size), ("rows", Size)]),
    kind("Atomic", "atomic", &[]),
    kind("Pointer", "ptr", &[("base", Type)]),
    kind("Array", "array", &[("base", Type), ("count", Number)]),
    kind("Struct", "struct", &[("members", Members)]),
    kind("BindingArray", "barray", &[("base", Type)]),
    kind("Opaque", "opaque", &[]),
];

const RESULT: &[Operand] = &[("result", ResultType), ("binding", Binding)];
pub const FUNCTIONS: [Kind; 2] = [kind("function", "func", RESULT), kind("entry", "entry", RESULT)];

pub const EXPRESSIONS: [Kind; 32] = [
    kind("Literal", "literal", &[]),
    kind("ZeroValue", "zero", &[]),
    kind("WorkGroupUniformLoadResult", "wgload", &[]),
    kind("AccessIndex", "index", &[("base", Expression), ("index", Number)]),
    kind("Access", "access", &[("base", Expression), ("index", Expression)]),
    kind("Constant", "constant", &[]),
    kind("Splat", "splat", &[("value", Expression)]),
    kind("Swizzle", "swizzle", &[("vector", Expression), ("pattern", Pattern)]),
    kind("Compose", "compose", &[("components", Expressions)]),
    kind("FunctionArgument", "arg", &[("argument", Argument)]),
    kind("GlobalVariable", "global", &[("global", Global)]),
    kind("LocalVariable", "local", &[("local", Local)]),
    kind("Load", "load", &[("pointer", Expression)]),
    kind(
        "ImageSample",
        "imagesample",
        &[
            ("image", Expression),
            ("sampler", Expression),
            ("coordinate", Expression),
            ("array index", Optional),
            ("level", Level),
            ("depth reference", Optional),
        ],
    ),
    kind(
        "ImageLoad",
        "imageload",
        &[("image", Expression), ("coordinate", Expression), ("array index", Optional), ("sample", Optional), ("level", Optional)],
    ),
    kind("ImageQuery", "imagequery", &[("image", Expression), ("level", Optional)]),
    kind("Unary", "unary", &[("operand", Expression)]),
    kind("Binary", "binary", &[("left", Expression), ("right", Expression)]),
    kind("Select", "select", &[("condition", Expression), ("accept", Expression), ("reject", Expression)]),
    kind("Derivative", "derivative", &[("operand", Expression)]),
    kind("Relational", "relational", &[("argument", Expression)]),
    kind("Math", "math", &[("argument", Expression), ("argument 1", Optional), ("argument 2", Optional), ("argument 3", Optional)]),
    kind("As", "as", &[("operand", Expression)]),
    kind("CallResult", "callresult", &[]),
    kind("AtomicResult", "atomicresult", &[]),
    kind("ArrayLength", "arraylength", &[("array", Expression)]),
    kind("RayQueryProceedResult", "rqproceed", &[]),
    kind("RayQueryGetIntersection", "rqintersection", &[("query", Expression)]),
    kind("Override", "override", &[]),
    kind("SubgroupBallotResult", "ballotresult", &[]),
    kind("SubgroupOperationResult", "subgroupresult", &[]),
    kind("RayQueryVertexPositions", "rqvertex", &[]),
];

pub const STATEMENTS: [Kind; 21] = [
    kind("Emit", "emit", &[("range", Range)]),
    kind("Block", "block", &[("block", Block)]),
    kind("If", "if", &[("condition", Expression), ("accept", Block), ("reject", Block)]),
    kind("Switch", "switch", &[("selector", Expression), ("cases", Cases)]),
    kind("Loop", "loop", &[("body", Block), ("continuing", Block), ("break if", Optional)]),
    kind("Break", "break", &[]),
    kind("Continue", "continue", &[]),
    kind("Return", "return", &[("value", Optional)]),
    kind("Kill", "kill", &[]),
    kind("ControlBarrier", "cbarrier", &[]),
    kind("MemoryBarrier", "mbarrier", &[]),
    kind("ImageAtomic", "imageatomic", &[]),
    kind("Store", "store", &[("pointer", Expression), ("value", Expression)]),
    kind("Atomic", "atomic", &[("pointer", Expression), ("value", Expression), ("result", Optional)]),
    kind("Call", "call", &[("function", Function), ("arguments", Expressions), ("result", Optional)]),
    kind(
        "ImageStore",
        "imagestore",
        &[("image", Expression), ("coordinate", Expression), ("array index", Optional), ("value", Expression)],
    ),
    kind("RayQuery", "rayquery", &[("query", Expression)]),
    kind("WorkGroupUniformLoad", "wgload", &[("pointer", Expression), ("result", Expression)]),
    kind("SubgroupBallot", "ballot", &[("result", Expression), ("predicate", Optional)]),
    kind("SubgroupGather", "gather", &[("mode", Mode), ("argument", Expression), ("result", Expression)]),
    kind("SubgroupCollectiveOperation", "collective", &[("argument", Expression), ("result", Expression)]),
];

/// Sample levels and gather modes by code, with the number of expressions that follow.
pub const LEVELS: [(&str, usize); 5] = [("Auto", 0), ("Zero", 0), ("Exact", 1), ("Bias", 1), ("Gradient", 2)];
pub const MODES: [(&str, usize); 2] = [("BroadcastFirst", 0), ("Broadcast", 1)];

/// The letters of a swizzle pattern.
pub const LETTERS: &str = "xyzw";

/// The records, in the order in which a file has them.
#[derive(Clone, Copy, PartialEq, Eq, PartialOrd, Ord, Debug)]
pub enum Mark {
    Type,
    Global,
    Function,
    Argument,
    Local,
    Expression,
    Block,
    Statement,
    Request,
}

/// A record's two letters, a listing's word for it, the operands before its kind, and its kinds, if it has any.
pub struct Form {
    pub mark: Mark,
    pub letters: [u8; 2],
    pub word: &'static str,
    pub head: &'static [Operand],
    pub kinds: &'static [Kind],
}

const fn form(mark: Mark, letters: &[u8; 2], word: &'static str, head: &'static [Operand], kinds: &'static [Kind]) -> Form {
    Form { mark, letters: *letters, word, head, kinds }
}

pub const FORMS: [Form; 9] = [
    form(Mark::Type, b"TY", "type", &[], &TYPES),
    form(Mark::Global, b"GV", "global", &[("type", Type)], &[]),
    form(Mark::Function, b"FN", "fn", &[], &FUNCTIONS),
    form(Mark::Argument, b"AR", "arg", &[("type", Type), ("binding", Binding)], &[]),
    form(Mark::Local, b"LV", "local", &[("type", Type)], &[]),
    form(Mark::Expression, b"EX", "expr", &[("type", Type)], &EXPRESSIONS),
    form(Mark::Block, b"BK", "block", &[], &[]),
    form(Mark::Statement, b"ST", "stmt", &[], &STATEMENTS),
    form(Mark::Request, b"RQ", "request", &[], &[]),
];

impl Mark {
    pub fn form(self) -> &'static Form {
        &FORMS[self as usize]
    }

    pub fn of_letters(letters: [u8; 2]) -> Option<Mark> {
        FORMS.iter().find(|f| f.letters == letters).map(|f| f.mark)
    }

    /// By a listing's word, or by the two letters in lower case.
    pub fn of_word(word: &str) -> Option<Mark> {
        let short = |f: &Form| f.letters.to_ascii_lowercase() == word.as_bytes();
        FORMS.iter().find(|f| f.word == word || short(f)).map(|f| f.mark)
    }
}

/// Every record and kind with the names of its operands, a line each.
pub fn kinds() -> String {
    let names = |operands: &[Operand]| operands.iter().map(|(name, shape)| format!(" {}", hint(name, *shape))).collect::<String>();
    let mut text = String::new();
    for form in &FORMS {
        let head = names(form.head);
        match (form.mark, form.kinds) {
            (Mark::Request, _) => text += "request FUNCTION PART GLOBAL=PART...\n",
            (_, []) => text += &format!("{}{head}\n", form.word),
            (_, kinds) => kinds.iter().for_each(|k| text += &format!("{}{head} {}{}\n", form.word, k.name, names(k.operands))),
        }
    }
    text
}

/// How an operand is written, by its name.
fn hint(name: &str, shape: Shape) -> String {
    let name = name.replace(' ', "_").to_uppercase();
    match shape {
        Optional | Binding | ResultType => format!("{name}|-"),
        Members => "[TYPE:BINDING|- ...]".into(),
        Expressions => format!("[{name}...]"),
        Cases => "[VALUE:BLOCK ... default:BLOCK]".into(),
        Pattern => format!(".{LETTERS}"),
        Level => "Auto|Zero|Exact X|Bias X|Gradient X Y".into(),
        Mode => "BroadcastFirst|Broadcast X".into(),
        Range => "FIRST LAST".into(),
        _ => name,
    }
}

#[cfg(test)]
mod tests {
    use super::*;

    #[test]
    fn forms_stand_at_their_marks() {
        for (i, f) in FORMS.iter().enumerate() {
            assert_eq!(f.mark as usize, i);
            assert_eq!(Mark::of_word(f.word), Some(f.mark));
            assert_eq!(Mark::of_letters(f.letters), Some(f.mark));
        }
    }

    #[test]
    fn names_of_kinds_differ() {
        for f in &FORMS {
            let mut names: Vec<&str> = f.kinds.iter().map(|k| k.name).collect();
            names.sort();
            names.dedup();
            assert_eq!(names.len(), f.kinds.len());
        }
    }
}
