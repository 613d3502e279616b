//! Tickingtor's library, across its C boundary. A slice goes as a pointer and a length.
use crate::oracle::Place;

extern "C" {
    fn tickingtor_read(bytes: *const u8, length: usize) -> u32;
    fn tickingtor_request(
        module: *const u8,
        module_length: usize,
        request: *const u8,
        request_length: usize,
        pruner: *mut u8,
        pruner_length: usize,
        report: *mut u8,
        report_length: usize,
        answer: *mut u8,
        answer_length: usize,
    ) -> u64;
    fn tickingtor_input_to_bindings(
        module: *const u8,
        module_length: usize,
        f: u32,
        context: *const u8,
        context_length: usize,
        out: *mut u8,
        out_length: usize,
    ) -> u64;
    fn tickingtor_output_from_bindings(
        module: *const u8,
        module_length: usize,
        f: u32,
        list: *const u8,
        list_length: usize,
        out: *mut u8,
        out_length: usize,
    ) -> u64;
    fn tickingtor_add_binding(
        module: *const u8,
        module_length: usize,
        request: *const u8,
        request_length: usize,
        b: u32,
        out: *mut u8,
        out_length: usize,
    ) -> u64;
    fn tickingtor_check(
        module: *const u8,
        module_length: usize,
        request: *const u8,
        request_length: usize,
        report: *const u8,
        report_length: usize,
        context: *const u8,
        context_length: usize,
    ) -> u64;
}

/// Whether the bytes are a module: 0, or the number by which they are refused.
pub fn read(bytes: &[u8]) -> u32 {
    // SAFETY: the pointer and the length are those of a slice, which the function only reads; it asks nothing else.
    unsafe { tickingtor_read(bytes.as_ptr(), bytes.len()) }
}

/// What a request answers.
#[derive(Clone, Copy, PartialEq, Eq, Debug)]
pub enum Reply {
    Visited(u32),
    Refused { number: u32, place: Option<Place> },
}

/// Where a place's number says what is meant, and where its function stands.
const EXPRESSION: u32 = 1 << 30;
const STATEMENT: u32 = 1 << 31;
const FUNCTION: u32 = 1 << 15;

impl Reply {
    fn of(word: u64) -> Reply {
        let (number, low) = ((word >> 32) as u32, word as u32);
        if number == 0 {
            return Reply::Visited(low);
        }
        let (function, item) = (low % EXPRESSION / FUNCTION, low % FUNCTION);
        let place = Place { statement: low >= STATEMENT, function: function as u16, number: item as u16 };
        Reply::Refused { number, place: (low != 0).then_some(place) }
    }

    /// The number that means it.
    pub fn word(&self) -> u64 {
        match *self {
            Reply::Visited(visits) => u64::from(visits),
            Reply::Refused { number, place } => (u64::from(number) << 32) + place.map_or(0, |p| u64::from(place_word(p))),
        }
    }
}

fn place_word(place: Place) -> u32 {
    let sort = if place.statement { STATEMENT } else { EXPRESSION };
    sort + FUNCTION * u32::from(place.function) + u32::from(place.number)
}

/// A request over a pruner. Accepted: totals, marks and answer are written from the front of their buffers on. Refused: nothing is.
pub fn request(module: &[u8], request: &[u8], pruner: &mut [u8], report: &mut [u8], answer: &mut [u8]) -> Reply {
    // SAFETY: each pointer and length are those of a slice; the last three alone are written, and each is lent to no one else.
    let word = unsafe {
        tickingtor_request(
            module.as_ptr(),
            module.len(),
            request.as_ptr(),
            request.len(),
            pruner.as_mut_ptr(),
            pruner.len(),
            report.as_mut_ptr(),
            report.len(),
            answer.as_mut_ptr(),
            answer.len(),
        )
    };
    let reply = Reply::of(word);
    assert_eq!(reply.word(), word, "no answer of a request");
    reply
}

/// What the clearance answers of a report buffer and a context, for what the request asks: a verdict's number.
pub fn check(module: &[u8], request: &[u8], report: &[u8], context: &[u8]) -> u64 {
    // SAFETY: each pointer and length are those of a slice, which the function only reads; it asks nothing else.
    unsafe {
        tickingtor_check(
            module.as_ptr(),
            module.len(),
            request.as_ptr(),
            request.len(),
            report.as_ptr(),
            report.len(),
            context.as_ptr(),
            context.len(),
        )
    }
}

/// The stack that a request is given here: more than it takes (include/tickingtor.h), and than a thread has by itself.
const STACK: usize = 64 << 20;

/// Does it where there is stack enough for requests.
pub fn with_stack<T: Send>(work: impl FnOnce() -> T + Send) -> T {
    std::thread::scope(|scope| {
        let thread = std::thread::Builder::new().stack_size(STACK).spawn_scoped(scope, work).expect("a thread");
        thread.join().unwrap_or_else(|panic| std::panic::resume_unwind(panic))
    })
}

/// What an operation on bindings answers.
#[derive(Clone, PartialEq, Eq, Debug)]
pub enum Answer {
    /// By its number.
    Refused(u32),
    /// 13: the assertion at this argument.
    Asserts(u32),
    Written(Vec<u8>),
}

/// The slice's first bytes, or the refusal, by the number that came back.
fn answer(word: u64, out: &[u8]) -> Answer {
    match (word >> 32) as u32 {
        0 => Answer::Written(out[..word as usize].to_vec()),
        13 => Answer::Asserts(word as u32),
        number => Answer::Refused(number),
    }
}

/// The bindings that a context of the function f needs.
pub fn input_to_bindings(module: &[u8], f: u32, context: &[u8], out: &mut [u8]) -> Answer {
    // SAFETY: each pointer and length are those of a slice; `out` alone is written, and is lent to no one else.
    let word = unsafe {
        tickingtor_input_to_bindings(module.as_ptr(), module.len(), f, context.as_ptr(), context.len(), out.as_mut_ptr(), out.len())
    };
    answer(word, out)
}

/// The request that asks for these bindings of the function f.
pub fn output_from_bindings(module: &[u8], f: u32, list: &[u8], out: &mut [u8]) -> Answer {
    // SAFETY: each pointer and length are those of a slice; `out` alone is written, and is lent to no one else.
    let word = unsafe {
        tickingtor_output_from_bindings(module.as_ptr(), module.len(), f, list.as_ptr(), list.len(), out.as_mut_ptr(), out.len())
    };
    answer(word, out)
}

/// The request with the binding b more.
pub fn add_binding(module: &[u8], request: &[u8], b: u32, out: &mut [u8]) -> Answer {
    // SAFETY: each pointer and length are those of a slice; `out` alone is written, and is lent to no one else.
    let word =
        unsafe { tickingtor_add_binding(module.as_ptr(), module.len(), request.as_ptr(), request.len(), b, out.as_mut_ptr(), out.len()) };
    answer(word, out)
}
