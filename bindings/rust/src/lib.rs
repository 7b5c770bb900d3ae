//! OpenAPI 3.1 and 3.2 documents read, written, merged, nested and checked, by a library of which each function is proved.
//!
//! Each function takes a JSON text. [`check`] and [`conflicts`] answer lines, each with a line feed at its end; the others answer JSON: with no
//! space between its parts, and with the members of each object in the order of their names. What is promised of each is what `utoipa.h` says.
//!
//! ```
//! use utoipa_proved::{server, Refusal};
//!
//! assert_eq!(server(r#"{ "url": "/v1", "description": null }"#), Ok(r#"{"url":"/v1"}"#.to_owned()));
//! assert_eq!(server(r#"{ "description": "where" }"#), Err(Refusal::Missing));
//! ```
//!
//! A call takes more stack than a thread of std has, where a text nests deep. So each call is made on a thread of its own with a stack that is
//! enough; many calls share one in [`with_stack`]:
//!
//! ```
//! use utoipa_proved::{document, with_stack};
//!
//! let text = r#"{"openapi":"3.1.0","info":{"version":"1","title":"t"},"paths":{}}"#;
//! let answers = with_stack(|| [document(text), document("{")]).expect("a thread");
//! assert_eq!(answers[0].as_deref(), Ok(r#"{"info":{"title":"t","version":"1"},"openapi":"3.1.0","paths":{}}"#));
//! ```

use std::cell::Cell;
use std::panic::resume_unwind;
use std::{fmt, io, thread};

/// The stack in bytes that a call may take, UTOIPA_STACK of `utoipa.h`. Where a thread has less, a text that nests deep ends the process.
pub const STACK: usize = 4 << 20;

thread_local! {
    /// Whether calls are made on this thread, and not on one of their own.
    static HAS_STACK: Cell<bool> = const { Cell::new(false) };
}

/// Does some work on a thread whose stack is enough for each call, and gives what it makes. The calls in it are made where they stand, so that many
/// cost one thread. A panic of the work goes on here.
///
/// # Errors
///
/// Fails where no thread can be had.
pub fn with_stack<T: Send>(work: impl FnOnce() -> T + Send) -> io::Result<T> {
    if HAS_STACK.with(Cell::get) {
        return Ok(work());
    }
    thread::scope(|scope| {
        let thread = thread::Builder::new().stack_size(STACK);
        let begun = thread.spawn_scoped(scope, || {
            HAS_STACK.with(|it| it.set(true));
            work()
        })?;
        Ok(begun.join().unwrap_or_else(|panic| resume_unwind(panic)))
    })
}

/// Has the calls of this thread made where they stand from now on, as in [`with_stack`]: for who has begun it with a stack that is enough.
///
/// # Safety
///
/// Wherever the thread calls it has [`STACK`] bytes of its stack left. With fewer, a text that nests deep ends the process.
pub unsafe fn trust_stack() {
    HAS_STACK.with(|it| it.set(true));
}

/// The functions of `utoipa.h`, and the codes that are no refusal.
mod library {
    /// A command that is given a text alone.
    pub type Command = unsafe extern "C" fn(
        text: *const u8,
        text_length: usize,
        room: *mut u8,
        room_length: usize,
        needed: *mut usize,
    ) -> u8;

    extern "C" {
        pub fn utoipa_server(
            text: *const u8,
            text_length: usize,
            room: *mut u8,
            room_length: usize,
            needed: *mut usize,
        ) -> u8;
        pub fn utoipa_schema(
            text: *const u8,
            text_length: usize,
            room: *mut u8,
            room_length: usize,
            needed: *mut usize,
        ) -> u8;
        pub fn utoipa_document(
            text: *const u8,
            text_length: usize,
            room: *mut u8,
            room_length: usize,
            needed: *mut usize,
        ) -> u8;
        pub fn utoipa_merge(
            text: *const u8,
            text_length: usize,
            room: *mut u8,
            room_length: usize,
            needed: *mut usize,
        ) -> u8;
        pub fn utoipa_nest(
            base: *const u8,
            base_length: usize,
            text: *const u8,
            text_length: usize,
            room: *mut u8,
            room_length: usize,
            needed: *mut usize,
        ) -> u8;
        pub fn utoipa_check(
            name: *const u8,
            name_length: usize,
            text: *const u8,
            text_length: usize,
            room: *mut u8,
            room_length: usize,
            needed: *mut usize,
        ) -> u8;
        pub fn utoipa_conflicts(
            text: *const u8,
            text_length: usize,
            room: *mut u8,
            room_length: usize,
            needed: *mut usize,
        ) -> u8;
    }

    /// A command that is given a text, and another before it.
    pub type CommandOfTwo = unsafe extern "C" fn(
        first: *const u8,
        first_length: usize,
        text: *const u8,
        text_length: usize,
        room: *mut u8,
        room_length: usize,
        needed: *mut usize,
    ) -> u8;

    pub const DONE: u8 = 0;
    pub const ROOM: u8 = 1;
}

/// Why a text has no answer.
///
/// Each of `Missing`, `Kind`, `Word` and `Alternative` says that the text is JSON, with no fraction, and no document of the kind that is
/// read. Which of them comes tells the first place that does not fit.
#[derive(Clone, Copy, Debug, PartialEq, Eq, Hash)]
pub enum Refusal {
    /// Memory ran out. This says nothing of the text.
    Memory,
    /// The text is no JSON text, or not UTF-8.
    Text,
    /// The text is JSON, and a number of it is neither an `i64` nor a `u64`.
    Fraction,
    /// A member that is required is absent.
    Missing,
    /// A value is of another kind or range.
    Kind,
    /// A text is none of the words that may stand there.
    Word,
    /// No alternative of a choice fits.
    Alternative,
    /// There is no document to merge.
    Empty,
    /// There are not two documents, of which the second is to be nested into the first.
    Count,
}

impl Refusal {
    /// The refusals by their codes, from 2 on.
    const BY_CODE: [Refusal; 9] = [
        Refusal::Memory,
        Refusal::Text,
        Refusal::Fraction,
        Refusal::Missing,
        Refusal::Kind,
        Refusal::Word,
        Refusal::Alternative,
        Refusal::Empty,
        Refusal::Count,
    ];

    /// The refusal that a code tells.
    fn of_code(code: u8) -> Refusal {
        let told = usize::from(code)
            .checked_sub(2)
            .and_then(|at| Refusal::BY_CODE.get(at));
        *told.unwrap_or_else(|| unreachable!("the library has no code {code}"))
    }

    /// The word by which the command `utoipa_doc` tells it.
    pub fn word(self) -> &'static str {
        match self {
            Refusal::Memory => "memory",
            Refusal::Text => "text",
            Refusal::Fraction => "fraction",
            Refusal::Missing => "missing",
            Refusal::Kind => "kind",
            Refusal::Word => "word",
            Refusal::Alternative => "alternative",
            Refusal::Empty => "empty",
            Refusal::Count => "count",
        }
    }
}

impl fmt::Display for Refusal {
    fn fmt(&self, to: &mut fmt::Formatter<'_>) -> fmt::Result {
        to.write_str(match self {
            Refusal::Memory => "memory ran out",
            Refusal::Text => "the text is no JSON text, or not UTF-8",
            Refusal::Fraction => "a number is neither an i64 nor a u64",
            Refusal::Missing => "a member that is required is absent",
            Refusal::Kind => "a value is of another kind or range",
            Refusal::Word => "a text is none of the words that may stand there",
            Refusal::Alternative => "no alternative of a choice fits",
            Refusal::Empty => "there is no document to merge",
            Refusal::Count => {
                "there are not two documents, of which the second is to be nested into the first"
            }
        })
    }
}

impl std::error::Error for Refusal {}

/// Calls as [`answer_here`] does, where there is stack enough. Where no thread can be had for that, this is memory's refusal.
fn answer(
    length: usize,
    call: impl Fn(&mut [u8], &mut usize) -> u8 + Send,
) -> Result<String, Refusal> {
    with_stack(|| answer_here(length, call)).unwrap_or(Err(Refusal::Memory))
}

/// Calls with room for a text of the length and a line feed, and with more room where the answer is longer.
fn answer_here(
    length: usize,
    call: impl Fn(&mut [u8], &mut usize) -> u8,
) -> Result<String, Refusal> {
    let mut room = vec![0; length + 1];
    loop {
        let mut needed = 0;
        match call(&mut room, &mut needed) {
            library::DONE => {
                room.truncate(needed);
                return Ok(String::from_utf8(room).expect("an answer is UTF-8"));
            }
            library::ROOM => room.resize(needed, 0),
            code => return Err(Refusal::of_code(code)),
        }
    }
}

/// The answer of a command that is given a text alone.
fn answer_by(command: library::Command, text: &[u8]) -> Result<String, Refusal> {
    answer(text.len(), |room, needed| {
        // SAFETY: the pointers and lengths are those of slices, and what is borrowed mutably overlaps nothing.
        unsafe {
            command(
                text.as_ptr(),
                text.len(),
                room.as_mut_ptr(),
                room.len(),
                needed,
            )
        }
    })
}

/// The answer of a command that is given a text, and another before it.
fn answer_by_two(
    command: library::CommandOfTwo,
    first: &str,
    text: &[u8],
) -> Result<String, Refusal> {
    answer(text.len(), |room, needed| {
        // SAFETY: as in `answer_by`.
        unsafe {
            command(
                first.as_ptr(),
                first.len(),
                text.as_ptr(),
                text.len(),
                room.as_mut_ptr(),
                room.len(),
                needed,
            )
        }
    })
}

/// A line without its line feed.
fn line(answer: Result<String, Refusal>) -> Result<String, Refusal> {
    answer.map(|mut line| {
        line.pop();
        line
    })
}

/// Reads a Server Object (OpenAPI 3.1, section 4.8.5) and writes it.
///
/// # Errors
///
/// Fails with why the text has no answer: it is no JSON text, it holds a fraction, it is no such object, or memory ran out.
pub fn server(text: impl AsRef<[u8]>) -> Result<String, Refusal> {
    line(answer_by(library::utoipa_server, text.as_ref()))
}

/// Reads a Schema Object, or a reference to one (section 4.8.24), and writes it.
///
/// # Errors
///
/// As [`server`].
pub fn schema(text: impl AsRef<[u8]>) -> Result<String, Refusal> {
    line(answer_by(library::utoipa_schema, text.as_ref()))
}

/// Reads an OpenAPI Object (section 4.8.1) and writes it.
///
/// # Errors
///
/// As [`server`].
pub fn document(text: impl AsRef<[u8]>) -> Result<String, Refusal> {
    line(answer_by(library::utoipa_document, text.as_ref()))
}

/// Reads a list of OpenAPI documents and writes what they are merged into.
///
/// # Errors
///
/// As [`server`], and with [`Refusal::Empty`] of a list of no documents.
pub fn merge(text: impl AsRef<[u8]>) -> Result<String, Refusal> {
    line(answer_by(library::utoipa_merge, text.as_ref()))
}

/// Reads a list of two OpenAPI documents and writes the first with the second nested into it, its paths behind the base.
///
/// # Errors
///
/// As [`server`], and with [`Refusal::Count`] of a list of another number of documents.
pub fn nest(base: &str, text: impl AsRef<[u8]>) -> Result<String, Refusal> {
    line(answer_by_two(library::utoipa_nest, base, text.as_ref()))
}

/// Tells what is found in a text that is to be an OpenAPI Object, in lines `NAME: POINTER: WHAT`: each place that does not fit, is read otherwise
/// than it was meant, is dropped where the text is read and written again, or refers to nothing; or that the text is no JSON. Empty where
/// nothing is found.
///
/// ```
/// let found = utoipa_proved::check("api.json", r#"{"openapi":"3.1.0","info":{"title":"t"},"paths":{}}"#);
/// assert_eq!(found.as_deref(), Ok("api.json: /info: the member `version` is required\n"));
/// ```
///
/// # Errors
///
/// Fails with [`Refusal::Memory`] alone.
pub fn check(name: &str, text: impl AsRef<[u8]>) -> Result<String, Refusal> {
    answer_by_two(library::utoipa_check, name, text.as_ref())
}

/// Reads a list of OpenAPI documents and tells what merging them drops: a line for each value in whose place another document decides, with its
/// place, a JSON Pointer, and the numbers of both documents, counted from 0. Empty where nothing is dropped.
///
/// # Errors
///
/// As [`server`].
pub fn conflicts(text: impl AsRef<[u8]>) -> Result<String, Refusal> {
    answer_by(library::utoipa_conflicts, text.as_ref())
}
