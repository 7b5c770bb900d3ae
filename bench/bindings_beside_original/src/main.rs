//! Times the library of `crates/utoipa_c`, as Rust calls it, beside the crate utoipa 6.0.0: both in this one process, by turns.
//!
//! Called with a COMMAND, `document` or `merge`, and a number of TURNS, and given a text on standard input. First each way answers the text,
//! and the run ends with status 1 where one refuses it or two answers are not of one tree. Then, for each turn, it writes a line: the
//! nanoseconds of the processor that each way took from the text to the answer, in the order of `WAYS`.

use serde::de::{DeserializeOwned, Error as _};
use serde_json::{Error, Value};
use std::io::{self, Read, Write};
use utoipa::openapi::OpenApi;

/// How a text is answered.
#[derive(Clone, Copy)]
enum Way {
    /// By the library, through `bindings/rust`.
    Library,
    /// By the crate, from the text to its types.
    Direct,
    /// By the crate, from the text to a tree and from this to its types, as programs read that are given a tree.
    ByTree,
}

const WAYS: [Way; 3] = [Way::Library, Way::Direct, Way::ByTree];

/// What the C library writes the time to.
#[repr(C)]
#[derive(Default)]
struct Time {
    seconds: i64,
    nanoseconds: i64,
}

/// The clock of Linux that runs while this thread does.
const CLOCK_OF_THREAD: i32 = 3;

extern "C" {
    fn clock_gettime(clock: i32, time: *mut Time) -> i32;
}

/// The nanoseconds of the processor that this thread has taken.
fn nanoseconds_taken() -> i64 {
    let mut time = Time::default();
    // SAFETY: the pointer is that of a value of the layout that the call writes on 64-bit Linux.
    let status = unsafe { clock_gettime(CLOCK_OF_THREAD, &mut time) };
    assert_eq!(status, 0, "Linux has a clock of each thread");
    time.seconds * 1_000_000_000 + time.nanoseconds
}

fn read<T: DeserializeOwned>(by_tree: bool, text: &[u8]) -> Result<T, Error> {
    if by_tree {
        serde_json::from_value(serde_json::from_slice::<Value>(text)?)
    } else {
        serde_json::from_slice(text)
    }
}

/// The answer of the original crate.
fn answer_of_crate(by_tree: bool, command: &str, text: &[u8]) -> Result<String, Error> {
    if command == "document" {
        return read::<OpenApi>(by_tree, text)?.to_json();
    }
    let documents = read::<Vec<OpenApi>>(by_tree, text)?.into_iter();
    match documents.reduce(OpenApi::merge_from) {
        Some(document) => document.to_json(),
        None => Err(Error::custom("no document to merge")),
    }
}

/// The answer of the library.
fn answer_of_library(command: &str, text: &[u8]) -> Result<String, Error> {
    let answered = if command == "document" {
        utoipa_proved::document(text)
    } else {
        utoipa_proved::merge(text)
    };
    answered.map_err(Error::custom)
}

fn answer(way: Way, command: &str, text: &[u8]) -> Result<String, Error> {
    match way {
        Way::Library => answer_of_library(command, text),
        Way::Direct => answer_of_crate(false, command, text),
        Way::ByTree => answer_of_crate(true, command, text),
    }
}

/// Fails where a way refuses the text, or the answers of two ways are not of one tree.
fn check_answers(command: &str, text: &[u8]) -> Result<(), Error> {
    let trees = WAYS.map(|way| serde_json::from_str::<Value>(&answer(way, command, text)?));
    let [library, direct, by_tree] = trees;
    let direct = direct?;
    if library? == direct && by_tree? == direct {
        Ok(())
    } else {
        Err(Error::custom("two ways answer otherwise"))
    }
}

/// The nanoseconds that the answer takes, with all that is let go of on the way.
fn nanoseconds_of(way: Way, command: &str, text: &[u8]) -> Result<i64, Error> {
    let began = nanoseconds_taken();
    let answer = answer(way, command, text)?;
    let ended = nanoseconds_taken();
    drop(answer);
    Ok(ended - began)
}

/// The nanoseconds of each way in a turn, of which every second one goes the other way round.
fn turn(number: usize, command: &str, text: &[u8]) -> Result<[i64; 3], Error> {
    let (mut taken, mut order) = ([0; 3], [0, 1, 2]);
    if number % 2 == 1 {
        order.reverse();
    }
    for at in order {
        taken[at] = nanoseconds_of(WAYS[at], command, text)?;
    }
    Ok(taken)
}

fn time(command: &str, turns: usize) -> io::Result<()> {
    let mut text = Vec::new();
    io::stdin().read_to_end(&mut text)?;
    check_answers(command, &text)?;
    let mut output = io::stdout().lock();
    for number in 0..turns {
        let [library, direct, by_tree] = turn(number, command, &text)?;
        writeln!(output, "{library} {direct} {by_tree}")?;
    }
    Ok(())
}

fn main() -> io::Result<()> {
    let words: Vec<String> = std::env::args().skip(1).collect();
    let [command, turns] = &words[..] else {
        return Err(io::Error::other(
            "called with a command and a number of turns",
        ));
    };
    let (command, turns) = (command.clone(), turns.parse().map_err(io::Error::other)?);
    utoipa_proved::with_stack(move || time(&command, turns))?
}
