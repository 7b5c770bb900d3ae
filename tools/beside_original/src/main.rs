//! Answers texts by the crate utoipa 6.0.0, as the command `utoipa_doc` of this repository answers them by the port.
//!
//! Called with two words, a WAY and a COMMAND, it answers the one text of standard input, and ends with status 1 where that is refused.
//! Called without words, it answers many.
//!
//! A request on standard input is a line, and after it the text, of as many bytes as the line says:
//!
//!     WAY COMMAND LENGTH BASE
//!
//! WAY is `text`, where the text is read by itself, or `tree`, where it is read as a `serde_json::Value` and that is read then.
//! COMMAND is `server`, `schema`, `document`, `merge` or `nest`; BASE, the rest of the line, is that of `nest`, else empty.
//!
//! Its answer on standard output is a line, `ok LENGTH` or `refused LENGTH`, and after it the text that the crate writes, or why
//! there is none, of as many bytes as the line says. The answers come in the order of the requests.

use serde::de::{DeserializeOwned, Error as _};
use serde::Serialize;
use serde_json::{Error, Value};
use std::io::{self, BufRead, BufReader, BufWriter, Read, Write};
use utoipa::openapi::{OpenApi, RefOr, Schema, Server};

/// A text, and what is asked of it.
struct Request {
    by_tree: bool,
    command: String,
    base: String,
    text: Vec<u8>,
}

/// The next request, or none at the end of the input.
fn next_request(input: &mut impl BufRead) -> io::Result<Option<Request>> {
    let mut line = String::new();
    if input.read_line(&mut line)? == 0 {
        return Ok(None);
    }
    let words: Vec<&str> = line.trim_end_matches('\n').splitn(4, ' ').collect();
    let [way, command, length, base] = words[..] else {
        return Err(io::Error::other("a request has four words"));
    };
    let length = length.parse().map_err(io::Error::other)?;
    let mut text = vec![0; length];
    input.read_exact(&mut text)?;
    Ok(Some(Request {
        by_tree: way == "tree",
        command: command.to_string(),
        base: base.to_string(),
        text,
    }))
}

fn read<T: DeserializeOwned>(request: &Request) -> Result<T, Error> {
    if request.by_tree {
        serde_json::from_value(serde_json::from_slice::<Value>(&request.text)?)
    } else {
        serde_json::from_slice(&request.text)
    }
}

fn rewritten<T: DeserializeOwned + Serialize>(request: &Request) -> Result<String, Error> {
    serde_json::to_string(&read::<T>(request)?)
}

/// All documents of a list, each merged into the first in its turn.
fn merged(request: &Request) -> Result<String, Error> {
    let documents = read::<Vec<OpenApi>>(request)?.into_iter();
    match documents.reduce(OpenApi::merge_from) {
        Some(document) => document.to_json(),
        None => Err(Error::custom("no document to merge")),
    }
}

/// The first document of a list of two, with the second nested into it.
fn nested(request: &Request) -> Result<String, Error> {
    let mut documents = read::<Vec<OpenApi>>(request)?.into_iter();
    match (documents.next(), documents.next(), documents.next()) {
        (Some(own), Some(other), None) => own.nest(&request.base, other).to_json(),
        _ => Err(Error::custom("not two documents to nest")),
    }
}

fn answer(request: &Request) -> Result<String, Error> {
    match request.command.as_str() {
        "server" => rewritten::<Server>(request),
        "schema" => rewritten::<RefOr<Schema>>(request),
        "document" => rewritten::<OpenApi>(request),
        "merge" => merged(request),
        "nest" => nested(request),
        _ => Err(Error::custom("no such command")),
    }
}

/// Answers the text of standard input alone.
fn answer_one(way: &str, command: &str) -> io::Result<()> {
    let mut text = Vec::new();
    io::stdin().read_to_end(&mut text)?;
    let request = Request {
        by_tree: way == "tree",
        command: command.to_string(),
        base: String::new(),
        text,
    };
    let mut answer = answer(&request).map_err(io::Error::other)?;
    answer.push('\n');
    io::stdout().write_all(answer.as_bytes())
}

fn answer_all() -> io::Result<()> {
    let mut input = BufReader::new(io::stdin());
    let mut output = BufWriter::new(io::stdout());
    while let Some(request) = next_request(&mut input)? {
        let (word, text) = match answer(&request) {
            Ok(text) => ("ok", text),
            Err(error) => ("refused", error.to_string()),
        };
        write!(output, "{word} {}\n{text}", text.len())?;
    }
    output.flush()
}

fn main() -> io::Result<()> {
    // A text may nest as deep as 127, and each level of it takes many calls.
    let answering = std::thread::Builder::new().stack_size(1 << 30);
    let words: Vec<String> = std::env::args().skip(1).collect();
    let answered = answering.spawn(move || match &words[..] {
        [way, command] => answer_one(way, command),
        _ => answer_all(),
    });
    answered?.join().expect("the crate ended the run")
}
