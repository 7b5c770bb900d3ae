//! Measures the least stack in which each command answers the texts that nest deepest, and holds it to `STACK`.
//!
//! A test without a harness: the program runs itself under `ulimit -s`, and there answers one text on its first thread. So it needs a shell.

use std::env;
use std::io::{self, Read, Write};
use std::process::{exit, Command, Stdio};
use utoipa_proved::{
    check, conflicts, document, merge, nest, schema, server, trust_stack, STACK,
};

/// How many levels of objects and lists a text can nest.
const LEVELS: usize = 127;

/// What nests: where it stands, what begins a level, what is innermost, and what ends a level.
type Shape = (&'static str, &'static str, &'static str, &'static str);

const SERVERS: [Shape; 2] = [("x-a", "[", "1", "]"), ("x-a", r#"{"a":"#, "1", "}")];

const SCHEMAS: [Shape; 10] = [
    ("schemas", r#"{"items":"#, "{}", r#","type":"array"}"#),
    (
        "schemas",
        r#"{"items":false,"prefixItems":["#,
        "{}",
        r#"],"type":"array"}"#,
    ),
    ("schemas", r#"{"properties":{"p":"#, "{}", "}}"),
    ("schemas", r#"{"additionalProperties":"#, "{}", "}"),
    ("schemas", r#"{"propertyNames":"#, "{}", "}"),
    ("schemas", r#"{"contentSchema":"#, "{}", "}"),
    ("schemas", r#"{"oneOf":["#, "{}", "]}"),
    ("schemas", r#"{"allOf":["#, "{}", "]}"),
    ("schemas", r#"{"anyOf":["#, "{}", "]}"),
    ("schemas", r#"{"default":["#, "1", "]}"),
];

const OTHERS: [Shape; 6] = [
    ("mediaTypes", r#"{"itemEncoding":"#, "{}", "}"),
    ("mediaTypes", r#"{"encoding":{"a":"#, "{}", "}}"),
    ("mediaTypes", r#"{"prefixEncoding":["#, "{}", "]}"),
    (
        "headers",
        r#"{"content":{"a":{"encoding":{"b":{"headers":{"c":"#,
        "{}",
        "}}}}}}",
    ),
    (
        "pathItems",
        r#"{"get":{"callbacks":{"c":{"e":"#,
        "{}",
        r#"}},"responses":{}}}"#,
    ),
    (
        "paths",
        r#"{"get":{"callbacks":{"c":{"e":"#,
        "{}",
        r#"}},"responses":{}}}"#,
    ),
];

/// A shape as deep as may be in a text of so many levels, of which the rest stands around it.
fn nested(levels: usize, (_, begin, innermost, end): Shape, around: (&str, &str)) -> String {
    let text = |times: usize| {
        format!(
            "{}{}{innermost}{}{}",
            around.0,
            begin.repeat(times),
            end.repeat(times),
            around.1
        )
    };
    (1..)
        .map(text)
        .take_while(|it| depth(it) <= levels)
        .last()
        .expect("a level fits")
}

/// How many objects and lists stand in each other. No name or word of these texts has a bracket.
fn depth(text: &str) -> usize {
    let (mut open, mut most) = (0, 0);
    for byte in text.bytes() {
        match byte {
            b'{' | b'[' => open += 1,
            b'}' | b']' => open -= 1,
            _ => {}
        }
        most = most.max(open);
    }
    most
}

/// A document of so many levels that has the shape among its components or its paths, as it is written.
fn document_of(levels: usize, shape: Shape) -> String {
    let info = r#""info":{"title":"t","version":"1"},"openapi":"3.1.0""#;
    match shape.0 {
        "paths" => nested(
            levels,
            shape,
            (&format!(r#"{{{info},"paths":{{"/a":"#), "}}"),
        ),
        part => nested(
            levels,
            shape,
            (
                &format!(r#"{{"components":{{"{part}":{{"a":"#),
                &format!(r#"}}}},{info},"paths":{{}}}}"#),
            ),
        ),
    }
}

/// The texts of a command. The answer of those that are no list is the text itself.
fn texts(command: &str) -> Vec<String> {
    let documents = |levels| {
        SCHEMAS
            .iter()
            .chain(&OTHERS)
            .map(move |it| document_of(levels, *it))
    };
    // The second document has operations that the first one lacks.
    let list = |it: String| format!("[{it},{}]", it.replace("get", "post"));
    match command {
        "server" => SERVERS
            .iter()
            .map(|it| nested(LEVELS, *it, (r#"{"url":"u","x-a":"#, "}")))
            .collect(),
        "schema" => SCHEMAS
            .iter()
            .map(|it| nested(LEVELS, *it, ("", "")))
            .collect(),
        "document" | "check" => documents(LEVELS).collect(),
        _ => documents(LEVELS - 1).map(list).collect(),
    }
}

/// Answers the text on standard input, on the first thread.
fn answer(command: &str) -> Result<(), Box<dyn std::error::Error>> {
    let mut text = String::new();
    io::stdin().read_to_string(&mut text)?;
    // SAFETY: where the stack is too small the program ends, which is what is looked for.
    unsafe { trust_stack() };
    let answer = match command {
        "server" => server(&text),
        "schema" => schema(&text),
        "document" => document(&text),
        "merge" => merge(&text),
        "nest" => nest("/v1", &text),
        "check" => check("", &text),
        _ => conflicts(&text),
    }?;
    assert!(
        text.starts_with('[') || command == "check" || answer == text,
        "not as it has to be: {answer}"
    );
    Ok(())
}

/// Whether a stack of so many KiB is enough for the command to answer the text.
fn is_enough(command: &str, text: &str, kib: usize) -> bool {
    let limited = r#"ulimit -c 0 && ulimit -s "$1" && exec "$2" call "$3""#;
    let program = env::current_exe().expect("the program has a path");
    let mut run = Command::new("sh");
    run.args(["-c", limited, "sh", &kib.to_string()])
        .arg(program)
        .arg(command)
        .env_clear();
    let mut started = run
        .stdin(Stdio::piped())
        .stderr(Stdio::null())
        .spawn()
        .expect("a shell is there");
    // A program that had no stack to begin with reads nothing.
    let _ = started
        .stdin
        .take()
        .expect("it is piped")
        .write_all(text.as_bytes());
    started.wait().expect("it ends").success()
}

/// The least stack in KiB, by halving.
fn least(command: &str, text: &str) -> usize {
    let (mut low, mut high) = (0, 8192);
    assert!(
        is_enough(command, text, high),
        "{command} does not answer in {high} KiB: {text}"
    );
    while high - low > 4 {
        let middle = (low + high) / 2;
        if is_enough(command, text, middle) {
            high = middle;
        } else {
            low = middle;
        }
    }
    high
}

fn main() {
    let words: Vec<String> = env::args().collect();
    if let [_, call, command] = words.as_slice() {
        if call == "call" {
            exit(i32::from(answer(command).is_err()));
        }
    }
    for command in [
        "server",
        "schema",
        "document",
        "merge",
        "nest",
        "check",
        "conflicts",
    ] {
        let (kib, text) = texts(command)
            .into_iter()
            .map(|it| (least(command, &it), it))
            .max()
            .expect("there is a text");
        println!(
            "stack: {command}: {kib} KiB at most, for {}..",
            &text[..100]
        );
        assert!(kib * 1024 <= STACK, "more than STACK");
    }
}
