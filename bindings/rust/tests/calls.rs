//! Calls of each function. What is expected is worked by hand from docs/FORMAT.md; an example of the repository is written as its own tree.

use utoipa_proved::{
    check, conflicts, document, merge, nest, schema, server, with_stack, Refusal,
};

const FIRST: &str = r#"{"openapi":"3.1.0","info":{"version":"1","title":"a"},"paths":{"/a":{"get":{"responses":{}}}}}"#;
const SECOND: &str = r#"{"openapi":"3.1.0","info":{"version":"2","title":"b"},"paths":{"/b":{},"/a":{"post":{"responses":{}}}}}"#;

/// What a document of the first one's information and of these paths is written as.
fn with_paths(paths: &str) -> String {
    format!(r#"{{"info":{{"title":"a","version":"1"}},"openapi":"3.1.0","paths":{{{paths}}}}}"#)
}

#[test]
fn the_example_of_a_server_is_written_in_the_order_of_names() {
    let text = include_str!("../../../examples/server.json");
    let variables = r#"{"username":{"default":"the_user"},"version":{"default":"v1","description":"api version","enum":["v1","v2"]}}"#;
    assert_eq!(
        server(text),
        Ok(format!(
            r#"{{"url":"/api/{{version}}/{{username}}","variables":{variables}}}"#
        ))
    );
}

#[test]
fn members_are_kept_by_their_tables() {
    let text = r#" { "url" : "\u0041" , "description" : null , "x-a" : 1 , "y" : 2 } "#;
    assert_eq!(server(text), Ok(r#"{"url":"A","x-a":1}"#.to_owned()));
}

#[test]
fn a_reference_is_read_in_the_place_of_a_schema() {
    let text = r##"{"$ref":"#/components/schemas/A"}"##;
    assert_eq!(schema(text), Ok(text.to_owned()));
}

#[test]
fn an_answer_longer_than_its_text_is_given_more_room() {
    // The description of external documentation is written also where there is none.
    let text = r#"{"openapi":"3.1.0","info":{"title":"a","version":"1"},"paths":{},"externalDocs":{"url":"u"}}"#;
    let wanted = r#"{"externalDocs":{"description":null,"url":"u"},"info":{"title":"a","version":"1"},"openapi":"3.1.0","paths":{}}"#;
    assert_eq!(document(text), Ok(wanted.to_owned()));
}

#[test]
fn documents_are_merged() {
    let wanted = with_paths(r#""/a":{"get":{"responses":{}},"post":{"responses":{}}},"/b":{}"#);
    assert_eq!(merge(format!("[{FIRST},{SECOND}]")), Ok(wanted));
}

#[test]
fn a_document_is_nested() {
    let wanted =
        with_paths(r#""/a":{"get":{"responses":{}}},"/v1/a":{"post":{"responses":{}}},"/v1/b":{}"#);
    assert_eq!(nest("/v1", format!("[{FIRST},{SECOND}]")), Ok(wanted));
}

#[test]
fn what_is_found_is_told() {
    let text = r#"{"openapi":"3.1.0","info":{"title":"t"},"paths":{}}"#;
    let found = "a.json: /info: the member `version` is required\n".to_owned();
    assert_eq!(check("a.json", text), Ok(found));
    assert_eq!(check("a.json", FIRST), Ok(String::new()));
    let broken = "a.json:1:1: this is no JSON\n".to_owned();
    assert_eq!(check("a.json", "["), Ok(broken));
}

#[test]
fn what_merging_drops_is_told() {
    let dropped = "/info: document 1's value is dropped, since document 0 decides\n".to_owned();
    assert_eq!(conflicts(format!("[{FIRST},{SECOND}]")), Ok(dropped));
    assert_eq!(conflicts(format!("[{FIRST},{FIRST}]")), Ok(String::new()));
    assert_eq!(conflicts("[]"), Ok(String::new()));
    assert_eq!(conflicts("{}"), Err(Refusal::Kind));
}

#[test]
fn a_text_that_is_no_json_is_refused() {
    assert_eq!(server(""), Err(Refusal::Text));
    assert_eq!(server(r#"{"url":"#), Err(Refusal::Text));
    assert_eq!(server(b"{\"url\":\"\xff\"}"), Err(Refusal::Text));
}

#[test]
fn a_text_that_is_no_document_is_refused() {
    assert_eq!(server(r#"{"url":"u","x-a":1.0}"#), Err(Refusal::Fraction));
    assert_eq!(server("{}"), Err(Refusal::Missing));
    assert_eq!(server(r#"{"url":5}"#), Err(Refusal::Kind));
    assert_eq!(
        document(r#"{"openapi":"3.0.3","info":{"title":"t","version":"1"},"paths":{}}"#),
        Err(Refusal::Kind)
    );
    assert_eq!(schema(r#"{"type":"text"}"#), Err(Refusal::Word));
    assert_eq!(
        schema(r##"{"type":"object","propertyNames":{"$ref":"#/a"}}"##),
        Err(Refusal::Alternative)
    );
}

#[test]
fn the_first_place_that_does_not_fit_is_told() {
    assert_eq!(
        document(r#"{"openapi":5,"info":{"title":"t"},"paths":{}}"#),
        Err(Refusal::Missing)
    );
    assert_eq!(merge(format!("[{FIRST},{{}},5]")), Err(Refusal::Missing));
    assert_eq!(conflicts("[5,{}]"), Err(Refusal::Kind));
}

#[test]
fn another_number_of_documents_is_refused() {
    assert_eq!(merge("[]"), Err(Refusal::Empty));
    assert_eq!(nest("/v1", format!("[{FIRST}]")), Err(Refusal::Count));
    assert_eq!(nest("", "[]"), Err(Refusal::Count));
}

#[test]
fn a_refusal_is_an_error_with_a_word() {
    let refused: Box<dyn std::error::Error + Send + Sync> = Box::new(merge("[]").unwrap_err());
    assert_eq!(refused.to_string(), "there is no document to merge");
    assert_eq!(Refusal::Empty.word(), "empty");
}

/// A path item with callbacks in each other.
fn callbacks_in_callbacks(levels: usize) -> String {
    (0..levels).fold("{}".to_owned(), |inner, _| {
        format!(r#"{{"get":{{"callbacks":{{"c":{{"e":{inner}}}}},"responses":{{}}}}}}"#)
    })
}

/// A thread with a stack that is far too small for the call: the call is made on one that has enough.
#[test]
fn a_text_that_nests_deep_needs_no_stack_of_the_caller() {
    let item = callbacks_in_callbacks(30);
    let text = format!(
        r#"{{"components":{{"pathItems":{{"P":{item}}}}},"info":{{"title":"a","version":"1"}},"openapi":"3.1.0","paths":{{"/a":{item}}}}}"#
    );
    let list = format!("[{text},{text}]");
    let small = std::thread::Builder::new().stack_size(1 << 16);
    let answer = small.spawn(move || merge(list)).expect("a thread").join();
    assert_eq!(answer.expect("an answer"), Ok(text));
}

#[test]
fn many_calls_share_a_stack() {
    let answers = with_stack(|| {
        let inner = with_stack(|| server(r#"{"url":"a"}"#)).expect("no other thread");
        (inner, server(r#"{"url":"b"}"#))
    });
    let wanted = |url: &str| Ok(format!(r#"{{"url":"{url}"}}"#));
    assert_eq!(answers.expect("a thread"), (wanted("a"), wanted("b")));
}

#[test]
fn threads_call_side_by_side() {
    std::thread::scope(|scope| {
        for thread in 0..4 {
            scope.spawn(move || {
                // Each thread has a text of its own, which is in normal form.
                let names: Vec<String> = (0..2000)
                    .map(|at| format!(r#""p{at:04}":{{"maxLength":{thread},"type":"string"}}"#))
                    .collect();
                let text = format!(
                    r#"{{"properties":{{{}}},"type":"object"}}"#,
                    names.join(",")
                );
                for _ in 0..10 {
                    assert_eq!(schema(&text).as_deref(), Ok(text.as_str()));
                }
            });
        }
    });
}
