//! What `crates/examples_of_use/src/operations.rt` prints, with the original crate.

use serde_json::Error;
use utoipa::openapi::path::{Operation, PathItem};
use utoipa::openapi::OpenApi;

const TEXT: &str = r#"{"openapi":"3.1.0","info":{"title":"Books","version":"1.0.0"},"paths":{
  "/books":{"get":{"operationId":"listBooks","responses":{}},"post":{"responses":{}}},
  "/books/{number}":{"delete":{"operationId":"removeBook","responses":{}}}}}"#;

pub fn run() -> Result<(), Error> {
    let document: OpenApi = serde_json::from_str(TEXT)?;
    for (path, item) in &document.paths.paths {
        for (method, operation) in operations(item) {
            let id = operation.operation_id.as_deref().unwrap_or("-");
            println!("{path} {method} {id}");
        }
    }
    Ok(())
}

fn operations(item: &PathItem) -> impl Iterator<Item = (&str, &Operation)> {
    let standard = [
        ("get", &item.get),
        ("put", &item.put),
        ("post", &item.post),
        ("delete", &item.delete),
        ("options", &item.options),
        ("head", &item.head),
        ("patch", &item.patch),
        ("trace", &item.trace),
        ("query", &item.query),
    ];
    let standard = standard.into_iter();
    let standard = standard.filter_map(|(method, operation)| Some((method, operation.as_ref()?)));
    let additional = item.additional_operations.iter();
    standard.chain(additional.map(|(method, operation)| (method.as_str(), operation)))
}
