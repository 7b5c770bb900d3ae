//! The document of `crates/examples_of_use/src/types.rt`, with the derive macros of the original crate.

use utoipa::{OpenApi, ToSchema};

#[derive(ToSchema)]
pub struct Book {
    pub title: String,
    pub pages: u32,
}

#[utoipa::path(get, path = "/book", responses((status = 200, description = "A book", body = Book)))]
pub fn book() {}

#[derive(OpenApi)]
#[openapi(
    info(title = "Books", version = "1.0.0"),
    paths(book),
    components(schemas(Book))
)]
pub struct Books;
