//! The document of `crates/examples_of_use/src/types.rt`, with the original crate and its feature openapi_extensions, by hand.

use std::borrow::Cow;
use utoipa::openapi::path::{HttpMethod, OperationBuilder};
use utoipa::openapi::response::ResponseExt;
use utoipa::openapi::{
    ComponentsBuilder, Info, ObjectBuilder, OpenApi, OpenApiBuilder, PathItem, PathsBuilder, RefOr,
    Response, Schema,
};
use utoipa::{PartialSchema, ToSchema};

pub struct Book {
    pub title: String,
    pub pages: u32,
}

impl PartialSchema for Book {
    fn schema() -> RefOr<Schema> {
        let object = ObjectBuilder::new().required("title").required("pages");
        let object = object.property("title", String::schema());
        object.property("pages", u32::schema()).into()
    }
}

impl ToSchema for Book {
    fn name() -> Cow<'static, str> {
        Cow::Borrowed("Book")
    }
}

pub fn document() -> OpenApi {
    let book = Response::new("A book").json_schema_ref("Book");
    let operation = OperationBuilder::new().response("200", book);
    let item = PathItem::new(HttpMethod::Get, operation);
    OpenApiBuilder::new()
        .info(Info::new("Books", "1.0.0"))
        .paths(PathsBuilder::new().path("/book", item))
        .components(Some(ComponentsBuilder::new().schema_from::<Book>().build()))
        .build()
}
