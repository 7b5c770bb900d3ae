//! The document of `crates/examples_of_use/src/builders.rt`, with the original crate and its feature openapi_extensions.

use utoipa::openapi::path::{HttpMethod, Operation, OperationBuilder, Parameter, ParameterBuilder};
use utoipa::openapi::request_body::{RequestBody, RequestBodyExt};
use utoipa::openapi::response::ResponseExt;
use utoipa::openapi::security::{Http, HttpAuthScheme, SecurityRequirement, SecurityScheme};
use utoipa::openapi::{
    Components, ComponentsBuilder, Info, Object, ObjectBuilder, OpenApi, OpenApiBuilder, PathItem,
    Paths, PathsBuilder, Response, Type,
};

pub fn document() -> OpenApi {
    OpenApiBuilder::new()
        .info(Info::new("Orders", "1.0.0"))
        .paths(paths())
        .components(Some(components()))
        .build()
}

fn paths() -> Paths {
    PathsBuilder::new()
        .path("/orders/{number}", PathItem::new(HttpMethod::Get, find()))
        .path("/orders", PathItem::new(HttpMethod::Post, place()))
        .build()
}

fn find() -> Operation {
    let number = ParameterBuilder::from(Parameter::new("number"));
    OperationBuilder::new()
        .parameter(number.schema(Some(Object::with_type(Type::Integer))))
        .response("200", Response::new("The order").json_schema_ref("Order"))
        .response("404", Response::new("No such order"))
        .build()
}

fn place() -> Operation {
    OperationBuilder::new()
        .request_body(Some(RequestBody::new().json_schema_ref("Order")))
        .security(SecurityRequirement::new("token", Vec::<String>::new()))
        .response("201", Response::new("Placed"))
        .build()
}

fn components() -> Components {
    let order = ObjectBuilder::new().required("total");
    let order = order.property("total", Object::with_type(Type::Integer));
    let token = SecurityScheme::Http(Http::new(HttpAuthScheme::Bearer));
    ComponentsBuilder::new()
        .schema("Order", order)
        .security_scheme("token", token)
        .build()
}
