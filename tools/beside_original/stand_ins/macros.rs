//! Stands in the place of the crate's macros, where these are not at hand. The documents that are compared need none of them:
//! the schema of each type of the language is that of any value here.

#[macro_export]
macro_rules! schema {
    ($type:ident) => {
        utoipa::openapi::schema::empty()
    };
}
