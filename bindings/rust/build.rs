//! Finds the library: the variable UTOIPA_LIBRARY names the folder that libutoipa.a stands in.

fn main() {
    println!("cargo:rerun-if-env-changed=UTOIPA_LIBRARY");
    let folder = std::env::var("UTOIPA_LIBRARY")
        .expect("UTOIPA_LIBRARY names the folder of libutoipa.a, which tools/bindings.py makes");
    println!("cargo:rerun-if-changed={folder}/libutoipa.a");
    println!("cargo:rustc-link-search=native={folder}");
    println!("cargo:rustc-link-lib=static=utoipa");
}
