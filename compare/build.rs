// Links the static library that `rt lib` makes of the crate bridge.
use std::env;

fn main() {
    let here = env::var("CARGO_MANIFEST_DIR").expect("cargo names the folder");
    let library = format!("{here}/../crates/bridge/out");
    println!("cargo:rustc-link-search=native={library}");
    println!("cargo:rustc-link-lib=static=bridge");
    println!("cargo:rerun-if-changed={library}/libbridge.a");
}
