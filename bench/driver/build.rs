//! Takes harfrust's sources as compare/ does, and links the loads that `rt lib` made in crates/bench.
use std::{env, path::Path};
#[path = "../../compare/build.rs"]
mod theirs;

fn main() {
    theirs::main();
    let root = env::var("CARGO_MANIFEST_DIR").unwrap();
    let made = Path::new(&root).join("../../crates/bench/out");
    println!("cargo:rerun-if-changed={}", made.join("libbench.a").display());
    println!("cargo:rustc-link-search=native={}", made.display());
    println!("cargo:rustc-link-lib=static=bench");
}
