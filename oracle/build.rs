//! Links the planner's static library into `bench`, where the feature `capi` asks for it: `CAPI` is
//! the archive of the planner, `RATTLE_C` the one of the C code that it calls.

use std::env::var;

fn main() {
    println!("cargo:rerun-if-env-changed=CAPI");
    println!("cargo:rerun-if-env-changed=RATTLE_C");
    if var("CARGO_FEATURE_CAPI").is_ok() {
        for name in ["CAPI", "RATTLE_C"] {
            let archive = var(name).unwrap_or_else(|_| panic!("{name} names no archive"));
            println!("cargo:rerun-if-changed={archive}");
            println!("cargo:rustc-link-arg-bin=bench={archive}");
        }
    }
}
