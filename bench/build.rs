// Links the proved library. `bench/run` says where it and the C code beside it are.
use std::env;

fn main() {
    for name in ["RUPDAEM_STATICLIB", "RATTLE_C_CODE"] {
        println!("cargo:rerun-if-env-changed={name}");
        let archive = env::var(name).unwrap_or_else(|_| panic!("{name} is not set: start bench/run"));
        println!("cargo:rerun-if-changed={archive}");
        println!("cargo:rustc-link-arg={archive}");
    }
}
