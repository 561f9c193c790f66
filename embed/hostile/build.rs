//! Allocations of the archive go by `src/allocations.rs`, which can refuse them.

fn main() {
    println!("cargo:rustc-link-arg-bins=-Wl,--wrap=malloc,--wrap=realloc");
}
