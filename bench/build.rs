// Links crates/speed/out/libspeed.a, which `rt lib` makes in crates/speed.
fn main() {
    let root = std::env::var("CARGO_MANIFEST_DIR").unwrap();
    println!("cargo:rustc-link-search=native={root}/../crates/speed/out");
    println!("cargo:rustc-link-lib=static=speed");
    println!("cargo:rerun-if-changed={root}/../crates/speed/out/libspeed.a");
}
