// Links the firmware library, which `rt lib` in crates/firmware builds.
fn main() {
    let out = concat!(env!("CARGO_MANIFEST_DIR"), "/../crates/firmware/out");
    println!("cargo:rerun-if-changed={out}/libfirmware.a");
    println!("cargo:rustc-link-search=native={out}");
    println!("cargo:rustc-link-lib=static=firmware");
}
