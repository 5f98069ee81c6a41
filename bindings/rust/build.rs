// The archive of the proved functions: tools/native-archive capi makes it. STALLHITCH_LIB names another folder that has it.
fn main() {
    println!("cargo:rerun-if-env-changed=STALLHITCH_LIB");
    let here = std::env::var("CARGO_MANIFEST_DIR").unwrap();
    let folder = std::env::var("STALLHITCH_LIB").unwrap_or(format!("{here}/../../target/native"));
    println!("cargo:rerun-if-changed={folder}/libcapi.a");
    println!("cargo:rustc-link-search=native={folder}");
    println!("cargo:rustc-link-lib=static=capi");
}
