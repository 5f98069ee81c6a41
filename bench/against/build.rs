// The copies of the two archives, each with a prefix of its own and behind its stretch: `run` names them in the order in which they are to stand.
fn main() {
    let objects = std::env::var("AGAINST_OBJECTS").expect("`run` names the objects");
    println!("cargo:rerun-if-env-changed=AGAINST_OBJECTS");
    for object in objects.split_whitespace() {
        println!("cargo:rerun-if-changed={object}");
        println!("cargo:rustc-link-arg={object}");
    }
}
