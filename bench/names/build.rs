//! Links the archives that `bench/names/run` writes.
fn main() {
    let archives = concat!(env!("CARGO_MANIFEST_DIR"), "/../../target/bench-names");
    println!("cargo:rustc-link-search=native={archives}");
    let mut sides = vec!["proved"];
    if std::env::var_os("CARGO_FEATURE_BEFORE").is_some() {
        sides.push("before");
    }
    for side in sides {
        println!("cargo:rustc-link-lib=static={side}");
        println!("cargo:rerun-if-changed={archives}/lib{side}.a");
    }
}
