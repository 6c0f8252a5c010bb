// What `tools/sync-speed` times is where that writes it; the proved library itself comes with the bindings.
//
// PLACE, 0 if it isn't set, is where `speed` has its code (outside/src/speed/main.rs).
fn main() {
    println!("cargo::rustc-env=PLACE={}", std::env::var("PLACE").unwrap_or("0".to_string()));
    println!("cargo::rerun-if-env-changed=PLACE");
    let folder = concat!(env!("CARGO_MANIFEST_DIR"), "/../target/sync_speed");
    println!("cargo::rustc-link-search=native={folder}");
    println!("cargo::rerun-if-changed={folder}");
}
