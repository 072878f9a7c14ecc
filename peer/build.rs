//! Links the archive that unit/bitcode writes, or the one whose basic blocks are counted,
//! which run-peer makes for `worst`.

fn main() {
    let counted = std::env::var_os("CARGO_FEATURE_COUNTED").is_some();
    let folder = if counted { "counted" } else { "staticlib" };
    let archive = format!("{}/../target/{folder}", env!("CARGO_MANIFEST_DIR"));
    println!("cargo:rustc-link-search=native={archive}");
    println!("cargo:rustc-link-lib=static=planner");
    println!("cargo:rerun-if-changed={archive}/libplanner.a");
}
