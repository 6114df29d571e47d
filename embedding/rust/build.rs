//! Links the proved archive. `WEIRBOWL_LIB` names its folder; `tests/embedding.py` makes it in embedding/out.

use std::path::Path;

fn main() {
    let built = concat!(env!("CARGO_MANIFEST_DIR"), "/../out");
    let folder = std::env::var("WEIRBOWL_LIB").unwrap_or_else(|_| built.to_string());
    println!("cargo:rerun-if-env-changed=WEIRBOWL_LIB");
    println!("cargo:rerun-if-changed={folder}/libweirbowl.a");
    if !Path::new(&folder).join("libweirbowl.a").exists() {
        println!(
            "cargo:warning=expected libweirbowl.a in {folder}, got none: tests/embedding.py builds it; \
             WEIRBOWL_LIB names its folder by an absolute path"
        );
    }
    println!("cargo:rustc-link-search=native={folder}");
    println!("cargo:rustc-link-lib=static=weirbowl");
}
