use std::path::Path;

fn main() {
    let dist = Path::new(env!("CARGO_MANIFEST_DIR")).join("../../dist");
    let library = dist.join("libzhavdurgon.a");
    println!("cargo:rerun-if-changed={}", library.display());
    assert!(
        library.exists(),
        "no dist/libzhavdurgon.a: scripts/dist makes it"
    );
    println!("cargo:rustc-link-search=native={}", dist.display());
    println!("cargo:rustc-link-lib=static=zhavdurgon");
}
