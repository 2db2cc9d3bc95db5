//! Points the compiler at agent.rs and stats.rs where they stand; they are read there and copied nowhere.

use std::path::{Path, PathBuf};

/// The folder in STUN_PROTO_SRC, or `shared/docs/src` beside the repository.
fn sources() -> PathBuf {
    println!("cargo:rerun-if-env-changed=STUN_PROTO_SRC");
    match std::env::var_os("STUN_PROTO_SRC") {
        Some(folder) => folder.into(),
        None => Path::new(env!("CARGO_MANIFEST_DIR")).join("../../../shared/docs/src"),
    }
}

/// The file of this name in the folder or in its `src`.
fn find(folder: &Path, name: &str) -> PathBuf {
    let inner = folder.join("src").join(name);
    let file = if inner.is_file() { inner } else { folder.join(name) };
    let file = file.canonicalize().unwrap_or_else(|error| panic!("{}: {error} (see STUN_PROTO_SRC)", file.display()));
    println!("cargo:rerun-if-changed={}", file.display());
    file
}

fn main() {
    let folder = sources();
    let modules: String = ["agent", "stats"]
        .iter()
        .map(|name| {
            let file = find(&folder, &format!("{name}.rs"));
            format!("#[path = {file:?}]\npub mod {name};\n")
        })
        .collect();
    let out = PathBuf::from(std::env::var_os("OUT_DIR").expect("cargo sets OUT_DIR"));
    std::fs::write(out.join("modules.rs"), modules).expect("OUT_DIR can be written");
}
