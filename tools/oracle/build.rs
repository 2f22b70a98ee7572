// Links the programs that call our C entries with the archive that GP_LIB names. The others need no archive.

fn main() {
    println!("cargo:rerun-if-env-changed=GP_LIB");
    if let Ok(archive) = std::env::var("GP_LIB") {
        println!("cargo:rerun-if-changed={archive}");
        for program in ["compare", "bench"] {
            println!("cargo:rustc-link-arg-bin={program}={archive}");
        }
    }
}
