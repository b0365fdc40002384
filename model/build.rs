//! Links the engine's static library where JEMLAYOS_LIB names the folder that holds `libjemlayos.a`.
//! Without it the model is built alone, and the programs compare the model with itself.

fn main() {
    println!("cargo:rustc-check-cfg=cfg(engine)");
    println!("cargo:rerun-if-env-changed=JEMLAYOS_LIB");
    if let Ok(folder) = std::env::var("JEMLAYOS_LIB") {
        println!("cargo:rerun-if-changed={folder}/libjemlayos.a");
        println!("cargo:rustc-link-search=native={folder}");
        println!("cargo:rustc-link-lib=static=jemlayos");
        println!("cargo:rustc-cfg=engine");
    }
}
