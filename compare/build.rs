//! Links the program `bench` with the static library of the workloads over this repository's crates, and with the kit's C
//! library after it, where `run` names them. No other program needs them.

fn main() {
    for variable in ["HDR_BENCH", "HDR_BENCH_C"] {
        println!("cargo:rerun-if-env-changed={variable}");
        if let Ok(path) = std::env::var(variable) {
            println!("cargo:rustc-link-arg-bin=bench={path}");
            println!("cargo:rerun-if-changed={path}");
        }
    }
}
