//! C files that are compiled and run.

use std::env;
use std::fs;
use std::path::Path;
use std::process::Command;

/// A program that calls every function on some inputs and prints what came of it.
pub fn driver(functions: usize, step: u64) -> String {
    let names: Vec<String> = (0..functions).map(|at| format!("f{at}")).collect();
    let prototypes: String =
        names.iter().map(|name| format!("uint64_t {name}(uint8_t *, size_t, uint64_t, uint64_t);\n")).collect();
    format!(
        "#include <stdio.h>\n#include <stdint.h>\n#include <stddef.h>\n{prototypes}\
         static uint64_t (*const all[])(uint8_t *, size_t, uint64_t, uint64_t) = {{{}}};\n\
         int main(void) {{ int f, i, k; for (f = 0; f < {functions}; f++) for (i = 0; i < 8; i++) {{\n\
         uint8_t s[8]; for (k = 0; k < 8; k++) s[k] = (uint8_t)(37 * k + 11 * i);\n\
         printf(\"%d %d %llx\", f, i, (unsigned long long)all[f](s, 8, (uint64_t)i * {step}, (uint64_t)(i & 3)));\n\
         for (k = 0; k < 8; k++) printf(\" %02x\", s[k]); printf(\"\\n\"); }} return 0; }}\n",
        names.join(", ")
    )
}

/// Where the random programs begin; PORTABLE_SEED for others.
pub fn seed(usual: u64) -> u64 {
    env::var("PORTABLE_SEED").ok().and_then(|seed| seed.parse().ok()).unwrap_or(usual)
}

/// What a C file prints that is compiled with the driver beside it.
pub fn run(folder: &Path, name: &str, c: &str) -> String {
    let source = folder.join(format!("{name}.c"));
    let binary = folder.join(name);
    fs::write(&source, c).expect("a file");
    let compiler = env::var("CC").unwrap_or_else(|_| "cc".to_string());
    let built = Command::new(compiler)
        .args(["-std=c99", "-O1", "-w", "-I"])
        .arg(folder)
        .args([&source, &folder.join("driver.c")])
        .arg("-o")
        .arg(&binary)
        .status();
    assert!(built.expect("a C compiler").success(), "{name} does not build");
    let output = Command::new(&binary).output().expect("a program that runs");
    assert!(output.status.success(), "{name} ends with {}", output.status);
    String::from_utf8(output.stdout).expect("text")
}
