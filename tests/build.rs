// Links the static library that `bash tools/build` makes, and turns the constants of include/juntreak.h into Rust.
fn main() {
    let here = std::env::var("CARGO_MANIFEST_DIR").unwrap();
    let lib = format!("{here}/../target/staticlib");
    println!("cargo:rustc-link-search=native={lib}");
    println!("cargo:rustc-link-lib=static=juntreak");
    println!("cargo:rerun-if-changed={lib}/libjuntreak.a");
    if std::env::var("CARGO_FEATURE_BEFORE").is_ok() {
        println!("cargo:rustc-link-search=native={here}/../target/before");
        println!("cargo:rustc-link-lib=static=before");
        println!("cargo:rerun-if-changed={here}/../target/before/libbefore.a");
    }

    let header = format!("{here}/../include/juntreak.h");
    println!("cargo:rerun-if-changed={header}");
    let text = std::fs::read_to_string(header).unwrap();
    let (mut limits, mut enums) = (vec![], vec![]);
    for line in text.lines() {
        match line.split_whitespace().collect::<Vec<_>>()[..] {
            ["#define", name, value, ..] => limits.extend(constant(name, value)),
            ["enum", "{"] => enums.push(vec![]),
            [name, "=", value, ..] => enums.last_mut().expect("a value outside an enum").extend(constant(name, value.trim_end_matches(','))),
            _ => {}
        }
    }
    let [refusals, values] = &enums[..] else { panic!("the header has other enums than the numbers and the values of an early answer") };
    let modules = module("limits", "usize", &limits) + &module("refusals", "u32", refusals) + &module("values", "u32", values);
    std::fs::write(std::env::var("OUT_DIR").unwrap() + "/header.rs", modules).unwrap();
}

/// The name without its JUNTREAK_, if the value is a decimal number, with or without a `u` behind it.
fn constant<'a>(name: &'a str, value: &str) -> Option<(&'a str, u64)> {
    Some((name.strip_prefix("JUNTREAK_")?, value.strip_suffix('u').unwrap_or(value).parse().ok()?))
}

/// A module of the constants, with a list of all.
fn module(name: &str, kind: &str, constants: &[(&str, u64)]) -> String {
    let lines: String = constants.iter().map(|(name, value)| format!("    pub const {name}: {kind} = {value};\n")).collect();
    format!("pub mod {name} {{\n{lines}    pub const ALL: &[(&str, u64)] = &{constants:?};\n}}\n")
}
