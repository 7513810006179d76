//! Puts the handed-over sources in place, byte for byte, beside the stand-ins for what is missing,
//! and copies of homing.rs, rebuild.rs and thin.rs with the edits of `copies.rs`. The probes follow the
//! text of each homing.rs and each rebuild.rs. The sources are in the folder `SEEDS`, else in
//! `shared/docs/src` beside the project.
use std::path::{Path, PathBuf};
use std::{env, fs};

mod copies;

/// Sources, by their path below apps/vana/src.
const SOURCES: [&str; 6] = [
    "ride/homing.rs",
    "ride/homing/rebuild.rs",
    "ride/thin.rs",
    "ride/course.rs",
    "ride/course/turns.rs",
    "ride/log.rs",
];
/// Sources with edited copies, by their path below ride.
const COPIED: [&str; 3] = ["homing.rs", "homing/rebuild.rs", "thin.rs"];
/// Sources whose private state is read, and what follows their text.
const PROBES: [(&str, &str); 2] =
    [("ride/homing.rs", "probe.rs"), ("ride/homing/rebuild.rs", "probe_rebuild.rs")];
/// Modules that are not among the sources, by their path below standin.
const STANDINS: [&str; 5] = [
    "ride/mod.rs",
    "ride/load.rs",
    "ride/replay.rs",
    "ride/course/gpx.rs",
    "ride/course/stored.rs",
];

fn main() {
    println!("cargo::rerun-if-env-changed=SEEDS");
    println!("cargo::rerun-if-changed=copies.rs");
    println!("cargo::rerun-if-changed=build.rs");
    let package = PathBuf::from(env::var_os("CARGO_MANIFEST_DIR").unwrap());
    let out = PathBuf::from(env::var_os("OUT_DIR").unwrap());
    let beside = package.join("../../../shared/docs/src");
    let seeds = env::var_os("SEEDS").map_or(beside, PathBuf::from);
    let source = |path: &str| {
        let name = format!("src--apps--vana--src--{}.txt", path.replace('/', "--"));
        read(&seeds.join(name))
    };
    let probe = |path: &str| match PROBES.iter().find(|(probed, _)| *probed == path) {
        Some((_, probe)) => read(&package.join(probe)),
        None => String::new(),
    };
    for path in SOURCES {
        write(&out.join(path), &(source(path) + &probe(path)));
    }
    for path in STANDINS {
        write(&out.join(path), &read(&package.join("../standin").join(path)));
    }
    let mut modules = module(&out, "ride");
    for (name, edits) in [("added", added()), ("mistaken", mistaken())] {
        let mut texts = COPIED.map(|path| source(&format!("ride/{path}")));
        edits.iter().for_each(|edit| replace(&mut texts, edit));
        for (path, text) in COPIED.iter().zip(texts) {
            write(&out.join(name).join(path), &(text + &probe(&format!("ride/{path}"))));
        }
        write(&out.join(name).join("mod.rs"), "pub mod homing;\npub mod thin;\n");
        modules += &module(&out, name);
    }
    write(&out.join("vana.rs"), &modules);
}

type Edit = (&'static str, String);

/// The additions, and what they and a reset note.
fn added() -> Vec<Edit> {
    additions().into_iter().chain(copies::NOTED.map(owned)).collect()
}

fn additions() -> Vec<Edit> {
    [copies::BESIDE, copies::ADDED].map(owned).into()
}

fn owned((old, new): copies::Edit) -> Edit {
    (old, new.to_owned())
}

/// The additions, and the mistakes, each numbered by its place.
fn mistaken() -> Vec<Edit> {
    let made = |k| format!("crate::mistakes::made({k})");
    let mistakes = copies::MISTAKES.iter().enumerate();
    additions()
        .into_iter()
        .chain(mistakes.map(|(k, (_, (old, new)))| (*old, new.replace("MADE", &made(k)))))
        .collect()
}

fn replace(texts: &mut [String; COPIED.len()], (old, new): &Edit) {
    let found: usize = texts.iter().map(|text| text.matches(old).count()).sum();
    assert_eq!(found, 1, "times that the sources have this text: {old}");
    *texts = texts.each_ref().map(|text| text.replace(old, new));
}

fn module(out: &Path, name: &str) -> String {
    format!("#[path = {:?}]\npub mod {name};\n", out.join(name).join("mod.rs"))
}

fn read(path: &Path) -> String {
    println!("cargo::rerun-if-changed={}", path.display());
    fs::read_to_string(path).unwrap_or_else(|error| panic!("{}: {error}", path.display()))
}

fn write(path: &Path, text: &str) {
    fs::create_dir_all(path.parent().unwrap()).unwrap();
    fs::write(path, text).unwrap();
}
