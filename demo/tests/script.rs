//! Tests that the script `demo/query` builds and runs the right program, in a copy of the folders
//! with a small program.
#![cfg(unix)]

mod support;

use std::ffi::OsStr;
use std::fs;
use std::path::{Path, PathBuf};
use std::process::{Command, Output};
use std::thread;
use std::time::Duration;

use support::Folder;

const SCRIPT: &str = concat!(env!("CARGO_MANIFEST_DIR"), "/query");
/// A machine that isn't this one.
const NOWHERE: &str = "wasm32-unknown-unknown";

const PROGRAM: &str = "[package]\nname = \"demo\"\nedition = \"2021\"\n[workspace]\n\
    [[bin]]\nname = \"query\"\npath = \"src/main.rs\"\n\
    [dependencies]\nvortex_bits = { path = \"../bindings/rust\" }\n";
const MAIN: &str = "const SAID: &str = \"main\";\nfn main() {\n    \
    let folder = std::env::current_dir().unwrap();\n    \
    let args: Vec<String> = std::env::args().skip(1).collect();\n    \
    print!(\"{SAID}, {}, {args:?} in {folder:?}\", vortex_bits::SAID);\n}\n";
const CRATE: &str = "[package]\nname = \"vortex_bits\"\nedition = \"2021\"\nbuild = \"build.rs\"\n";
const LIB: &str = "pub const SAID: &str = concat!(\"lib, \", env!(\"SAID\"));\n";
const BUILD: &str = "fn main() {\n    println!(\"cargo::rustc-env=SAID=build\");\n}\n";

/// The sources of the small program, each with a word that it prints.
const SOURCES: [(&str, &str, &str); 3] = [
    ("demo/src/main.rs", MAIN, "main"),
    ("bindings/rust/src/lib.rs", LIB, "lib"),
    ("bindings/rust/build.rs", BUILD, "build"),
];

/// The script next to the small program.
struct Copied {
    folder: Folder,
}

impl Copied {
    fn new() -> Copied {
        let copied = Copied {
            folder: Folder::new("script"),
        };
        copied.write("demo/Cargo.toml", PROGRAM);
        copied.write("bindings/rust/Cargo.toml", CRATE);
        for (path, text, _) in SOURCES {
            copied.write(path, text);
        }
        fs::copy(SCRIPT, copied.folder.path("demo/query")).unwrap();
        copied
    }

    fn write(&self, path: &str, text: &str) -> PathBuf {
        let folder = Path::new(path).parent().unwrap();
        fs::create_dir_all(self.folder.path(folder.to_str().unwrap())).unwrap();
        self.folder.file(path, text)
    }

    /// Waits until the coarse clock of files has moved on, and then writes a source.
    fn change(&self, path: &str, text: &str) {
        thread::sleep(Duration::from_millis(50));
        self.write(path, text);
    }

    /// Runs the script in the folder `caller`, with a variable.
    fn run(&self, name: &str, value: impl AsRef<OsStr>) -> Output {
        let caller = self.folder.path("caller");
        fs::create_dir_all(&caller).unwrap();
        // By its interpreter: a file can't be executed while the process of another test has it
        // open for writing.
        let mut command = Command::new("bash");
        command.arg(self.folder.path("demo/query")).arg("one word");
        command.env(name, value).current_dir(caller);
        command.output().unwrap()
    }

    /// Returns what a run prints before its arguments and folder, which this checks.
    fn printed(&self, name: &str, value: impl AsRef<OsStr>) -> String {
        let output = self.run(name, value);
        let errors = String::from_utf8(output.stderr).unwrap();
        assert_eq!(output.status.code(), Some(0), "{name}: {errors}");
        let printed = String::from_utf8(output.stdout).unwrap();
        let (said, rest) = printed.split_once(", [\"one word\"] in ").unwrap();
        assert!(rest.ends_with("/caller\""), "{rest}");
        said.to_string()
    }
}

/// Cargo's settings name another machine and another folder, and an older program is there.
#[test]
fn settings_of_cargo_change_nothing() {
    let copied = Copied::new();
    assert_eq!(copied.printed("NONE", ""), "main, lib, build");
    let target = format!("[build]\ntarget = \"{NOWHERE}\"\ntarget-dir = \"elsewhere\"\n");
    let elsewhere = copied.folder.path("elsewhere");
    let home = copied.write("home/config.toml", &target);
    let settings = [
        ("CARGO_BUILD_TARGET", OsStr::new(NOWHERE)),
        ("CARGO_TARGET_DIR", elsewhere.as_os_str()),
        ("CARGO_HOME", home.parent().unwrap().as_os_str()),
        ("NONE", OsStr::new("")),
    ];
    for (said, (name, value)) in ["one", "two", "three", "four"].into_iter().zip(settings) {
        if name == "NONE" {
            copied.write("caller/.cargo/config.toml", &target);
        }
        copied.change("demo/src/main.rs", &MAIN.replacen("main", said, 1));
        assert_eq!(copied.printed(name, value), format!("{said}, lib, build"));
    }
    assert!(!elsewhere.exists());
}

/// If cargo's settings name this machine as the target, cargo builds in a folder of that name.
#[test]
fn the_target_of_this_machine() {
    let copied = Copied::new();
    let output = Command::new("cargo").arg("-vV").output().unwrap();
    let version = String::from_utf8(output.stdout).unwrap();
    let host = version.lines().find_map(|line| line.strip_prefix("host: "));
    assert_eq!(
        copied.printed("CARGO_BUILD_TARGET", host.unwrap()),
        "main, lib, build"
    );
}

#[test]
fn a_change_of_each_source_is_built() {
    let copied = Copied::new();
    let mut wanted = "main, lib, build".to_string();
    assert_eq!(copied.printed("NONE", ""), wanted);
    for (path, text, said) in SOURCES {
        copied.change(path, &text.replacen(said, &format!("new {said}"), 1));
        wanted = wanted.replace(said, &format!("new {said}"));
        assert_eq!(copied.printed("NONE", ""), wanted);
    }
}

/// Later runs start what the first one built, and an error of cargo is one of the script.
#[test]
fn a_run_builds_only_what_has_changed() {
    let copied = Copied::new();
    let built = || {
        let program = fs::metadata(copied.folder.path("demo/target/release/query"));
        program.unwrap().modified().unwrap()
    };
    copied.printed("NONE", "");
    let first = built();
    assert_eq!(copied.printed("NONE", ""), "main, lib, build");
    assert_eq!(built(), first);
    copied.change("demo/src/main.rs", "fn main() { wrong }\n");
    let output = copied.run("NONE", "");
    assert_eq!((output.status.code(), output.stdout.len()), (Some(2), 0));
    let errors = String::from_utf8(output.stderr).unwrap();
    assert!(errors.contains("cannot find value `wrong`"), "{errors}");
}
