//! The launcher at the root of the repository, in a root of its own: tools that
//! only note that they ran build a command that only says what it was asked.

use crate::folder::Folder;
use crate::run::Ran;
use comparison::program::fed;
use std::fs::{self, File};
use std::os::unix::fs::symlink;
use std::path::{Path, PathBuf};
use std::process::Command;
use std::time::{Duration, SystemTime};

const LIBRARY: &str = "root/crates/capi/out/libcapi.a";
const PROGRAM: &str = "root/rust/target/release/lodhrussi";
const SOURCES: [&str; 5] = [
    "root/crates/capi/src/lib.rt",
    "root/crates.txt",
    "root/rust/Cargo.toml",
    "root/rust/lodhrussi/src/lib.rs",
    "root/rust/command/src/main.rs",
];

/// What the launcher itself calls.
const UTILITIES: [&str; 8] = [
    "cat", "chmod", "dirname", "find", "mkdir", "readlink", "sh", "touch",
];

const RT: &str = "#!/bin/sh
mkdir -p out && : >out/libcapi.a
";
const CARGO: &str = "#!/bin/sh
mkdir -p target/release && cd target/release || exit
printf '%s\\n' '#!/bin/sh' 'echo \"asked $*\"' 'cat' 'exit 1' >lodhrussi
chmod +x lodhrussi
";
const FAILING: &str = "#!/bin/sh
echo why >&2
exit 1
";

const PROVING: &str = "lodhrussi: proving, which takes minutes the first time: rt lib\n";
const BUILDING: &str = "lodhrussi: building: cargo build --release --offline --package command \
                        --target-dir target\n";

/// A root with the launcher and sources, and a folder of tools beside it.
struct Root(Folder);

impl Root {
    fn with_tools(tools: &[(&str, &str)]) -> Self {
        let root = Root(Folder::new());
        let script = Path::new(env!("CARGO_MANIFEST_DIR")).join("../../lodhrussi");
        let script = fs::read(script).expect("a launcher");
        root.0.executable("root/lodhrussi", script);
        for source in SOURCES {
            root.0.write(source, "");
            root.age(source, 200);
        }
        for (name, script) in tools {
            root.0.executable(&format!("tools/{name}"), script);
        }
        fs::create_dir_all(root.path("tools")).expect("a folder");
        for utility in UTILITIES {
            let path = ["/usr/bin", "/bin"].map(|folder| Path::new(folder).join(utility));
            let path = path.iter().find(|path| path.exists()).expect(utility);
            symlink(path, root.path("tools").join(utility)).expect("a link");
        }
        root
    }

    /// With tools that work, and the command built.
    fn built() -> Self {
        let root = Self::with_tools(&[("rt", RT), ("cargo", CARGO)]);
        root.ask().is(
            1,
            "asked judge a b\nthe input",
            &[PROVING, BUILDING].concat(),
        );
        root
    }

    fn path(&self, name: &str) -> PathBuf {
        self.0.path().join(name)
    }

    /// Lets a file be so many seconds old.
    fn age(&self, name: &str, seconds: u64) {
        let file = File::options().append(true).open(self.path(name));
        let time = SystemTime::now() - Duration::from_secs(seconds);
        file.and_then(|file| file.set_modified(time))
            .expect("a time");
    }

    fn take_tool(&self, name: &str) {
        fs::remove_file(self.path("tools").join(name)).expect("a tool");
    }

    /// Asks the launcher.
    fn ask(&self) -> Ran {
        self.ask_by("root/lodhrussi")
    }

    /// Asks the launcher by a path to it.
    fn ask_by(&self, path: &str) -> Ran {
        let mut command = Command::new(self.path(path));
        command.args(["judge", "a b"]).current_dir("/");
        command.env("PATH", self.path("tools"));
        let input = b"the input".as_slice();
        Ran::of(fed(&mut command, [input].into_iter(), Duration::ZERO))
    }

    #[track_caller]
    fn answers(&self, err: &str) {
        self.ask().is(1, "asked judge a b\nthe input", err);
    }

    /// Asserts that the launcher builds nothing and ends in trouble, with why in
    /// the log.
    #[track_caller]
    fn fails(&self, said: &str, why: &str) {
        let log = self.path("root/target/lodhrussi.log");
        let cannot = format!(
            "{said}lodhrussi: the command cannot be built; {} says why\n",
            log.display()
        );
        self.ask().is(3, "", &cannot);
        let logged = fs::read_to_string(log).expect("a log");
        assert!(logged.ends_with(why), "{logged}");
    }
}

#[test]
fn what_is_missing_is_built_once() {
    let root = Root::built();
    root.answers("");
    fs::remove_file(root.path(PROGRAM)).expect("a command");
    root.answers(BUILDING);
    fs::remove_file(root.path(LIBRARY)).expect("a library");
    root.answers(&[PROVING, BUILDING].concat());
    root.answers("");
}

#[test]
fn what_is_older_than_a_source_is_built_again() {
    let root = Root::built();
    root.age(PROGRAM, 300);
    root.answers(BUILDING);
    root.age(LIBRARY, 300);
    root.answers(&[PROVING, BUILDING].concat());
    for source in SOURCES {
        root.age(LIBRARY, 20);
        root.age(PROGRAM, 10);
        root.answers("");
        root.age(source, 5);
        let rattle = source.contains("crates");
        root.answers(&[if rattle { PROVING } else { "" }, BUILDING].concat());
        root.answers("");
        root.age(source, 200);
    }
}

#[test]
fn a_link_to_the_launcher() {
    let root = Root::built();
    symlink("../root/lodhrussi", root.path("tools/linked")).expect("a link");
    let asked = root.ask_by("tools/linked");
    asked.is(1, "asked judge a b\nthe input", "");
}

#[test]
fn a_tool_that_is_missing() {
    let root = Root::with_tools(&[]);
    root.fails(PROVING, "not found\n");
    let root = Root::built();
    root.age(PROGRAM, 300);
    root.take_tool("cargo");
    root.answers("lodhrussi: no cargo on the PATH; using the command as it is\n");
    root.age(LIBRARY, 300);
    root.take_tool("rt");
    root.answers("lodhrussi: no rt on the PATH; using the command as it is\n");
    fs::remove_file(root.path(PROGRAM)).expect("a command");
    root.fails(PROVING, "not found\n");
}

/// Without `rt` nothing is linked to a library that is older than its sources.
#[test]
fn an_old_library_is_not_built_with() {
    let root = Root::built();
    root.age(LIBRARY, 300);
    root.age(PROGRAM, 300);
    root.take_tool("rt");
    root.answers("lodhrussi: no rt on the PATH; using the command as it is\n");
}

#[test]
fn a_tool_that_fails() {
    let root = Root::with_tools(&[("rt", FAILING), ("cargo", CARGO)]);
    root.fails(PROVING, "why\n");
    root.0.executable("tools/rt", RT);
    root.0.executable("tools/cargo", FAILING);
    root.fails(&[PROVING, BUILDING].concat(), "why\n");
    // a command that was built before is not asked where building it fails
    let root = Root::built();
    root.age(PROGRAM, 300);
    root.0.executable("tools/cargo", FAILING);
    root.fails(BUILDING, "why\n");
}
