//! What `make` does, with programs in place of `rt`, `cargo` and `cc` that write down how they are
//! called and what they would build.

use std::fs;
use std::os::unix::fs::{symlink, PermissionsExt};
use std::path::{Path, PathBuf};
use std::process::Command;
use wegbaro_tests::build::{root, run, Folder};

/// Proves nothing, and says what `rt` says of two crates.
const RT: &str = "\
case $1 in
version) cat kit; exit 0 ;;
esac
top=${PWD%/crates/*}
echo \"rt $*\" >> \"$top/calls\"
test ! -e \"$top/broken\" || { echo 'records: failed (1)'; exit 1; }
case $1 in
all) echo '== planes'; echo '== gate' ;;
lib) mkdir -p out; echo built > out/libwegbaro_c.a ;;
run) mkdir -p out; echo built > out/gate ;;
esac
";

const CARGO: &str = "\
echo \"cargo $1\" >> calls
mkdir -p target/rust/release
echo built > target/rust/release/wegbaro
";

const CC: &str = "\
echo cc >> calls
while test \"$1\" != -o; do shift; done
echo built > \"$2\"
";

/// The names of the crates.
fn crates() -> Vec<String> {
    let listed = fs::read_to_string(root().join("crates.txt")).unwrap();
    let crates = listed.lines().filter(|line| !line.starts_with('#'));
    let names = crates.filter_map(|line| line.split_once(':')?.0.split(' ').next());
    names.map(str::to_owned).collect()
}

/// A project with the Makefile and crates of nothing, and the three programs beside it.
struct Project {
    folder: Folder,
}

/// How `make` ended.
struct Made {
    ended_well: bool,
    written: String,
    said: String,
    /// The calls of the three programs.
    calls: Vec<String>,
}

impl Project {
    fn new(name: &str) -> Project {
        let project = Project { folder: Folder::new(env!("CARGO_TARGET_TMPDIR"), name) };
        for file in ["Makefile", "VERSION", "crates.txt"] {
            fs::copy(root().join(file), project.path(file)).unwrap();
        }
        run(Command::new("cp").arg("-r").arg(root().join("packaging")).arg(project.path("")));
        for name in crates() {
            fs::create_dir_all(project.path(&format!("crates/{name}/src"))).unwrap();
        }
        project.write("crates/planes/src/lib.rt", "");
        project.write("kit", "kit 1\n");
        project.programs();
        project
    }

    fn path(&self, name: &str) -> PathBuf {
        self.folder.path().join(name)
    }

    fn write(&self, name: &str, text: &str) {
        fs::write(self.path(name), text).unwrap();
    }

    /// A folder with the three programs, and with those that the Makefile itself uses.
    fn programs(&self) {
        fs::create_dir_all(self.path("bin")).unwrap();
        for (name, script) in [("rt", RT), ("cargo", CARGO), ("cc", CC)] {
            self.write(&format!("bin/{name}"), &format!("#!/bin/sh\nset -e\n{script}"));
            fs::set_permissions(
                self.path(&format!("bin/{name}")),
                PermissionsExt::from_mode(0o755),
            )
            .unwrap();
        }
        let used = "make sh cat find cmp cp grep sed mktemp nproc rm tail mkdir dirname";
        for name in used.split(' ') {
            let found = ["/usr/bin", "/bin"].map(|folder| Path::new(folder).join(name));
            let found = found.iter().find(|path| path.exists()).unwrap();
            symlink(found, self.path(&format!("bin/{name}"))).unwrap();
        }
    }

    fn make(&self) -> Made {
        self.write("calls", "");
        let mut make = Command::new("make");
        make.arg("-C").arg(self.folder.path()).env_clear().env("PATH", self.path("bin"));
        let out = make.output().unwrap();
        let calls = fs::read_to_string(self.path("calls")).unwrap();
        Made {
            ended_well: out.status.success(),
            written: String::from_utf8(out.stdout).unwrap(),
            said: String::from_utf8(out.stderr).unwrap(),
            calls: calls.lines().map(str::to_owned).collect(),
        }
    }

    /// Makes it, which must end well; the calls.
    fn calls(&self) -> Vec<String> {
        let made = self.make();
        assert!(made.ended_well, "{}{}", made.written, made.said);
        made.calls
    }
}

/// All crates are proved by one call of rt, on all cores, before the library and the program are built.
#[test]
fn all_is_built_and_each_crate_is_told() {
    let project = Project::new("make-all");
    let made = project.make();
    assert!(made.ended_well, "{}", made.said);
    let [check, library, program, cargo, cc] = &made.calls[..] else { panic!("{:?}", made.calls) };
    assert!(check.starts_with("rt all check --jobs "), "{check}");
    assert_eq!([library, program, cargo, cc], ["rt lib", "rt run", "cargo build", "cc"]);
    let all = crates().len();
    for line in [format!("crate 1 of {all}: planes"), format!("crate 2 of {all}: gate")] {
        assert!(made.written.lines().any(|written| written == line), "{line}:\n{}", made.written);
    }
}

/// Cargo is asked each time: it finds out itself that nothing has changed.
#[test]
fn nothing_is_proved_where_nothing_has_changed() {
    let project = Project::new("make-again");
    let whole = project.calls();
    assert_eq!(project.calls(), ["cargo build"]);

    let changes: [(&str, &dyn Fn()); 5] = [
        ("a source is newer", &|| project.write("crates/planes/src/lib.rt", "fn")),
        ("a source is gone", &|| {
            fs::remove_file(project.path("crates/planes/src/lib.rt")).unwrap()
        }),
        ("rt is another one", &|| project.write("kit", "kit 2\n")),
        ("the library is gone", &|| {
            fs::remove_file(project.path("target/staticlib/libwegbaro.a")).unwrap();
        }),
        ("the program is gone", &|| fs::remove_file(project.path("target/bin/gate")).unwrap()),
    ];
    for (what, change) in changes {
        change();
        assert_eq!(project.calls(), whole, "{what}");
        assert_eq!(project.calls(), ["cargo build"], "{what}");
    }
}

#[test]
fn what_is_not_proved_is_not_taken_for_proved() {
    let project = Project::new("make-broken");
    project.write("broken", "");
    for _ in 0..2 {
        let made = project.make();
        assert!(!made.ended_well);
        assert!(
            made.calls.len() == 1 && made.calls[0].starts_with("rt all check"),
            "{:?}",
            made.calls
        );
        assert!(made.written.contains("records: failed"), "{}", made.written);
    }
}

#[test]
fn what_is_missing_is_told_before_anything_is_done() {
    let project = Project::new("make-missing");
    for (gone, said) in [("cargo", "cargo"), ("rt", "rt cargo"), ("cc", "rt cargo cc")] {
        fs::remove_file(project.path("bin").join(gone)).unwrap();
        let made = project.make();
        assert!(!made.ended_well);
        let told = format!("not installed: {said}; README.md says where to get it\n");
        assert!(made.said.starts_with(&told), "{}", made.said);
        assert_eq!(made.calls, Vec::<String>::new());
    }
}
