//! `./envelope` in a folder of its own, with another `rt` and another `cargo` on the path.

use crate::folder::Folder;
use crate::process::{Ended, command, end, write_to_run};
use crate::root;
use crate::script::starter;
use std::fs;
use std::os::unix::fs::PermissionsExt;
use std::path::Path;
use std::process::Command;

/// Writes down that it was asked, in the repository's folder, and makes an archive; its input would be in its messages, which it
/// must be able to write.
pub const PROVES: &str = "#!/bin/sh\ncd ../..; echo \"rt $*\" >> runs\necho proving || exit 1; cat\n\
    mkdir -p crates/cundarivo_c/out; echo archive > crates/cundarivo_c/out/libcundarivo_c.a\n";
/// Builds a program that prints its arguments and its input; nothing where it finds what it left of an
/// earlier build, as cargo does where no time of modification is a later one.
pub const BUILDS: &str = "#!/bin/sh
echo \"cargo $*\" >> ../runs
echo building || exit 1; cat
[ ! -e target/release/.fingerprint ] || exit 0
mkdir -p target/release/.fingerprint
printf '#!/bin/sh\\nprintf \"%%s.\" \"$@\"; /bin/cat\\n' > target/release/new
chmod +x target/release/new; mv -f target/release/new target/release/envelope
";
/// What the two are asked: the first where crates have changed, the second where anything has.
pub const ARCHIVE: &str = "rt lib\n";
pub const COMMAND: &str = "cargo build --offline --release\n";

pub struct Repository {
    pub folder: Folder,
}

impl Repository {
    /// One whose `rt` and `cargo` are these scripts of the shell.
    pub fn new(rt: &str, cargo: &str) -> Repository {
        let repository = Repository {
            folder: Folder::new(),
        };
        // Whatever the mask of new files is, another user can run what is there.
        set_mode(repository.path(), 0o755);
        for name in SOURCES {
            repository.folder.write(name, "first\n");
        }
        copy_to_run(&starter(), &repository.path().join("envelope"));
        for script in ["bindings/archive", "bindings/sources.sh"] {
            copy_to_run(&root().join(script), &repository.path().join(script));
        }
        repository.write_executable("path/rt", rt);
        repository.write_executable("path/cargo", cargo);
        repository
    }

    /// One that is built.
    pub fn built() -> Repository {
        let repository = Repository::new(PROVES, BUILDS);
        repository.assert_runs();
        assert_eq!(repository.runs(), 1);
        repository
    }

    pub fn write_executable(&self, name: &str, content: impl AsRef<[u8]>) {
        let file = write_to_run(|| self.folder.write(name, content));
        set_mode(&file, 0o755);
    }

    pub fn path(&self) -> &Path {
        self.folder.path()
    }

    /// `./envelope` with this command.
    pub fn command(&self, name: &str) -> Command {
        let path = std::env::var("PATH").expect("a path");
        let path = format!("{}:{path}", self.path().join("path").display());
        let mut command = command(self.path().join("envelope"));
        command.arg(name).env("PATH", path);
        command
    }

    pub fn run(&self) -> Ended {
        end(&mut self.command("draw"), b"input\n")
    }

    /// Runs the program, whether it has to be built or not.
    pub fn assert_runs(&self) -> Ended {
        let ended = self.run();
        assert_eq!(
            (ended.text(), ended.status),
            ("draw.input\n", 0),
            "{}",
            ended.messages
        );
        ended
    }

    /// How often the command was built.
    pub fn runs(&self) -> usize {
        let runs = self.asked();
        let count = runs.matches(COMMAND).count();
        let commands = runs.replace(&[ARCHIVE, COMMAND].concat(), COMMAND);
        assert_eq!(commands, COMMAND.repeat(count));
        count
    }

    /// How often the archive was made.
    pub fn proofs(&self) -> usize {
        self.asked().matches(ARCHIVE).count()
    }

    fn asked(&self) -> String {
        String::from_utf8(self.folder.read("runs")).expect("runs in UTF-8")
    }
}

/// A file of each part whose contents count.
pub const SOURCES: [&str; 4] = [
    "crates/cundarivo_c/src/lib.rt",
    "crates.txt",
    "bindings/rust/src/lib.rs",
    "cli/src/main.rs",
];

/// Copies a program, which every user can run then.
pub fn copy_to_run(program: &Path, copy: &Path) {
    write_to_run(|| fs::copy(program, copy).expect("a copy"));
    set_mode(copy, 0o755);
}

pub fn set_mode(file: &Path, mode: u32) {
    fs::set_permissions(file, fs::Permissions::from_mode(mode)).expect("a file of ours");
}
