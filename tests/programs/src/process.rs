//! Commands run to their end on input, whole, in pieces or endless.

use crate::system::set_packets;
use std::ffi::OsStr;
use std::io::{ErrorKind, Read, Write};
use std::os::fd::AsRawFd;
use std::process::{Child, ChildStdin, Command, Stdio};
use std::sync::{Mutex, PoisonError};
use std::thread::{self, JoinHandle};

/// What a command left.
pub struct Ended {
    pub status: i32,
    pub output: Vec<u8>,
    pub messages: String,
}

impl Ended {
    pub fn text(&self) -> &str {
        std::str::from_utf8(&self.output).expect("output in UTF-8")
    }

    /// Asserts the output, the status, and that there is no message.
    pub fn assert_printed(&self, output: &str, status: i32) {
        assert_eq!(self.messages, "");
        assert_eq!((self.text(), self.status), (output, status));
    }

    /// Asserts that there is no output, and that this line is the only message.
    pub fn assert_told(&self, line: &str, status: i32) {
        assert_eq!(self.messages, format!("{line}\n"));
        assert_eq!((self.text(), self.status), ("", status));
    }

    /// Asserts that each line of the messages is one of the command's.
    pub fn assert_words(&self) {
        for line in self.messages.lines() {
            let ours = line.starts_with("envelope: ") || line.starts_with("  ");
            assert!(ours, "{}", self.messages);
        }
    }

    /// Asserts status 2, no output, and a message with these words.
    pub fn assert_failed(&self, words: &str) {
        assert_eq!((self.status, self.text()), (2, ""), "{}", self.messages);
        assert!(self.messages.contains(words), "{}", self.messages);
    }
}

/// Runs a command on input to its end.
pub fn end(command: &mut Command, input: &[u8]) -> Ended {
    end_fed(command, |stdin| {
        written(stdin, input);
    })
}

/// Runs a command to its end while `write` writes its input.
pub fn end_fed(command: &mut Command, write: impl FnOnce(&mut ChildStdin)) -> Ended {
    let mut child = start(command.stdin(Stdio::piped()));
    let mut stdin = child.stdin.take().expect("a pipe");
    let collected = collect(&mut child);
    write(&mut stdin);
    drop(stdin);
    wait(child, collected)
}

/// Runs a command to its end that has this standard input.
pub fn end_on(command: &mut Command, stdin: impl Into<Stdio>) -> Ended {
    let mut child = start(command.stdin(stdin));
    let collected = collect(&mut child);
    wait(child, collected)
}

fn start(command: &mut Command) -> Child {
    spawn(command.stdout(Stdio::piped()).stderr(Stdio::piped()))
}

/// A file that some process has open for writing cannot be run. One that a thread has open here is open in
/// every process that another thread starts, until that one runs its program.
static STARTS: Mutex<()> = Mutex::new(());

pub fn spawn(command: &mut Command) -> Child {
    let _alone = STARTS.lock().unwrap_or_else(PoisonError::into_inner);
    command.spawn().expect("a command that runs")
}

/// Writes files that are to be run, while no process is started.
pub fn write_to_run<Written>(write: impl FnOnce() -> Written) -> Written {
    let _alone = STARTS.lock().unwrap_or_else(PoisonError::into_inner);
    write()
}

/// Output and messages, read by threads of their own.
type Collected = [JoinHandle<Vec<u8>>; 2];

fn collect(child: &mut Child) -> Collected {
    let output = read_all(child.stdout.take().expect("a pipe"));
    [output, read_all(child.stderr.take().expect("a pipe"))]
}

fn read_all(mut pipe: impl Read + Send + 'static) -> JoinHandle<Vec<u8>> {
    thread::spawn(move || {
        let mut bytes = Vec::new();
        pipe.read_to_end(&mut bytes).expect("a pipe");
        bytes
    })
}

fn wait(mut child: Child, collected: Collected) -> Ended {
    let status = child.wait().expect("a command that ends");
    let [output, messages] = collected.map(|bytes| bytes.join().expect("a pipe"));
    Ended {
        status: status.code().expect("a command that is not killed"),
        output,
        messages: String::from_utf8(messages).expect("messages in UTF-8"),
    }
}

/// Runs a command on input, and gives what `wait_for_end` made of the process.
pub fn watch<Seen>(
    command: &mut Command,
    input: &[u8],
    wait_for_end: impl FnOnce(Child) -> Seen,
) -> (Seen, Vec<u8>) {
    let mut child = start(command.stdin(Stdio::piped()));
    let mut stdin = child.stdin.take().expect("a pipe");
    let [output, _] = collect(&mut child);
    written(&mut stdin, input);
    drop(stdin);
    (wait_for_end(child), output.join().expect("a pipe"))
}

/// Writes a piece; false where the reader reads no more.
pub fn written(stdin: &mut dyn Write, piece: &[u8]) -> bool {
    match stdin.write_all(piece) {
        Ok(()) => true,
        Err(error) if error.kind() == ErrorKind::BrokenPipe => false,
        Err(error) => panic!("{error}"),
    }
}

/// Writes the same bytes again and again until the reader reads no more, and gives how many were taken.
pub fn write_endless(stdin: &mut dyn Write, repeated: &[u8]) -> usize {
    let mut count = 0;
    while written(stdin, repeated) {
        count += repeated.len();
    }
    count
}

/// Writes bytes that reach the reader one by one.
pub fn write_single_bytes<Pipe: Write + AsRawFd>(pipe: &mut Pipe, bytes: &[u8]) {
    set_packets(pipe);
    for byte in bytes {
        if !written(pipe, &[*byte]) {
            return;
        }
    }
}

/// A command that the shell starts with redirections, as `<&-`.
pub fn redirected(redirections: &str, command: &Command) -> Command {
    through_shell(&format!("exec \"$@\" {redirections}"), command)
}

/// A command that may have 256 MiB of memory: one that reads what has no end fails, and takes no more.
pub fn within_memory(command: &Command) -> Command {
    through_shell("ulimit -v 262144; exec \"$@\"", command)
}

/// A script of the shell that gets a command as its arguments.
fn through_shell(script: &str, command: &Command) -> Command {
    let mut shell = self::command("bash");
    shell.args(["-c", script, "bash"]);
    shell.arg(command.get_program()).args(command.get_args());
    if let Some(folder) = command.get_current_dir() {
        shell.current_dir(folder);
    }
    shell
}

/// A command whose messages are in English.
pub fn command(program: impl AsRef<OsStr>) -> Command {
    let mut command = Command::new(program);
    command.env("LC_ALL", "C");
    command
}
