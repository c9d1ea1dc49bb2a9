//! A run of the proved program, with the standard input and output that a test gives it.

use std::io::{self, Read};
use std::os::unix::process::{CommandExt, ExitStatusExt};
use std::path::Path;
use std::process::{Child, ChildStdin, Command, ExitStatus, Stdio};
use std::sync::mpsc::{self, RecvTimeoutError, Sender};
use std::sync::{Arc, Mutex};
use std::thread;
use std::time::Duration;

/// Far longer than any run: only a program that hangs is stopped by it.
const PATIENCE: Duration = Duration::from_secs(60);

pub const SIGPIPE: i32 = 13;
pub const SIGXFSZ: i32 = 25;

const SIGKILL: i32 = 9;
const SIGCONT: i32 = 18;
const SIGSTOP: i32 = 19;
const RLIMIT_FSIZE: i32 = 1;

#[repr(C)]
struct Limit {
    soft: u64,
    hard: u64,
}

unsafe extern "C" {
    fn kill(process: i32, number: i32) -> i32;
    fn setrlimit(resource: i32, limit: *const Limit) -> i32;
    fn signal(number: i32, action: usize) -> usize;
}

/// What a signal does to the program.
#[derive(Clone, Copy)]
pub enum Action {
    Default = 0,
    Ignore = 1,
}

/// The program, with nothing of it set yet.
pub fn program() -> Command {
    let program = Path::new(env!("CARGO_MANIFEST_DIR")).join("../target/bin/shelf");
    assert!(program.exists(), "{} is missing: run `rt check shelf`", program.display());
    Command::new(program)
}

/// Sets what a signal does to the program, whatever it does to the tests.
pub fn at_signal(command: &mut Command, number: i32, action: Action) -> &mut Command {
    // SAFETY: between fork and exec this makes one call, which POSIX allows there.
    unsafe {
        command.pre_exec(move || match signal(number, action as usize) {
            usize::MAX => Err(io::Error::last_os_error()),
            _ => Ok(()),
        })
    }
}

/// Lets no file that the program writes grow beyond so many bytes.
pub fn file_limit(command: &mut Command, bytes: u64) -> &mut Command {
    // SAFETY: between fork and exec this makes one system call, which reads a struct of the C library's layout.
    unsafe {
        command.pre_exec(move || match setrlimit(RLIMIT_FSIZE, &Limit { soft: bytes, hard: bytes }) {
            0 => Ok(()),
            _ => Err(io::Error::last_os_error()),
        })
    }
}

/// A run under way. It ends with its test at the latest, and a watch ends it where it hangs.
pub struct Running {
    child: Arc<Mutex<Child>>,
    _watch: Sender<()>,
}

impl Running {
    /// Starts the program. The command goes with it, and so does its hold on the far ends of the test's pipes.
    pub fn start(mut command: Command) -> Running {
        let child = command.stderr(Stdio::piped()).spawn().expect("the program starts");
        let child = Arc::new(Mutex::new(child));
        let (watch, over) = mpsc::channel();
        let watched = Arc::clone(&child);
        thread::spawn(move || {
            if over.recv_timeout(PATIENCE) == Err(RecvTimeoutError::Timeout) {
                let _ = watched.lock().expect("no thread has panicked").kill();
            }
        });
        Running { child, _watch: watch }
    }

    fn with_child<T>(&self, f: impl FnOnce(&mut Child) -> T) -> T {
        f(&mut self.child.lock().expect("no thread has panicked"))
    }

    /// The pipe to the program's standard input.
    pub fn input(&self) -> ChildStdin {
        self.with_child(|child| child.stdin.take()).expect("its standard input is a pipe")
    }

    /// Stops the program where it is, and has it go on.
    pub fn interrupt(&self) {
        for number in [SIGSTOP, SIGCONT] {
            // SAFETY: the number is that of a child not yet waited for, so of no other process.
            assert_eq!(self.with_child(|child| unsafe { kill(child.id() as i32, number) }), 0);
            // SIGCONT calls off a stop that has not come yet, so the stop gets a little time.
            thread::sleep(Duration::from_millis(1));
        }
    }

    /// Waits for the program's end: its status, and what it said on standard error.
    pub fn end(self) -> (ExitStatus, String) {
        let status = loop {
            match self.with_child(Child::try_wait).expect("it is a child") {
                Some(status) => break status,
                None => thread::sleep(Duration::from_millis(1)),
            }
        };
        assert_ne!(status.signal(), Some(SIGKILL), "the program hangs");
        let mut said = String::new();
        let from = self.with_child(|child| child.stderr.take());
        from.expect("its standard error is a pipe").read_to_string(&mut said).expect("it is text");
        (status, said)
    }
}

impl Drop for Running {
    fn drop(&mut self) {
        // Where the program has ended by itself, neither does anything.
        self.with_child(|child| child.kill().and_then(|()| child.wait())).ok();
    }
}
