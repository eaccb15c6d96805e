//! The stored run of each program: what it answers to `stdin` is, byte for byte, what stands in `stdout`.

use std::fs;
use std::io::Write;
use std::path::Path;
use std::process::{Command, Stdio};
use std::thread;

/// Runs a program on its stored lines, and looks for the first line that is not the stored one.
fn answers_as_stored(name: &str, program: &str) {
    let folder = Path::new(env!("CARGO_MANIFEST_DIR")).join("runs").join(name);
    let args = fs::read_to_string(folder.join("args")).unwrap_or_default();
    let lines = fs::read(folder.join("stdin")).unwrap_or_default();
    let stored = fs::read(folder.join("stdout")).expect("a stored answer");
    let mut child = Command::new(program)
        .args(args.lines())
        .stdin(Stdio::piped())
        .stdout(Stdio::piped())
        .spawn()
        .expect("a program");
    let mut input = child.stdin.take().expect("its input");
    let writer = thread::spawn(move || input.write_all(&lines));
    let output = child.wait_with_output().expect("an end");
    writer.join().expect("a thread").expect("lines that are read");
    assert!(output.status.success(), "{name}: {}", output.status);
    if output.stdout != stored {
        let text = |line: &[u8]| String::from_utf8_lossy(line).into_owned();
        let answers = output.stdout.split(|byte| *byte == b'\n');
        for (at, (answer, wanted)) in answers.zip(stored.split(|byte| *byte == b'\n')).enumerate() {
            assert!(answer == wanted, "{name}: line {}:\n{}\nstored:\n{}", at + 1, text(answer), text(wanted));
        }
        panic!("{name}: {} bytes, and not {}", output.stdout.len(), stored.len());
    }
}

/// A test for each program.
macro_rules! stored {
    ($($name:ident)*) => {$(
        #[test]
        fn $name() {
            answers_as_stored(stringify!($name), env!(concat!("CARGO_BIN_EXE_", stringify!($name))));
        }
    )*};
}

stored! { PROGRAMS }
