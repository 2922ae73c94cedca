//! A sheet whose runs are killed, again and again, and taken up from the saved state ends with the same bits.

use compare::{differ, library_run, long, Random, Saved, SheetCase};
use reference::machine::run;
use std::io::{Read, Write};
use std::path::{Path, PathBuf};
use std::process::{Child, Command, Stdio};

/// A process that works on the sheet from the state in the file.
fn worker(path: &Path) -> Child {
    let mut command = Command::new(env!("CARGO_BIN_EXE_worker"));
    command.arg(path).stdin(Stdio::piped()).stdout(Stdio::piped()).spawn().expect("the worker starts")
}

/// Has the worker make so many runs and one more, and kills it without waiting for the last. It had not finished.
fn work_and_kill(path: &Path, runs: usize) {
    let mut child = worker(path);
    child.stdin.as_mut().expect("its input").write_all(&vec![0; runs + 1]).expect("the worker listens");
    child.stdout.as_mut().expect("its output").read_exact(&mut vec![0; runs]).expect("the worker works");
    child.kill().expect("the worker can be killed");
    let status = child.wait().expect("the worker ends");
    assert!(status.code().is_none(), "the worker ended by itself: {status}");
}

#[test]
fn a_killed_sheet_ends_with_the_same_bits() {
    let SheetCase { sheet, scalars, lent } = long(&mut Random::of("killed", 0));
    let (mut whole, mut plain) = (lent.clone(), lent.clone());
    let end = library_run(&sheet, &scalars, &mut whole, 0, 0, u32::MAX);
    assert_eq!(end, run(&sheet, &scalars, &mut plain, 0, 0, u32::MAX));
    assert_eq!(differ(&whole, &plain), None);

    let path = PathBuf::from(env!("CARGO_TARGET_TMPDIR")).join("killed");
    let count = whole.answers.len() as i32;
    Saved { lent, cursor: (0, 0) }.write(&path).expect("the state is saved");
    for runs in [0, 1, 2, 5, 11, 20] {
        work_and_kill(&path, runs);
    }
    let halfway = Saved::read(&path, &whole).expect("the saved state");
    assert!(halfway.cursor > (0, 0) && halfway.cursor.0 < count, "killed at {:?}", halfway.cursor);

    let mut child = worker(&path);
    child.stdin.take().expect("its input").write_all(&[0; 1000]).expect("the worker listens");
    assert!(child.wait_with_output().expect("the worker ends").status.success());
    let saved = Saved::read(&path, &whole).expect("the saved state");
    assert_eq!(saved.cursor, (count, 0));
    assert_eq!(differ(&saved.lent, &whole), None);
}
