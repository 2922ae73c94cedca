//! Works on the long sheet of the test `killed`, from the state in the file that it is given. For each byte of its input
//! it makes a run of a few steps, saves the state and writes a byte; it ends when the sheet is finished.

use compare::{library_run, long, Random, Saved};
use std::io::{self, Read, Write};
use std::path::PathBuf;

fn main() -> io::Result<()> {
    let path = PathBuf::from(std::env::args_os().nth(1).expect("the file with the state"));
    let case = long(&mut Random::of("killed", 0));
    let mut saved = Saved::read(&path, &case.lent)?;
    while io::stdin().read(&mut [0])? == 1 {
        let (p, s) = saved.cursor;
        let end = library_run(&case.sheet, &case.scalars, &mut saved.lent, p, s, 7);
        assert_eq!(end.number, 0);
        saved.cursor = (end.p, end.s);
        saved.write(&path)?;
        if end.steps < 7 {
            break;
        }
        io::stdout().write_all(b".")?;
        io::stdout().flush()?;
    }
    Ok(())
}
