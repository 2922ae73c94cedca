//! A C program links the drop-in library, shared and static; its own handlers of bad arguments take precedence; the
//! environment sets the block sizes and the build.

use std::path::PathBuf;
use std::process::Command;
use std::{env, str};

/// Compiles tests/bad_arguments.c for a test, with these definitions, and links the static or the shared library.
fn compiled(test: &str, shared: bool, definitions: &[&str]) -> PathBuf {
    let folder = env::current_exe().expect("this program").parent().expect("a folder").to_path_buf();
    let program = PathBuf::from(env!("CARGO_TARGET_TMPDIR")).join(test);
    let mut compiler = Command::new("cc");
    compiler.args(["-Wall", "-Wextra", "-Werror", "-o"]).arg(&program).args(definitions);
    compiler.arg(concat!(env!("CARGO_MANIFEST_DIR"), "/tests/bad_arguments.c"));
    if shared {
        compiler.arg(folder.join("libthamrunlek_blas.so")).arg(format!("-Wl,-rpath,{}", folder.display()));
    } else {
        compiler.arg(folder.join("libthamrunlek_blas.a")).args(["-lpthread", "-ldl", "-lm"]);
    }
    let status = compiler.status().expect("a C compiler, cc");
    assert!(status.success(), "{compiler:?}");
    program
}

/// What the program writes on standard output and on standard error.
fn run(program: PathBuf, variables: &[(&str, &str)]) -> [String; 2] {
    let output = Command::new(program)
        .env_remove("THAMRUNLEK_W")
        .env_remove("THAMRUNLEK_R")
        .envs(variables.iter().copied())
        .output()
        .expect("the program runs");
    assert!(output.status.success());
    [output.stdout, output.stderr].map(|text| str::from_utf8(&text).expect("UTF-8").to_string())
}

const RESULTS: &str = "9 9 9 9\n19 43 22 50\n";

#[test]
fn a_bad_argument_gives_a_message() {
    for shared in [false, true] {
        let [output, errors] = run(compiled("message", shared, &[]), &[]);
        assert_eq!(output, RESULTS);
        assert_eq!(
            errors,
            "DGEMM: argument 8 (lda) is bad; the call wrote nothing\n\
             cblas_dgemm: argument 9 (lda) is bad; the call wrote nothing\n\
             cblas_dgemm: argument 9 (lda) is bad; the call wrote nothing\n\
             cblas_dgemm: argument 3 (transb) is bad; the call wrote nothing\n\
             cblas_dgemm: argument 1 (layout) is bad; the call wrote nothing\n"
        );
    }
}

#[test]
fn a_handler_of_the_program_takes_precedence() {
    for shared in [false, true] {
        let [output, errors] = run(compiled("own", shared, &["-DOWN"]), &[]);
        assert_eq!(output, format!("own xerbla_: DGEMM  8\nown xerbla_: DGEMM  8\nown xerbla_: DGEMM  10\n{RESULTS}"));
        assert_eq!(errors.lines().count(), 2);

        let [output, errors] = run(compiled("own", shared, &["-DOWN_CBLAS"]), &[]);
        assert_eq!(
            output,
            format!(
                "own cblas_xerbla: cblas_dgemm 9 \nown cblas_xerbla: cblas_dgemm 11 by rows \n\
                 own cblas_xerbla: cblas_dgemm 3 by rows Illegal setting, %d\n\
                 own cblas_xerbla: cblas_dgemm 1 Illegal setting, %d\n{RESULTS}"
            )
        );
        assert_eq!(errors.lines().count(), 1);

        let [_, errors] = run(compiled("own", shared, &["-DOWN", "-DOWN_CBLAS"]), &[]);
        assert_eq!(errors, "");
    }
}

#[test]
fn the_environment_sets_the_block_sizes() {
    let program = compiled("environment", true, &["-DOWN", "-DOWN_CBLAS"]);
    for (w, r) in [("3", "2"), ("0", "0")] {
        let [output, errors] = run(program.clone(), &[("THAMRUNLEK_W", w), ("THAMRUNLEK_R", r)]);
        assert_eq!((output.ends_with(RESULTS), errors.as_str()), (true, ""));
    }

    let [output, errors] = run(program, &[("THAMRUNLEK_W", "65"), ("THAMRUNLEK_R", "many")]);
    assert!(output.ends_with(RESULTS));
    assert_eq!(
        errors,
        "thamrunlek: THAMRUNLEK_W is \"65\" and not a number from 0 to 64; 0 is taken\n\
         thamrunlek: THAMRUNLEK_R is \"many\" and not a number from 0 to 64; 0 is taken\n"
    );
}

#[test]
fn the_environment_sets_the_build() {
    for shared in [false, true] {
        let program = compiled("build", shared, &["-DOWN", "-DOWN_CBLAS"]);
        let [output, errors] = run(program.clone(), &[("THAMRUNLEK_CPU", "x86-64")]);
        assert_eq!((output.ends_with(RESULTS), errors.as_str()), (true, ""));

        let [output, errors] = run(program, &[("THAMRUNLEK_CPU", "8086")]);
        assert!(output.ends_with(RESULTS));
        let said = "thamrunlek: THAMRUNLEK_CPU is \"8086\", which this library has no build for; x86-64";
        assert!(errors.starts_with(said) && errors.lines().count() == 1, "{errors}");
    }
}
