//! The program cc2_get in Rust: `get DIR (build | target T | rustc | host) [--config TEXT | --config-file PATH]...`.
use cargo_config2::cc2;
use std::env;
use std::io::{self, Write};
use std::process::ExitCode;

const USAGE: &str = "usage: cc2_get DIR (build | target T | rustc | host) [--config TEXT | --config-file PATH]...\n";

fn main() -> ExitCode {
    let words = env::args_os().skip(1).map(|word| word.into_string());
    let Ok(words) = words.collect::<Result<Vec<_>, _>>() else {
        return failed("cannot read the arguments: they must be UTF-8");
    };
    if env::current_dir().map_or(true, |dir| dir.to_str().is_none()) {
        return failed("cannot read the current directory or the environment");
    }
    if words.is_empty() {
        return printed(USAGE, 0);
    }
    match cc2::answer(&words) {
        Ok(answer) if answer.status == 2 => printed(USAGE, 2),
        Ok(answer) => printed(&answer.text, answer.status),
        Err(error) => failed(&error.to_string()),
    }
}

// Writes a text to standard output; the status to end with.
fn printed(text: &str, status: u8) -> ExitCode {
    let mut out = io::stdout().lock();
    match out.write_all(text.as_bytes()).and_then(|()| out.flush()) {
        Ok(()) => ExitCode::from(status),
        Err(_) => failed("cannot write the output"),
    }
}

// Writes on standard error why nothing is answered.
fn failed(why: &str) -> ExitCode {
    let _ = writeln!(io::stderr(), "error: {why}");
    ExitCode::FAILURE
}
