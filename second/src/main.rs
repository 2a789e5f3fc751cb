//! The program: reads the command line and runs the command on a stack that is large enough for any machine.
#![forbid(unsafe_code)]
use second::options::{Options, USAGE};
use second::run::run;
use std::process::ExitCode;

const STACK: usize = 256 << 20;

fn main() -> ExitCode {
    let words: Vec<String> = std::env::args().skip(1).collect();
    let options = match Options::read(&words) {
        Ok(options) => options,
        Err(wrong) => {
            eprintln!("second: {wrong}\n{USAGE}");
            return ExitCode::from(2);
        }
    };
    let work = std::thread::Builder::new().stack_size(STACK).spawn(move || run(&options));
    match work.map(|thread| thread.join()) {
        Ok(Ok(true)) => ExitCode::SUCCESS,
        _ => ExitCode::FAILURE,
    }
}
