//! `zolherima`: policies that people can write, read and mend. `zolherima --help` says how.

use std::env;
use std::ffi::OsString;
use std::panic;
use std::process::ExitCode;
use std::sync::Mutex;

use zolherima_program::args;
use zolherima_program::commands;
use zolherima_program::failure::Failure;

/// What stopped the program, and where.
static STOPPED: Mutex<String> = Mutex::new(String::new());

fn main() -> ExitCode {
    let arguments: Vec<OsString> = env::args_os().skip(1).collect();
    let command = args::parse(&arguments).map_err(Failure::Broken);
    panic::set_hook(Box::new(|stopped| {
        if let Ok(mut text) = STOPPED.lock() {
            *text = stopped.to_string();
        }
    }));
    let ran = panic::catch_unwind(|| command.and_then(|command| commands::run(&command)));
    match ran.unwrap_or_else(|_| Err(Failure::Bug(what_stopped()))) {
        Ok(status) => ExitCode::from(status),
        Err(failure) => {
            eprint!("{}", failure.message());
            ExitCode::from(failure.status())
        }
    }
}

/// The binding stops where it and the library are of two versions, and says so.
fn what_stopped() -> String {
    let text = STOPPED.lock().map(|text| text.clone());
    text.unwrap_or_default()
}
