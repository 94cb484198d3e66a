//! Does what the arguments ask for: reads, judges, prints.

use std::io::{self, IsTerminal};
use std::path::Path;

use policy_text::{compile, Named, POLICY_BYTES, WALK_BYTES};
use zolherima::usage::LIST_BYTES;

use crate::args::{Command, Form, Input};
use crate::check::check;
use crate::failure::Failure;
use crate::file::{Sound, SourceFile};
use crate::header::header;
use crate::import::{import, LINES_BYTES};
use crate::input::{write, write_file};
use crate::journey::Journey;
use crate::words::Words;
use crate::{reach, run, tally, walk};

const TAKEN: u8 = 0;
const NOT_TAKEN: u8 = 1;

/// The exit status, where nothing failed.
pub fn run(command: &Command) -> Result<u8, Failure> {
    match command {
        Command::Help(text) => print(text),
        Command::Version => print(concat!("zolherima ", env!("CARGO_PKG_VERSION"), "\n")),
        Command::Check { file, strict } => checked(file, *strict),
        Command::Compile { file, out, form } => compiled(file, out.as_deref(), *form),
        Command::Show { file } => shown(file),
        Command::Run {
            file,
            trace,
            requests,
        } => ran(file, *trace, requests.as_deref()),
        Command::Reach { file, svg } => reached(file, svg.as_deref()),
        Command::Journey { file, urls, svg } => travelled(file, urls, svg.as_deref()),
        Command::Import { file, host, lines } => imported(file, host, lines),
        Command::Tally {
            file,
            requests,
            svg,
        } => tallied(file, requests, svg.as_deref()),
    }
}

fn print(text: &str) -> Result<u8, Failure> {
    print_bytes(text.as_bytes())
}

fn print_bytes(bytes: &[u8]) -> Result<u8, Failure> {
    write(&mut io::stdout().lock(), bytes).map_err(Failure::Broken)?;
    Ok(TAKEN)
}

fn used(file: &Input) -> Result<(SourceFile, Sound), Failure> {
    let file = SourceFile::read(file)?;
    let sound = file.used()?;
    Ok((file, sound))
}

fn checked(file: &Input, strict: bool) -> Result<u8, Failure> {
    let checked = check(&SourceFile::read(file)?);
    print(&checked.text)?;
    let is_good = checked.is_taken && !(strict && checked.is_advised);
    Ok(if is_good { TAKEN } else { NOT_TAKEN })
}

fn compiled(file: &Input, out: Option<&Path>, form: Form) -> Result<u8, Failure> {
    let (file, sound) = used(file)?;
    let mut bytes = match form {
        Form::CHeader => {
            header(&file.name, &sound.plan, &sound.policy, &sound.scripts)?.into_bytes()
        }
        Form::Walk | Form::Policy => compile(&sound.plan),
    };
    if form == Form::Policy {
        bytes.truncate(POLICY_BYTES);
    }
    match out {
        Some(path) => written(path, &bytes),
        None if form != Form::CHeader && io::stdout().is_terminal() => Err(Failure::Broken(
            "these are bytes, and standard output is a terminal: say -o OUT".to_string(),
        )),
        None => print_bytes(&bytes),
    }
}

fn written(path: &Path, bytes: &[u8]) -> Result<u8, Failure> {
    write_file(path, bytes).map_err(Failure::Broken)?;
    Ok(TAKEN)
}

fn shown(file: &Input) -> Result<u8, Failure> {
    let bytes = file.read(WALK_BYTES).map_err(Failure::Broken)?;
    print(&walk::text(&bytes)?)
}

fn ran(file: &Input, trace: bool, requests: Option<&Path>) -> Result<u8, Failure> {
    let (file, sound) = used(file)?;
    let sent = run::run(&file, &sound, trace, &mut io::stdout().lock())?;
    requests.map_or(Ok(TAKEN), |path| written(path, &sent))
}

/// A text for the terminal, and a picture where one is asked for.
fn told(
    text: &str,
    svg: Option<&Path>,
    picture: impl FnOnce() -> Result<String, Failure>,
) -> Result<u8, Failure> {
    if let Some(path) = svg {
        written(path, picture()?.as_bytes())?;
    }
    print(text)
}

fn reached(file: &Input, svg: Option<&Path>) -> Result<u8, Failure> {
    let (_, Sound { plan, policy, .. }) = used(file)?;
    let text = reach::text(&policy, &plan)?;
    told(&text, svg, || reach::svg(&policy, &plan))
}

fn travelled(file: &Input, urls: &[String], svg: Option<&Path>) -> Result<u8, Failure> {
    let (file, Sound { plan, policy, .. }) = used(file)?;
    let urls = urls.iter().map(|name| number_of("url", name, &plan.urls));
    let urls = urls.collect::<Result<Vec<u32>, Failure>>()?;
    let journey = Journey::of(&Words::new(&policy, &plan, &file.text), &urls)?;
    told(&journey.text(), svg, || Ok(journey.svg()))?;
    Ok(match journey.found {
        Some(_) => TAKEN,
        None => NOT_TAKEN,
    })
}

fn imported(file: &Input, host: &str, lines: &Input) -> Result<u8, Failure> {
    let (_, Sound { plan, policy, .. }) = used(file)?;
    let host = number_of("host", host, &plan.hosts)?;
    let lines = lines.read(LINES_BYTES).map_err(Failure::Broken)?;
    let imported = import(&policy, &plan, host, &lines)?;
    print(&imported.text)?;
    Ok(if imported.refused == 0 {
        TAKEN
    } else {
        NOT_TAKEN
    })
}

fn tallied(file: &Input, requests: &Input, svg: Option<&Path>) -> Result<u8, Failure> {
    let (_, Sound { plan, .. }) = used(file)?;
    let list = requests.read(LIST_BYTES).map_err(Failure::Broken)?;
    let text = tally::text(&plan, &list)?;
    told(&text, svg, || tally::svg(&plan, &list))
}

/// The number of a name on the command line.
fn number_of<T>(kind: &str, name: &str, list: &[Option<Named<T>>]) -> Result<u32, Failure> {
    let is_named = |it: &Option<Named<T>>| it.as_ref().is_some_and(|it| it.name == name);
    match list.iter().position(is_named) {
        Some(number) => Ok(number as u32),
        None => Err(Failure::Refused(unknown(kind, name, list))),
    }
}

fn unknown<T>(kind: &str, name: &str, list: &[Option<Named<T>>]) -> String {
    let declared: Vec<&str> = list.iter().flatten().map(|it| it.name.as_str()).collect();
    match declared.is_empty() {
        true => format!("there is no {kind} {name}, and no other"),
        false => format!(
            "there is no {kind} {name}; there are {}",
            declared.join(", ")
        ),
    }
}
