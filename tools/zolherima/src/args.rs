//! What the program is asked to do, from its arguments.

use std::ffi::{OsStr, OsString};
use std::path::PathBuf;

/// A file, or standard input where it is `-`.
#[derive(Clone, Debug, PartialEq, Eq)]
pub enum Input {
    Standard,
    File(PathBuf),
}

#[derive(Clone, Copy, Debug, PartialEq, Eq)]
pub enum Form {
    /// What walk reads: policy, script table and session.
    Walk,
    /// The words of the policy alone, which journey and reach read.
    Policy,
    /// A header with both tables and the numbers of all names.
    CHeader,
}

#[derive(Clone, Debug, PartialEq, Eq)]
pub enum Command {
    Help(&'static str),
    Version,
    Check {
        file: Input,
        strict: bool,
    },
    Compile {
        file: Input,
        out: Option<PathBuf>,
        form: Form,
    },
    Show {
        file: Input,
    },
    Run {
        file: Input,
        trace: bool,
        requests: Option<PathBuf>,
    },
    Reach {
        file: Input,
        svg: Option<PathBuf>,
    },
    Journey {
        file: Input,
        urls: Vec<String>,
        svg: Option<PathBuf>,
    },
    Import {
        file: Input,
        host: String,
        lines: Input,
    },
    Tally {
        file: Input,
        requests: Input,
        svg: Option<PathBuf>,
    },
}

/// What a command is called, what it takes, and its help.
struct Shape {
    name: &'static str,
    /// Options without a value, and with one.
    flags: &'static [&'static str],
    valued: &'static [&'static str],
    /// The arguments that are no options and must be there, and how many there may be.
    needs: &'static [&'static str],
    most: usize,
    help: &'static str,
}

const SHAPES: [Shape; 8] = [
    Shape {
        name: "check",
        flags: &["--strict"],
        valued: &[],
        needs: &["FILE"],
        most: 1,
        help: "usage: zolherima check [--strict] FILE\n\
               Says what is wrong with FILE: what cannot be read, what the monitor would refuse, and what is legal and probably not meant.\n\
               --strict   advice too makes the exit status 1\n\
               Exit status: 0, the monitor takes it; 1, it does not, or FILE cannot be read as text; 2, anything else went wrong.\n",
    },
    Shape {
        name: "compile",
        flags: &["--policy", "--c"],
        valued: &["-o"],
        needs: &["FILE"],
        most: 1,
        help: "usage: zolherima compile [--policy | --c] [-o OUT] FILE\n\
               Writes what the program walk reads: policy, script table and session.\n\
               --policy   the policy's words alone, which journey and reach read\n\
               --c        a C header: both tables, and the numbers of all names\n\
               -o OUT     to OUT in place of standard output\n",
    },
    Shape {
        name: "show",
        flags: &[],
        valued: &[],
        needs: &[],
        most: 1,
        help: "usage: zolherima show [FILE]\n\
               Turns a policy's words, or all that walk reads, back into text. Without FILE, of standard input.\n",
    },
    Shape {
        name: "run",
        flags: &["--trace"],
        valued: &["--requests"],
        needs: &["FILE"],
        most: 1,
        help: "usage: zolherima run [--trace] [--requests OUT] FILE\n\
               Feeds the session of FILE to the monitor, and says of each record what happened and why.\n\
               --trace         every step of a script with its registers, and the state after each record\n\
               --requests OUT  the requests that went out too, in OUT, as tally reads them\n\
               Exit status: 0, the session was fed, whatever was refused; 1, FILE has errors; 2, anything else went wrong.\n",
    },
    Shape {
        name: "reach",
        flags: &[],
        valued: &["--svg"],
        needs: &["FILE"],
        most: 1,
        help: "usage: zolherima reach [--svg OUT] FILE\n\
               Shows which connection reaches which URL.\n\
               --svg OUT  a picture of it too, in OUT\n",
    },
    Shape {
        name: "journey",
        flags: &[],
        valued: &["--svg"],
        needs: &["FILE", "URL"],
        most: usize::MAX,
        help: "usage: zolherima journey [--svg OUT] FILE URL..\n\
               Finds the connection on which the first URL can be loaded and each further one reached by redirect, or says why there is none.\n\
               --svg OUT  a picture of it too, in OUT\n\
               Exit status: 0, there is one; 1, there is none, or FILE has errors; 2, anything else went wrong.\n",
    },
    Shape {
        name: "import",
        flags: &[],
        valued: &[],
        needs: &["FILE", "HOST"],
        most: 3,
        help: "usage: zolherima import FILE HOST [LINES]\n\
               Reads the Set-Cookie lines of HOST, of which FILE has the cookies, and says what each settles. Without LINES, of standard input.\n\
               Exit status: 0, each line was taken; 1, some were not, or FILE has errors; 2, anything else went wrong.\n",
    },
    Shape {
        name: "tally",
        flags: &[],
        valued: &["--svg"],
        needs: &["FILE"],
        most: 2,
        help: "usage: zolherima tally [--svg OUT] FILE [REQUESTS]\n\
               Counts requests, one record right after another as the monitor wrote them, by the URLs of FILE. Without REQUESTS, of standard input.\n\
               --svg OUT  a picture of it too, in OUT\n\
               Exit status: 0, they were counted; 1, they are no list of requests, or FILE has errors; 2, anything else went wrong.\n",
    },
];

const HELP: &str = "usage: zolherima COMMAND ..\n\
    Policies, scripts and sessions of the monitor as text (docs/POLICY.md). Every judgement is the proved library's.\n\
    \n\
    check     say what is wrong with a file, and what is probably not meant\n\
    run       feed its session to the monitor, and say what happened and why\n\
    compile   write it as the words that the monitor and the program walk take\n\
    show      turn such words back into text\n\
    reach     show which connection reaches which URL\n\
    journey   find the connection for a journey, or say why there is none\n\
    import    read Set-Cookie lines\n\
    tally     count requests\n\
    \n\
    zolherima COMMAND --help says more of each. A file `-` is standard input.\n";

/// Reads the arguments, the program's own name aside; where they do not fit, says why.
pub fn parse(arguments: &[OsString]) -> Result<Command, String> {
    let Some((name, rest)) = arguments.split_first() else {
        return Err(HELP.to_string());
    };
    match name.to_str() {
        Some("--help" | "-h" | "help") => return Ok(Command::Help(HELP)),
        Some("--version" | "-V") => return Ok(Command::Version),
        _ => {}
    }
    let shape = SHAPES.iter().find(|shape| name == shape.name);
    let shape = shape.ok_or_else(|| format!("{} is no command\n{HELP}", name.to_string_lossy()))?;
    let mut options = rest.iter().take_while(|it| *it != "--");
    if options.any(|it| it == "--help" || it == "-h") {
        return Ok(Command::Help(shape.help));
    }
    let given = Given::of(shape, rest).map_err(|why| format!("{why}\n{}", shape.help))?;
    given
        .command(shape)
        .map_err(|why| format!("{why}\n{}", shape.help))
}

/// The arguments of a command, sorted.
#[derive(Default)]
struct Given {
    flags: Vec<&'static str>,
    values: Vec<(&'static str, OsString)>,
    plain: Vec<OsString>,
}

impl Given {
    fn of(shape: &Shape, arguments: &[OsString]) -> Result<Given, String> {
        let mut given = Given::default();
        let mut rest = arguments.iter();
        while let Some(argument) = rest.next() {
            if argument == "--" {
                given.plain.extend(rest.by_ref().cloned());
            } else if let Some(flag) = listed(shape.flags, argument) {
                given.flags.push(flag);
            } else if let Some(option) = listed(shape.valued, argument) {
                let value = rest.next().ok_or(format!("{option} takes a file"))?;
                given.values.push((option, value.clone()));
            } else if is_option(argument) {
                let option = argument.to_string_lossy();
                return Err(format!("{} has no option {option}", shape.name));
            } else {
                given.plain.push(argument.clone());
            }
        }
        given.counted(shape)
    }

    fn counted(self, shape: &Shape) -> Result<Given, String> {
        match self.plain.len() {
            few if few < shape.needs.len() => {
                Err(format!("{} lacks {}", shape.name, shape.needs[few]))
            }
            many if many > shape.most => {
                let first = self.plain[shape.most].to_string_lossy();
                Err(format!("{} does not take {first}", shape.name))
            }
            _ => Ok(self),
        }
    }

    fn has(&self, flag: &str) -> bool {
        self.flags.contains(&flag)
    }

    /// The last one counts, as such tools have it.
    fn path(&self, option: &str) -> Option<PathBuf> {
        let last = self.values.iter().rev().find(|(name, _)| *name == option);
        last.map(|(_, value)| PathBuf::from(value))
    }

    /// A file that may be left out.
    fn input(&self, place: usize) -> Input {
        match self.plain.get(place) {
            Some(path) if path != "-" => Input::File(PathBuf::from(path)),
            _ => Input::Standard,
        }
    }

    fn text(&self, place: usize) -> Result<String, String> {
        let text = self.plain[place].to_str().map(str::to_string);
        text.ok_or_else(|| format!("{} is no name", self.plain[place].to_string_lossy()))
    }

    fn command(&self, shape: &Shape) -> Result<Command, String> {
        let file = self.input(0);
        let svg = self.path("--svg");
        Ok(match shape.name {
            "check" => Command::Check {
                file,
                strict: self.has("--strict"),
            },
            "compile" => Command::Compile {
                file,
                out: self.path("-o"),
                form: self.form()?,
            },
            "show" => Command::Show { file },
            "run" => Command::Run {
                file,
                trace: self.has("--trace"),
                requests: self.path("--requests"),
            },
            "reach" => Command::Reach { file, svg },
            "journey" => Command::Journey {
                file,
                urls: (1..self.plain.len())
                    .map(|place| self.text(place))
                    .collect::<Result<_, _>>()?,
                svg,
            },
            "import" => Command::Import {
                lines: self.second_input(2)?,
                file,
                host: self.text(1)?,
            },
            _ => Command::Tally {
                requests: self.second_input(1)?,
                file,
                svg,
            },
        })
    }

    /// Standard input is read once.
    fn second_input(&self, place: usize) -> Result<Input, String> {
        match (self.input(0), self.input(place)) {
            (Input::Standard, Input::Standard) => {
                Err("FILE and what is read by it cannot both be standard input".to_string())
            }
            (_, second) => Ok(second),
        }
    }

    fn form(&self) -> Result<Form, String> {
        match (self.has("--policy"), self.has("--c")) {
            (false, false) => Ok(Form::Walk),
            (true, false) => Ok(Form::Policy),
            (false, true) => Ok(Form::CHeader),
            (true, true) => Err("--policy and --c are two forms: give one".to_string()),
        }
    }
}

fn listed(options: &'static [&'static str], argument: &OsStr) -> Option<&'static str> {
    options.iter().copied().find(|option| argument == *option)
}

/// A single `-` is a file.
fn is_option(argument: &OsStr) -> bool {
    let bytes = argument.as_encoded_bytes();
    bytes.len() > 1 && bytes[0] == b'-'
}

#[cfg(test)]
mod tests {
    use super::*;

    fn of(arguments: &[&str]) -> Result<Command, String> {
        parse(&arguments.iter().map(OsString::from).collect::<Vec<_>>())
    }

    fn file(name: &str) -> Input {
        Input::File(PathBuf::from(name))
    }

    #[test]
    fn options_stand_anywhere() {
        let strict = Ok(Command::Check {
            file: file("a"),
            strict: true,
        });
        assert_eq!(of(&["check", "--strict", "a"]), strict);
        assert_eq!(of(&["check", "a", "--strict"]), strict);
        assert_eq!(
            of(&["reach", "--svg", "b", "a"]),
            of(&["reach", "a", "--svg", "b"])
        );
    }

    #[test]
    fn what_follows_two_dashes_is_no_option() {
        let odd = Ok(Command::Check {
            file: file("--strict"),
            strict: false,
        });
        assert_eq!(of(&["check", "--", "--strict"]), odd);
        let help = of(&["check", "--", "--help"]);
        assert!(matches!(help, Ok(Command::Check { .. })), "{help:?}");
    }

    #[test]
    fn a_dash_is_standard_input_and_so_is_what_may_be_left_out() {
        assert_eq!(
            of(&["show"]),
            Ok(Command::Show {
                file: Input::Standard
            })
        );
        assert_eq!(of(&["show", "-"]), of(&["show"]));
        assert!(of(&["tally", "-"]).is_err());
        assert!(of(&["import", "-", "canteen", "-"]).is_err());
        assert!(of(&["import", "-", "canteen", "lines"]).is_ok());
    }

    #[test]
    fn what_does_not_fit_is_told_with_the_usage() {
        let cases: [(&[&str], &str); 9] = [
            (&[], "usage: zolherima COMMAND"),
            (&["chek"], "chek is no command"),
            (&["check"], "check lacks FILE"),
            (&["check", "a", "b"], "check does not take b"),
            (&["check", "--trace", "a"], "check has no option --trace"),
            (&["reach", "a", "--svg"], "--svg takes a file"),
            (
                &["compile", "--c", "--policy", "a"],
                "--policy and --c are two forms",
            ),
            (&["journey", "a"], "journey lacks URL"),
            (&["tally", "-", "-"], "FILE and what is read by it"),
        ];
        for (arguments, why) in cases {
            let said = of(arguments).expect_err("it does not fit");
            assert!(said.starts_with(why), "{arguments:?}: {said}");
            assert!(said.contains("usage: "), "{said}");
        }
    }

    #[test]
    fn help_is_given_of_each_command() {
        for shape in &SHAPES {
            let help = of(&[shape.name, "--help"]);
            assert_eq!(help, Ok(Command::Help(shape.help)));
            assert!(shape
                .help
                .starts_with(&format!("usage: zolherima {} ", shape.name)));
            assert!(HELP.contains(&format!("\n{} ", shape.name)));
        }
    }
}
