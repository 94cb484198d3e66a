//! What is tested: all that the program makes of words and texts. Tests of the tests put something wrong in the place of one of these.

use policy_text::{parse, Diagnostic, Plan};
use zolherima::{Fault, Policy};
use zolherima_program::failure::Failure;
use zolherima_program::file::{Sound, SourceFile};
use zolherima_program::import::import;
use zolherima_program::journey::Journey;
use zolherima_program::words::Words;
use zolherima_program::{advice, reach, run, tally, walk};

/// What is printed, or why nothing is.
pub type Printed = Result<String, Failure>;

pub trait Front {
    fn faults(&self, words: &[u32]) -> Vec<Fault> {
        zolherima::faults(words).collect()
    }

    fn is_policy(&self, words: &[u32]) -> bool {
        Policy::from_words(words).is_ok()
    }

    fn show(&self, bytes: &[u8]) -> Printed {
        walk::text(bytes)
    }

    fn parse(&self, text: &[u8]) -> Result<Plan, Vec<Diagnostic>> {
        parse(text)
    }

    fn compile(&self, plan: &Plan) -> Vec<u8> {
        policy_text::compile(plan)
    }

    fn advice(&self, file: &SourceFile, sound: &Sound) -> Vec<Diagnostic> {
        advice::diagnostics(&Words::new(&sound.policy, &sound.plan, &file.text))
    }

    fn run(&self, file: &SourceFile, sound: &Sound, trace: bool) -> Printed {
        let mut out = Vec::new();
        run::run(file, sound, trace, &mut out)?;
        String::from_utf8(out).map_err(|_| Failure::Bug("what run prints is no text".to_string()))
    }

    fn reach(&self, sound: &Sound) -> Printed {
        reach::text(&sound.policy, &sound.plan)
    }

    fn journey(&self, file: &SourceFile, sound: &Sound, urls: &[u32]) -> Printed {
        let words = Words::new(&sound.policy, &sound.plan, &file.text);
        Journey::of(&words, urls).map(|journey| journey.text())
    }

    fn tally(&self, sound: &Sound, list: &[u8]) -> Printed {
        tally::text(&sound.plan, list)
    }

    fn import(&self, sound: &Sound, host: u32, lines: &[u8]) -> Printed {
        import(&sound.policy, &sound.plan, host, lines).map(|imported| imported.text)
    }
}

/// The program as it is.
pub struct Program;

impl Front for Program {}
