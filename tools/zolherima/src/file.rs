//! A file in the text language, read, and the policy that it makes.

use policy_text::{builder, parse, render, scripts, Diagnostic, Level, Names, Plan, TEXT_BYTES};
use zolherima::{Policy, Scripts};

use crate::args::Input;
use crate::failure::Failure;
use crate::faults;
use crate::place::Places;

pub struct SourceFile {
    pub name: String,
    pub text: Vec<u8>,
}

/// A file that can be read as text, and whose policy the monitor takes.
pub struct Sound {
    pub plan: Plan,
    pub policy: Policy,
    pub scripts: Scripts,
}

impl SourceFile {
    pub fn read(input: &Input) -> Result<SourceFile, Failure> {
        let text = input.read(TEXT_BYTES).map_err(Failure::Broken)?;
        let name = input.name();
        Ok(SourceFile { name, text })
    }

    /// The plan and its policy, or all that is wrong. The library judges the policy, and `faults` says why.
    pub fn sound(&self) -> Result<Sound, Vec<Diagnostic>> {
        let plan = parse(&self.text)?;
        let words = builder(&plan);
        let policy = words.build().map_err(|_| {
            let (names, places) = (Names::of(&plan), Places::new(&plan, &self.text));
            faults::diagnostics(words.words(), &plan, &names, &places)
        })?;
        let scripts = scripts(&plan);
        Ok(Sound {
            plan,
            policy,
            scripts,
        })
    }

    /// The same for commands that do something else than say what is wrong.
    pub fn used(&self) -> Result<Sound, Failure> {
        self.sound()
            .map_err(|wrong| Failure::Told(self.told(&wrong)))
    }

    /// All that is wrong or advised, one below the other, and how much of it there is.
    pub fn told(&self, diagnostics: &[Diagnostic]) -> String {
        let each = diagnostics
            .iter()
            .map(|it| render(it, &self.name, &self.text));
        let mut text: Vec<String> = each.collect();
        text.push(format!("{}: {}\n", self.name, counted(diagnostics)));
        if self.text.len() <= TEXT_BYTES && self.text.contains(&0) {
            text.push(
                "If these are the words of a policy, `zolherima show` reads them.\n".to_string(),
            );
        }
        text.join("\n")
    }
}

/// `1 error, 2 pieces of advice`.
pub fn counted(diagnostics: &[Diagnostic]) -> String {
    let of = |level| {
        let of_level = diagnostics.iter().filter(|it| it.level == level);
        of_level.map(|it| it.count).sum::<usize>()
    };
    let errors = match of(Level::Error) {
        0 => None,
        1 => Some("1 error".to_string()),
        more => Some(format!("{more} errors")),
    };
    let advice = match of(Level::Advice) {
        0 => None,
        1 => Some("1 piece of advice".to_string()),
        more => Some(format!("{more} pieces of advice")),
    };
    let all: Vec<String> = [errors, advice].into_iter().flatten().collect();
    match all.is_empty() {
        true => "nothing to say".to_string(),
        false => all.join(", "),
    }
}
