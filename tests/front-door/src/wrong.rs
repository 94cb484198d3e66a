//! Wrong programs, which must be told: each does what the right one does, but for one thing.

use policy_text::{Diagnostic, Plan};
use programs::suite::first_difference;
use programs::Kind as _;
use zolherima::{Fault, Policy, POLICY_WORDS};
use zolherima_program::file::{Sound, SourceFile};

use crate::front::{Front, Printed, Program};
use crate::kind::Kind;
use crate::FrontDoor;

/// So many cases tell each of these.
const CASES: u64 = 150 * Kind::CYCLE;

fn assert_told(front: impl Front + 'static) -> String {
    let mut suite = FrontDoor::new(Box::new(front), None);
    let told = first_difference(&mut suite, CASES).expect("nothing is run");
    told.expect("a wrong program is told")
}

/// Prints something else where the text has this.
fn replaced(printed: Printed, old: &str, new: &str) -> Printed {
    printed.map(|text| text.replacen(old, new, 1))
}

/// A program that is wrong in one method.
macro_rules! wrong {
    ($name:ident, $($method:item)*) => {
        struct $name;

        impl Front for $name {
            $($method)*
        }
    };
}

wrong! { MissesPartners, fn faults(&self, words: &[u32]) -> Vec<Fault> {
    let is_told = |fault: &Fault| !matches!(fault, Fault::PartnerMissing { .. } | Fault::PartnerUnfit { .. });
    Program.faults(words).into_iter().filter(is_told).collect()
}}

wrong! { TellsOneFault, fn faults(&self, words: &[u32]) -> Vec<Fault> {
    Program.faults(words).into_iter().take(1).collect()
}}

wrong! { TakesAnyLength, fn is_policy(&self, words: &[u32]) -> bool {
    let words = &words[..words.len().min(POLICY_WORDS)];
    Policy::from_words(words).is_ok()
}}

#[test]
fn wrong_faults() {
    assert_told(MissesPartners);
    assert_told(TellsOneFault);
    assert_told(TakesAnyLength);
}

wrong! { DropsEntries, fn show(&self, bytes: &[u8]) -> Printed {
    replaced(Program.show(bytes), " entry", "")
}}

wrong! { DropsScriptReaders, fn show(&self, bytes: &[u8]) -> Printed {
    let drop = |text: String| {
        let kept = text.lines().filter(|line| !line.contains("script readers"));
        kept.map(|line| format!("{line}\n")).collect::<String>()
    };
    Program.show(bytes).map(drop)
}}

wrong! { ForgetsTheLastRecord, fn compile(&self, plan: &Plan) -> Vec<u8> {
    let mut plan = plan.clone();
    plan.session.pop();
    Program.compile(&plan)
}}

#[test]
fn wrong_texts() {
    assert_told(DropsEntries);
    assert_told(DropsScriptReaders);
    assert_told(ForgetsTheLastRecord);
}

wrong! { ForgetsACookie, fn run(&self, file: &SourceFile, sound: &Sound, trace: bool) -> Printed {
    replaced(Program.run(file, sound, trace), "    stored: ", "    passed over: ")
}}

wrong! { SendsElsewhere, fn run(&self, file: &SourceFile, sound: &Sound, trace: bool) -> Printed {
    replaced(Program.run(file, sound, trace), "sent: document", "sent: picture")
}}

wrong! { RefusesOtherwise, fn run(&self, file: &SourceFile, sound: &Sound, trace: bool) -> Printed {
    replaced(Program.run(file, sound, trace), "    refused 8", "    refused 9")
}}

wrong! { SkipsAStep, fn run(&self, file: &SourceFile, sound: &Sound, trace: bool) -> Printed {
    replaced(Program.run(file, sound, trace), "    step 1: ", "    no step: ")
}}

#[test]
fn wrong_sessions() {
    assert_told(ForgetsACookie);
    assert_told(SendsElsewhere);
    assert_told(RefusesOtherwise);
    assert_told(SkipsAStep);
}

wrong! { AdvisesNothing, fn advice(&self, _: &SourceFile, _: &Sound) -> Vec<Diagnostic> {
    Vec::new()
}}

wrong! { AdvisesEveryUrl, fn advice(&self, file: &SourceFile, sound: &Sound) -> Vec<Diagnostic> {
    let mut advice = Program.advice(file, sound);
    let of_first = advice.first().cloned().zip(sound.plan.urls.iter().flatten().next());
    advice.extend(of_first.map(|(it, url)| Diagnostic { span: Some(url.span), ..it }));
    advice
}}

wrong! { PassesOverSteps, fn advice(&self, file: &SourceFile, sound: &Sound) -> Vec<Diagnostic> {
    let is_of_step = |it: &Diagnostic| it.message.starts_with("script");
    Program.advice(file, sound).into_iter().filter(|it| !is_of_step(it)).collect()
}}

#[test]
fn wrong_advice() {
    assert_told(AdvisesNothing);
    assert_told(AdvisesEveryUrl);
    assert_told(PassesOverSteps);
}

wrong! { ReachesMore, fn reach(&self, sound: &Sound) -> Printed {
    replaced(Program.reach(sound), " .", " x")
}}

wrong! { CountsMore, fn reach(&self, sound: &Sound) -> Printed {
    replaced(Program.reach(sound), "all ", "all 1")
}}

wrong! { StopsElsewhere, fn journey(&self, file: &SourceFile, sound: &Sound, urls: &[u32]) -> Printed {
    replaced(Program.journey(file, sound, urls), "!", "x")
}}

wrong! { BlamesWriters, fn journey(&self, file: &SourceFile, sound: &Sound, urls: &[u32]) -> Printed {
    replaced(Program.journey(file, sound, urls), "missing among the readers", "missing among the writers")
}}

wrong! { TalliesMore, fn tally(&self, sound: &Sound, list: &[u8]) -> Printed {
    replaced(Program.tally(sound, list), "cookies ", "cookies 1")
}}

wrong! { MissesSecure, fn import(&self, sound: &Sound, host: u32, lines: &[u8]) -> Printed {
    replaced(Program.import(sound, host, lines), ", Secure", "")
}}

wrong! { LetsHttpRead, fn import(&self, sound: &Sound, host: u32, lines: &[u8]) -> Printed {
    replaced(Program.import(sound, host, lines), "readers https host", "readers host")
}}

#[test]
fn wrong_tables_and_lines() {
    assert_told(ReachesMore);
    assert_told(CountsMore);
    assert_told(StopsElsewhere);
    assert_told(BlamesWriters);
    assert_told(TalliesMore);
    assert_told(MissesSecure);
    assert_told(LetsHttpRead);
}

wrong! { Panics, fn parse(&self, text: &[u8]) -> Result<Plan, Vec<Diagnostic>> {
    assert!(!text.contains(&b'\0'), "a zero byte");
    Program.parse(text)
}}

#[test]
fn panics_are_told() {
    assert!(assert_told(Panics).starts_with("a panic: a zero byte"));
}
