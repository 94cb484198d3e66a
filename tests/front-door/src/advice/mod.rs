//! Advice: what no connection lets happen, held to what the library lets happen.

mod runs;
mod steps;

use cases::labels::Url;
use cases::policy::{make_entries, policy_of, random_policy, Style};
use cases::{Random, Setting};
use policy_text::{Diagnostic, Plan, Span};
use zolherima::{CONNECTIONS, HOSTS, KEYS, URLS};
use zolherima_program::file::{Sound, SourceFile};
use zolherima_program::walk;

use crate::context::{same, sound, Context, Verdict};
use crate::given::Walk;
use runs::Runs;

pub const EVENTS: &[&str] = &[
    "URLs that some connection fits",
    "URLs that no connection fits",
    "connections that fit a URL",
    "connections that fit none",
    "cookies that can be set",
    "cookies that are never set",
    "cookies that are never sent",
    "steps that may be taken",
    "steps that may not be taken",
    "writes that are passed over",
    "steps of scripts whose connection is known",
];

/// The text of a random policy whose scripts mostly have pages.
pub fn text(random: &Random) -> Vec<u8> {
    let policy = match random.below(4) {
        0 => random_policy(random),
        1 => policy_of(Style::NearDocument, random),
        _ => {
            let mut policy = policy_of(Style::Sparse, random);
            make_entries(&mut policy, random);
            policy
        }
    };
    let setting = Setting::over(policy, random);
    let walk = Walk {
        scripts: setting.scripts.clone(),
        ..Walk::over(setting.policy.clone())
    };
    let text = walk::text(&walk.bytes()).expect("the policy is well formed");
    let one_page = random.one_in(2).then(|| setting.any_url(random));
    let lines = text
        .lines()
        .map(|line| match line.split(' ').collect::<Vec<_>>()[..] {
            ["script", name, ref number @ ..] => {
                let script = name.trim_start_matches("script").parse().expect("a number");
                let page = one_page.unwrap_or(setting.home(script).url);
                let is_there = Url::of(&setting.policy, page).exists() && !random.one_in(8);
                let page = is_there.then(|| format!("for url{page}"));
                let words = ["script", name].into_iter().chain(page.as_deref());
                words
                    .chain(number.iter().copied())
                    .collect::<Vec<_>>()
                    .join(" ")
            }
            _ => line.to_string(),
        });
    let lines: Vec<String> = lines.collect();
    let session = match random.one_in(2) {
        true => session(&lines, random),
        false => String::new(),
    };
    (lines.join("\n") + &session).into_bytes()
}

/// Some scripts run on their pages, each on a connection that is declared.
fn session(lines: &[String], random: &Random) -> String {
    let connections = lines
        .iter()
        .filter_map(|line| line.strip_prefix("connection "));
    let connections = connections.filter_map(|rest| rest.split(' ').next());
    let connections: Vec<&str> = connections.collect();
    let mut text = "\nsession\n".to_string();
    for line in lines {
        let words: Vec<&str> = line.split(' ').collect();
        if let (["script", script, "for", page, ..], false) = (&words[..], connections.is_empty()) {
            let on = connections[random.below(connections.len())];
            text += &format!("response {page} on {on} runs {script}\n");
        }
    }
    text
}

/// A text with its advice.
struct Advised<'a> {
    sound: &'a Sound,
    advice: &'a [Diagnostic],
}

impl Advised<'_> {
    /// Whether something is said of what stands here, with this under it.
    fn says(&self, span: Span, label: Option<&str>) -> bool {
        let at_place = self.advice.iter().filter(|it| it.span == Some(span));
        let mut labels = at_place.map(|it| it.label.as_str());
        labels.any(|it| label.is_none_or(|label| label == it))
    }

    fn plan(&self) -> &Plan {
        &self.sound.plan
    }
}

pub fn check(text: &[u8], context: &mut Context) -> Verdict {
    let (file, sound) = sound(text.to_vec())?;
    let advice = told(&file, &sound, context)?;
    let advised = Advised {
        sound: &sound,
        advice: &advice,
    };
    let runs = Runs::of(&sound.policy);
    urls(&advised, &runs, context)?;
    connections(&advised, &runs, context)?;
    cookies(&advised, &runs, context)?;
    steps::check(&advised, &runs, context)
}

/// All of it stands at something that is declared, at a step or at a record, but that there is no URL.
fn told(file: &SourceFile, sound: &Sound, context: &Context) -> Result<Vec<Diagnostic>, String> {
    let advice = context.front.advice(file, sound);
    let is_empty = sound.plan.urls.iter().all(Option::is_none);
    let without_place = advice.iter().filter(|it| it.span.is_none()).count();
    same(
        "advice without a place",
        &usize::from(is_empty),
        &without_place,
    )?;
    Ok(advice)
}

/// A URL is advised about where no connection takes a load of it. One that has a partner is never asked for.
fn urls(advised: &Advised, runs: &Runs, context: &mut Context) -> Verdict {
    for url in 0..URLS {
        let Some(it) = &advised.plan().urls[url] else {
            continue;
        };
        let is_asked = advised.sound.policy.partner(url as u32).is_none();
        let is_unfit = (0..CONNECTIONS).all(|connection| !runs.loads(connection, url));
        same(
            &it.name,
            &(is_asked && is_unfit),
            &advised.says(it.span, None),
        )?;
        context.seen.count(match is_unfit {
            true => "URLs that no connection fits",
            false => "URLs that some connection fits",
        });
    }
    Ok(())
}

fn connections(advised: &Advised, runs: &Runs, context: &mut Context) -> Verdict {
    for connection in 0..CONNECTIONS {
        let Some(it) = &advised.plan().connections[connection] else {
            continue;
        };
        let is_unfit = (0..URLS).all(|url| !runs.loads(connection, url));
        same(&it.name, &is_unfit, &advised.says(it.span, None))?;
        context.seen.count(match is_unfit {
            true => "connections that fit none",
            false => "connections that fit a URL",
        });
    }
    Ok(())
}

const NEVER_STORED: &str = "never stored";
const NEVER_SENT: &str = "never sent";

/// A cookie is advised about where no response and no script stores it. Where it is said to be never sent, no request of the library carries it.
fn cookies(advised: &Advised, runs: &Runs, context: &mut Context) -> Verdict {
    (0..HOSTS).try_for_each(|host| cookies_of(host, advised, runs, context))
}

fn cookies_of(host: usize, advised: &Advised, runs: &Runs, context: &mut Context) -> Verdict {
    let scripts = runs.script_connections(host);
    for key in 0..KEYS {
        let Some(it) = &advised.plan().cookies[host][key] else {
            continue;
        };
        let is_set = runs.stores(host, key, &scripts);
        let what = format!("whether {} of host{host} is never stored", it.name);
        same(&what, &!is_set, &advised.says(it.span, Some(NEVER_STORED)))?;
        context.seen.count(match is_set {
            true => "cookies that can be set",
            false => "cookies that are never set",
        });
        if advised.says(it.span, Some(NEVER_SENT)) {
            let what = format!("whether {} of host{host} is sent", it.name);
            same(&what, &false, &runs.sends(host, key))?;
            context.seen.count("cookies that are never sent");
        }
    }
    Ok(())
}
