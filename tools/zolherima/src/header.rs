//! A policy as a C header: both tables, and the number of each name.

use std::collections::BTreeMap;

use policy_text::{Named, Plan};
use zolherima::{Policy, Scripts};

use crate::failure::Failure;

/// How many words and bytes stand on a line.
const WORDS: usize = 9;
const BYTES: usize = 24;

pub fn header(
    name: &str,
    plan: &Plan,
    policy: &Policy,
    scripts: &Scripts,
) -> Result<String, Failure> {
    // A name of a file may begin with a digit, and that of a macro may not.
    let guard = format!("POLICY_{}_H", identifier(stem(name)));
    let mut text = format!(
        "/* Made of {} by `zolherima compile --c`. */\n#ifndef {guard}\n#define {guard}\n\n#include \"monitor.h\"\n",
        file_name(name)
    );
    for (kind, numbers) in kinds(plan) {
        text += &names(kind, &numbers)?;
    }
    text += &format!(
        "\nstatic const uint32_t policy[MONITOR_POLICY_WORDS] = {{\n{}}};\n",
        rows(
            policy.words().iter().map(|word| format!("0x{word:x}")),
            WORDS
        )
    );
    let used = scripts.bytes().iter().rposition(|byte| *byte != 0);
    let bytes = &scripts.bytes()[..used.map_or(1, |last| last + 1)];
    text += &format!(
        "\nstatic const uint8_t scripts[MONITOR_SCRIPT_BYTES] = {{\n{}}};\n\n#endif\n",
        rows(bytes.iter().map(u8::to_string), BYTES)
    );
    Ok(text)
}

fn file_name(name: &str) -> &str {
    name.rsplit('/').next().unwrap_or(name)
}

fn stem(name: &str) -> &str {
    let file = file_name(name);
    file.split_once('.').map_or(file, |(stem, _)| stem)
}

fn rows(items: impl Iterator<Item = String>, width: usize) -> String {
    let items: Vec<String> = items.collect();
    let row = |row: &[String]| format!("    {},\n", row.join(", "));
    items.chunks(width).map(row).collect()
}

type Numbers<'a> = Vec<(String, usize)>;

fn kinds(plan: &Plan) -> Vec<(&'static str, Numbers<'_>)> {
    let cookies = plan.cookies.iter().enumerate().flat_map(|(host, keys)| {
        let host = plan.hosts[host].as_ref().map_or("", |host| &host.name);
        numbers(keys)
            .into_iter()
            .map(move |(key, number)| (format!("{host} {key}"), number))
    });
    vec![
        ("HOST", numbers(&plan.hosts)),
        ("COOKIE", cookies.collect()),
        ("URL", numbers(&plan.urls)),
        ("CONNECTION", numbers(&plan.connections)),
        ("SCRIPT", numbers(&plan.scripts)),
    ]
}

fn numbers<T>(list: &[Option<Named<T>>]) -> Numbers<'_> {
    let named = list.iter().enumerate();
    named
        .filter_map(|(number, it)| Some((it.as_ref()?.name.clone(), number)))
        .collect()
}

/// An enum of a kind; none where nothing is declared.
fn names(kind: &str, numbers: &[(String, usize)]) -> Result<String, Failure> {
    let mut known: BTreeMap<String, &str> = BTreeMap::new();
    let mut lines = Vec::new();
    for (name, number) in numbers {
        let constant = format!("{kind}_{}", identifier(name));
        if let Some(other) = known.insert(constant.clone(), name) {
            let why =
                format!("{other} and {name} would both be {constant} in C: rename one of them");
            return Err(Failure::Refused(why));
        }
        lines.push(format!("    {constant} = {number}"));
    }
    Ok(match lines.is_empty() {
        true => String::new(),
        false => format!("\nenum {{\n{}\n}};\n", lines.join(",\n")),
    })
}

fn identifier(name: &str) -> String {
    let letter = |letter: char| match letter.is_ascii_alphanumeric() {
        true => letter.to_ascii_uppercase(),
        false => '_',
    };
    name.chars().map(letter).collect()
}

#[cfg(test)]
mod tests {
    use super::*;
    use crate::examples::read;

    #[test]
    fn names_that_are_one_in_c_are_refused() {
        let two = [("a-b".to_string(), 0), ("a.b".to_string(), 1)];
        let said = names("URL", &two);
        let why = "a-b and a.b would both be URL_A_B in C: rename one of them";
        assert_eq!(said, Err(Failure::Refused(why.to_string())));
        assert_eq!(
            names("URL", &two[..1]),
            Ok("\nenum {\n    URL_A_B = 0\n};\n".to_string())
        );
    }

    #[test]
    fn cookies_of_two_hosts_that_are_one_in_c_are_told_apart() {
        let labels = "readers nobody\nwriters nobody\n";
        let text = format!("host a\nhost a.b\ncookie b.c of a\n{labels}cookie c of a.b\n{labels}");
        let (policy, plan) = read(&text);
        let why = "a b.c and a.b c would both be COOKIE_A_B_C in C: rename one of them";
        assert_eq!(
            header("a.policy", &plan, &policy, &Scripts::new()),
            Err(Failure::Refused(why.to_string()))
        );
    }

    #[test]
    fn a_policy_may_have_no_names_and_a_file_any() {
        let (policy, plan) = read("");
        let text = header("dir/1st – \"menu\".policy", &plan, &policy, &Scripts::new()).unwrap();
        let begin = "/* Made of 1st – \"menu\".policy by `zolherima compile --c`. */\n\
            #ifndef POLICY_1ST____MENU__H\n#define POLICY_1ST____MENU__H\n\n\
            #include \"monitor.h\"\n\nstatic const uint32_t policy[";
        assert!(text.starts_with(begin), "{text}");
        assert!(text.ends_with("scripts[MONITOR_SCRIPT_BYTES] = {\n    0,\n};\n\n#endif\n"));
    }

    #[test]
    fn a_guard_is_an_identifier() {
        assert_eq!(identifier(stem("../examples/top-up.policy")), "TOP_UP");
        assert_eq!(file_name("../examples/top-up.policy"), "top-up.policy");
    }
}
