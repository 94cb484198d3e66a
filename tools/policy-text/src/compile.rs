//! From a plan to what the monitor and walk read.

use zolherima::{
    Connection, Labels, PolicyBuilder, Scripts, Url, POLICY_WORDS, SCRIPTS, SCRIPT_BYTES, STEPS,
    STEP_BYTES,
};

use crate::plan::{Named, Plan, Script};

/// The bytes of a policy: what walk reads begins with it, and the script table follows.
pub const POLICY_BYTES: usize = POLICY_WORDS * size_of::<u32>();
/// Where the first record stands in what walk reads.
pub const FIRST_RECORD: usize = POLICY_BYTES + SCRIPT_BYTES;
/// The most bytes that walk reads.
pub const WALK_BYTES: usize = 1 << 16;

/// What is declared, with its number.
fn declared<T>(all: &[Option<Named<T>>]) -> impl Iterator<Item = (u32, &T)> {
    let numbered = (0..).zip(all);
    numbered.filter_map(|(number, it)| Some((number, &it.as_ref()?.it)))
}

/// The words of the policy, well formed or not.
pub fn builder(plan: &Plan) -> PolicyBuilder {
    let mut builder = PolicyBuilder::new();
    for (host, it) in declared(&plan.hosts) {
        if it.always_https {
            builder.always_https(host);
        }
    }
    add_cookies(plan, &mut builder);
    add_urls(plan, &mut builder);
    add_connections(plan, &mut builder);
    builder
}

fn add_cookies(plan: &Plan, builder: &mut PolicyBuilder) {
    let hosts = (0..).zip(&plan.cookies);
    let cookies =
        hosts.flat_map(|(host, keys)| declared(keys).map(move |(key, it)| (host, key, it)));
    for (host, key, it) in cookies {
        let labels = Labels {
            readers: it.readers.it,
            writers: it.writers.it,
        };
        builder.cookie(host, key, labels);
    }
}

fn add_urls(plan: &Plan, builder: &mut PolicyBuilder) {
    for (number, it) in declared(&plan.urls) {
        let url = Url {
            address: it.address,
            is_entry: it.is_entry,
            readers: it.readers.it,
            writers: it.writers.it,
        };
        builder.url(number, url);
        if let Some(partner) = it.partner {
            builder.partner(number, partner.it);
        }
    }
}

fn add_connections(plan: &Plan, builder: &mut PolicyBuilder) {
    for (number, it) in declared(&plan.connections) {
        let connection = Connection {
            readers: it.readers.it,
            script_readers: it.script_readers.it,
            writers: it.writers.it,
        };
        builder.connection(number, connection);
    }
}

/// The script table.
pub fn scripts(plan: &Plan) -> Scripts {
    let tables = plan.scripts.iter().take(SCRIPTS);
    let mut bytes: Vec<u8> = tables
        .flat_map(|script| script_bytes(script.as_ref()))
        .collect();
    bytes.resize(SCRIPT_BYTES, 0);
    Scripts::from_bytes(&bytes).unwrap_or_default()
}

fn script_bytes(script: Option<&Named<Script>>) -> Vec<u8> {
    let steps = script.into_iter().flat_map(|script| &script.it.steps);
    let mut bytes: Vec<u8> = steps.flat_map(|step| step.it).collect();
    bytes.resize(STEPS * STEP_BYTES, 0);
    bytes
}

/// What walk reads: policy, script table and records.
pub fn compile(plan: &Plan) -> Vec<u8> {
    let policy = builder(plan);
    let words = policy.words().iter();
    let mut bytes: Vec<u8> = words.flat_map(|word| word.to_be_bytes()).collect();
    bytes.extend_from_slice(scripts(plan).bytes());
    for line in &plan.session {
        // The parser keeps records to this length.
        let record = &line.it.bytes[..line.it.bytes.len().min(usize::from(u8::MAX))];
        bytes.push(record.len() as u8);
        bytes.extend_from_slice(record);
    }
    bytes
}

#[cfg(test)]
mod tests {
    use zolherima::{Endpoints, Fault};

    use super::*;
    use crate::parse;

    #[test]
    fn what_is_not_well_formed_is_built_and_found() {
        let text = "host h always https\nurl u at http h\n readers nobody\n writers nobody\n\
            connection c\n readers nobody\n script readers everyone\n writers nobody\n";
        let words = *builder(&parse(text.as_bytes()).unwrap()).words();
        let faults: Vec<_> = zolherima::faults(&words).collect();
        assert_eq!(faults.len(), 3);
        assert!(matches!(faults[0], Fault::EventEndpoint { url: 0, .. }));
    }

    #[test]
    fn script_readers_that_are_left_out_are_the_readers() {
        let text = "connection c\n readers everyone\n writers nobody\n";
        let policy = builder(&parse(text.as_bytes()).unwrap()).build().unwrap();
        let connection = policy.connection(0).unwrap();
        assert_eq!(connection.script_readers, Endpoints::EVERYONE);
    }

    #[test]
    fn steps_fill_up_their_script_alone() {
        let text = "script a number 1\n step 9 8 7 6\n step 0 0 0 1\nscript b\n r3 = 258\n";
        let scripts = scripts(&parse(text.as_bytes()).unwrap());
        let step = |script, place| scripts.step(script, place).unwrap();
        assert_eq!([step(0, 0), step(1, 0)], [[0; 4], [9, 8, 7, 6]]);
        assert_eq!([step(1, 1), step(1, 2)], [[0, 0, 0, 1], [0; 4]]);
        assert_eq!([step(2, 0), step(2, 1)], [[1, 3, 1, 2], [0; 4]]);
    }
}
