//! Steps and records in words, where the words give the same bytes.

use zolherima::{
    Cookies, Policy, RecordKind, Said, Scripts, Step, CONNECTIONS, KEYS, REGISTERS, SCRIPTS, STEPS,
    STEP_BYTES,
};

/// The steps of a script, without the zeros at its end.
pub(super) fn steps_of(scripts: &Scripts, script: u32) -> Vec<[u8; STEP_BYTES]> {
    let places = 0..STEPS as u32;
    let mut steps: Vec<_> = places
        .filter_map(|place| scripts.step(script, place))
        .collect();
    while steps.last() == Some(&[0; STEP_BYTES]) {
        steps.pop();
    }
    steps
}

/// A step that the words of the language say: all that it names can be declared, and bytes that its op does not use are 0.
pub(super) fn said_step(policy: &Policy, bytes: [u8; STEP_BYTES]) -> Option<Step> {
    let is_register = |register: u8| usize::from(register) < REGISTERS;
    let is_key = |key: u8| usize::from(key) < KEYS;
    let is_url = |url: u8| policy.url(url.into()).is_some();
    let is_connection = |connection: u8| usize::from(connection) < CONNECTIONS;
    let step = Step::of(bytes);
    let has_names = match step {
        Step::End => true,
        Step::Set { register, .. } | Step::SkipIfZero { register, .. } => is_register(register),
        Step::Add {
            register,
            left,
            right,
        } => [register, left, right].into_iter().all(is_register),
        Step::Read { register, key } | Step::Write { key, register } => {
            is_register(register) && is_key(key)
        }
        Step::Request {
            url,
            connection,
            handler,
        } => is_url(url) && is_connection(connection) && usize::from(handler) < SCRIPTS,
        Step::Picture { url, connection } => is_url(url) && is_connection(connection),
        Step::Other { .. } => false,
    };
    (has_names && step.bytes() == bytes).then_some(step)
}

pub(super) fn step_line(policy: &Policy, bytes: [u8; STEP_BYTES]) -> String {
    let plain = || {
        let [op, a, b, c] = bytes;
        format!("step {op} {a} {b} {c}")
    };
    said_step(policy, bytes).map_or_else(plain, words_of_step)
}

fn words_of_step(step: Step) -> String {
    match step {
        Step::End => "end".to_string(),
        Step::Set { register, value } => format!("r{register} = {value}"),
        Step::Add {
            register,
            left,
            right,
        } => format!("r{register} = r{left} + r{right}"),
        Step::Read { register, key } => format!("read key {key} into r{register}"),
        Step::Write { key, register } => format!("write r{register} to key {key}"),
        Step::Request {
            url,
            connection,
            handler,
        } => format!("request url{url} on connection{connection} then script{handler}"),
        Step::SkipIfZero { register, steps } => format!("skip {steps} if r{register} is 0"),
        Step::Picture { url, connection } => format!("picture url{url} on connection{connection}"),
        Step::Other {
            bytes: [op, a, b, c],
        } => format!("step {op} {a} {b} {c}"),
    }
}

/// A record that the words of the language say, and the host whose cookies it sets.
pub(super) fn said_record(policy: &Policy, bytes: &[u8]) -> Option<(Said, u32)> {
    let said = Said::of(bytes).ok()?;
    let host = policy.url(said.url.into())?.address.host();
    let has_names = match said.kind {
        RecordKind::DocumentResponse { script } => usize::from(script) < SCRIPTS,
        RecordKind::Redirect { target } => policy.url(target.into()).is_some(),
        RecordKind::Load | RecordKind::ScriptResponse { .. } | RecordKind::PictureResponse => true,
    };
    let is_connection = usize::from(said.connection) < CONNECTIONS;
    let is_same = *said.record() == *bytes;
    (has_names && is_connection && is_same).then_some((said, host))
}

pub(super) fn record_line(policy: &Policy, bytes: &[u8]) -> String {
    let plain = || {
        let digits = bytes.iter().map(|byte| format!(" {byte:02x}"));
        format!("record{}", digits.collect::<String>())
    };
    said_record(policy, bytes).map_or_else(plain, |(said, _)| words_of_record(&said))
}

fn words_of_record(said: &Said) -> String {
    let on = format!("url{} on connection{}", said.url, said.connection);
    let words = match said.kind {
        RecordKind::Load => format!("load {on}"),
        RecordKind::DocumentResponse { script } => format!("response {on} runs script{script}"),
        RecordKind::ScriptResponse { value } => format!("response {on} gives {value}"),
        RecordKind::PictureResponse => format!("picture {on}"),
        RecordKind::Redirect { target } => format!("redirect {on} to url{target}"),
    };
    words + &words_of_cookies(&said.cookies)
}

fn words_of_cookies(cookies: &Cookies) -> String {
    if cookies.is_empty() {
        return String::new();
    }
    let each = cookies
        .iter()
        .map(|(key, value)| format!("cookie{key} = {value}"));
    format!(" sets {}", each.collect::<Vec<_>>().join(", "))
}
