//! A case: a policy and a script table, and either single calls on states of their own, or a run that starts from the empty state.

use cases::{Call, Random, Setting};

const SINGLE_CALLS: usize = 64;
const LONGEST_RUN: usize = 192;

#[derive(Clone, Copy, PartialEq, Eq)]
pub enum Kind {
    Singles,
    Run,
}

/// The call that a case failed at.
pub struct Failure<E> {
    pub call: u64,
    pub error: E,
}

/// What a case had in it.
pub struct Played {
    pub kind: Kind,
    pub calls: u64,
}

/// Makes the calls of a case in turn. `judge` feeds each, and leaves in it the state after.
pub fn play<T, E>(
    seed: u64,
    case: u64,
    mut judge: impl FnMut(u64, &mut Call, &Random) -> Result<T, E>,
) -> Result<Played, Failure<E>> {
    let random = Random::of_case(seed, case);
    let setting = Setting::random(&random);
    let mut call = Call::default();
    let (kind, calls) = if random.one_in(2) {
        call.start_run(&setting, &random);
        (Kind::Run, random.within(1..=LONGEST_RUN) as u64)
    } else {
        (Kind::Singles, SINGLE_CALLS as u64)
    };
    for index in 0..calls {
        match kind {
            Kind::Singles => call.make_single(&setting, &random),
            Kind::Run => call.make_next(&setting, &random),
        }
        judge(index, &mut call, &random).map_err(|error| Failure { call: index, error })?;
    }
    Ok(Played { kind, calls })
}
