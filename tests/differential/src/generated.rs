//! What the generator calls well formed and sound is so by the reference, and everything comes from the seed.

use cases::labels::{rows, Url, HTTPS_HOSTS_AT};
use cases::{Call, Random, Setting};
use reference::numbers::KIND_UNKNOWN;
use reference::Seen;

use crate::buffers::Buffers;
use crate::case::play;
use crate::monitors;

fn number_of(call: &Call, random: &Random) -> u32 {
    let mut lent = Buffers::default();
    lent.lay(call, random);
    let mut own = lent.clone();
    monitors::reference(&lent, &mut own, &mut Seen::new()).number
}

#[test]
fn policies_are_well_formed_and_states_sound() {
    for case in 0..400 {
        let random = Random::of_case(1, case);
        let setting = Setting::random(&random);
        let mut call = Call {
            policy: setting.policy.clone(),
            scripts: setting.scripts.clone(),
            out: vec![0; cases::labels::OUTPUT_BYTES],
            ..Call::default()
        };
        for _ in 0..20 {
            cases::state::make_sound(&setting, &mut call.state, &random);
            assert_eq!(
                number_of(&call, &random),
                KIND_UNKNOWN,
                "the empty record, case {case}"
            );
        }
    }
}

#[test]
fn about_half_of_the_policies_list_hosts_and_about_half_have_entries() {
    let policies = (0..400).map(|case| Setting::random(&Random::of_case(1, case)).policy);
    let policies: Vec<_> = policies.collect();
    let listing = policies.iter().filter(|policy| policy[HTTPS_HOSTS_AT] != 0);
    assert!((160..240).contains(&listing.count()));
    let having = policies
        .iter()
        .filter(|policy| rows(policy, Url::is_entry) != 0);
    assert!((160..240).contains(&having.count()));
}

#[test]
fn a_case_is_the_same_again() {
    let calls = |seed, case| {
        let mut calls = Vec::new();
        let played = play(seed, case, |_, call, _| {
            calls.push(format!("{call:?}"));
            Ok::<(), ()>(())
        });
        assert!(played.is_ok());
        calls
    };
    for case in 0..8 {
        assert_eq!(calls(5, case), calls(5, case));
        assert_ne!(calls(5, case), calls(6, case));
        assert_ne!(calls(5, case), calls(5, case + 1));
    }
}
