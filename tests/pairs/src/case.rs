//! A case: a policy, a script table, a set of endpoints, and two lists of records of which the same remains, each with what came of it.

use cases::damage::{damage_policy, damage_scripts};
use cases::{Random, Setting};

use crate::attempts;
use crate::maker::Maker;
use crate::rule::Rule;
use crate::run::{Fed, Monitor, Run};
use crate::scope::Scope;
use crate::set;

const LONGEST_LIST: usize = 64;

pub struct Case {
    pub policy: Vec<u32>,
    pub scripts: Vec<u8>,
    pub scope: Scope,
    pub lists: [Vec<Fed>; 2],
}

impl Case {
    pub fn make(rule: &dyn Rule, monitor: &Monitor, seed: u64, case: u64) -> Case {
        let random = Random::of_case(seed, case);
        let mut setting = Setting::random(&random);
        attempts::lay(&mut setting, &random);
        let set = set::draw(rule, &setting, &random);
        let (mut policy, mut scripts) = (setting.policy.clone(), setting.scripts.clone());
        match random.below(64) {
            0 | 1 => damage_policy(&mut policy, &random),
            2 => damage_scripts(&mut scripts, &random),
            _ => {}
        }
        let scope = Scope::of(rule, set, &policy);
        let maker = Maker {
            setting: &setting,
            scope: &scope,
            random: &random,
        };
        let start = || Run::start(monitor, &policy, &scripts);
        let lists = match scope.is_refused {
            true => [(); 2].map(|()| anything(&maker, start(), monitor)),
            false => pair(&maker, start),
        };
        Case {
            policy,
            scripts,
            scope,
            lists,
        }
    }
}

/// The first list follows its own state. The second is made of what remains of the first, and follows its own state with all else.
fn pair<'a>(maker: &Maker, start: impl Fn() -> Run<'a>) -> [Vec<Fed>; 2] {
    let mut first = start();
    for _ in 0..maker.random.within(1..=LONGEST_LIST) {
        let struck = match maker.random.one_in(4) {
            true => maker.struck(&first.state),
            false => None,
        };
        let record = struck.unwrap_or_else(|| maker.any(&first.state));
        first.feed(record, maker.random);
    }
    let mut second = start();
    for fed in &first.fed {
        insert(maker, &mut second);
        match maker.scope.remains(&fed.record) {
            Ok(_) => second.feed(maker.varied(&fed.record), maker.random),
            Err(_) if maker.random.one_in(4) => second.feed(fed.record.clone(), maker.random),
            Err(_) => {}
        }
    }
    insert(maker, &mut second);
    [first.fed, second.fed]
}

/// Feeds some records that are struck: none, one, or a few.
fn insert(maker: &Maker, run: &mut Run) {
    for _ in 0..maker.random.pick(&[0, 0, 1, 1, maker.random.below(6)]) {
        if let Some(record) = maker.struck(&run.state) {
            run.feed(record, maker.random);
        }
    }
}

/// Any list, made for the policy as it was before it was damaged.
fn anything(maker: &Maker, mut run: Run, monitor: &Monitor) -> Vec<Fed> {
    let Setting {
        policy, scripts, ..
    } = maker.setting;
    let mut guide = Run::start(monitor, policy, scripts);
    for _ in 0..maker.random.within(1..=LONGEST_LIST) {
        let record = maker.any(&guide.state);
        guide.feed(record.clone(), maker.random);
        run.feed(record, maker.random);
    }
    run.fed
}
