//! One call of the monitor: all that it is lent.

use crate::damage;
use crate::labels::{OUTPUT_BYTES, POLICY_WORDS, SCRIPTS_BYTES, STATE_WORDS};
use crate::random::Random;
use crate::record;
use crate::setting::Setting;
use crate::state;

#[derive(Clone, Debug, Default)]
pub struct Call {
    pub policy: Vec<u32>,
    pub scripts: Vec<u8>,
    pub state: Vec<u32>,
    pub record: Vec<u8>,
    pub out: Vec<u8>,
}

impl Call {
    /// A call on a state of its own; about one in five has something damaged.
    pub fn make_single(&mut self, setting: &Setting, random: &Random) {
        self.policy.clone_from(&setting.policy);
        self.scripts.clone_from(&setting.scripts);
        if random.one_in(8) {
            state::make_empty(&mut self.state);
        } else {
            state::make_sound(setting, &mut self.state, random);
        }
        self.make_record(setting, random);
        self.make_out(random);
        if random.one_in(5) {
            self.damage(setting, random);
        }
    }

    /// The start of a run: the empty state, and a policy that is kept, now and then one that is refused throughout.
    pub fn start_run(&mut self, setting: &Setting, random: &Random) {
        self.policy.clone_from(&setting.policy);
        self.scripts.clone_from(&setting.scripts);
        state::make_empty(&mut self.state);
        if random.one_in(64) {
            damage::damage_policy(&mut self.policy, random);
        }
    }

    /// The next call of a run. `state` is as the last call left it.
    pub fn make_next(&mut self, setting: &Setting, random: &Random) {
        self.make_record(setting, random);
        self.make_out(random);
        if random.one_in(48) {
            damage::damage_out(&mut self.out, random);
        }
    }

    /// A record of any kind; some more than by chance are forbidden by labels, for which endpoint is told.
    fn make_record(&mut self, setting: &Setting, random: &Random) {
        let make = match random.one_in(16) {
            true => record::make_forbidden,
            false => record::make_record,
        };
        make(setting, &self.state, &mut self.record, random);
    }

    /// An output that is long enough, with anything in it. Mostly that is what the last one had: filling it takes longer than a call.
    fn make_out(&mut self, random: &Random) {
        let longer = OUTPUT_BYTES + random.below(400);
        let length = random.pick(&[OUTPUT_BYTES, OUTPUT_BYTES, OUTPUT_BYTES + 1, longer]);
        let old = self.out.len();
        self.out.resize(length, 0);
        let kept = if random.one_in(16) {
            0
        } else {
            old.min(length)
        };
        random.fill_bytes(&mut self.out[kept..]);
    }

    /// Mostly one damage, at times several, for which of them is answered.
    fn damage(&mut self, setting: &Setting, random: &Random) {
        for _ in 0..random.pick(&[1, 1, 1, 3]) {
            self.damage_once(setting, random);
        }
    }

    /// What has lost its length already is left as it is.
    fn damage_once(&mut self, setting: &Setting, random: &Random) {
        let policy = self.policy.len() == POLICY_WORDS;
        let scripts = self.scripts.len() == SCRIPTS_BYTES;
        let state = self.state.len() == STATE_WORDS;
        match random.below(11) {
            0 => damage::damage_out(&mut self.out, random),
            1..=4 if policy => damage::damage_policy(&mut self.policy, random),
            5 if scripts => damage::damage_scripts(&mut self.scripts, random),
            6 if policy && state => damage::estrange(&mut self.policy, &self.state, random),
            7..=10 if state => damage::damage_state(setting, &mut self.state, random),
            _ => {}
        }
    }
}
