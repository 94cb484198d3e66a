//! Sets of endpoints: whose view is compared, or who forges.

use cases::labels::{rows, Connection, Cookie, Url, ALL, CONNECTIONS, HOSTS, KEYS};
use cases::{Random, Setting};

use crate::rule::Rule;
use crate::scope::Scope;

/// Mostly the best of a few, at times any.
pub fn draw(rule: &dyn Rule, setting: &Setting, random: &Random) -> u32 {
    let first = any(rule, &setting.policy, random);
    if random.one_in(3) {
        return first;
    }
    let others = (0..4).map(|_| any(rule, &setting.policy, random));
    let sets = others.chain([first]);
    let best = sets.max_by_key(|&set| worth(&Scope::of(rule, set, &setting.policy), setting));
    best.expect("the first is one of them")
}

/// How many there are of all that a pair needs: connections whose records are struck, others, and requests that are compared.
fn worth(scope: &Scope, setting: &Setting) -> u32 {
    let useful = (0..CONNECTIONS as u8).filter(|&n| !setting.fits_none(n));
    let (struck, others): (Vec<u8>, Vec<u8>) = useful.partition(|&n| scope.strikes_on(n));
    let compared = scope.compared_urls().count_ones();
    let counts = [struck.len() as u32, others.len() as u32, compared];
    counts.iter().map(|&count| 1 + count.min(6)).product()
}

/// None, all, one, a few, both of a host, or such as depend on a set of the policy: that set, what it lacks, or some of that.
fn any(rule: &dyn Rule, policy: &[u32], random: &Random) -> u32 {
    let one = || 1 << random.below(u32::BITS as usize);
    let host = (1 << HOSTS | 1) << random.below(HOSTS);
    let set = of_policy(rule, policy, random);
    // What lacks nothing or everything leads to a set that is drawn often enough.
    let lacking = match !set {
        0 | ALL => one(),
        lacking => lacking,
    };
    let part = lacking & random.word();
    random.weighted(&[
        (1, 0),
        (1, ALL),
        (3, one()),
        (3, one() | one() | one()),
        (3, host),
        (2, set),
        (5, lacking),
        (5, part),
        (1, random.word()),
    ])
}

/// The readers, or the writers, of a URL, a connection or a cookie.
fn of_policy(rule: &dyn Rule, policy: &[u32], random: &Random) -> u32 {
    let row = random.bit_of(rows(policy, Url::exists)).unwrap_or(0);
    let url = Url::of(policy, row);
    let connection = Connection::of(policy, random.byte_below(CONNECTIONS as u8));
    let key = random.byte_below(KEYS as u8);
    let cookie = Cookie::of(policy, url.host(), key);
    let [readers, writers] = random.pick(&[
        [url.readers, url.writers],
        [connection.readers, connection.writers],
        [cookie.readers, cookie.writers],
    ]);
    rule.label(readers, writers)
}
