//! The reach table without allocation, written for speed: what the benchmark
//! compares with.

use crate::fast::{address_of, only, well_formed, Policy};
use crate::layout::*;
use crate::reach::Reach;

/// The same function as `reach_count`.
pub fn reach_count_fast(policy: &[u32]) -> Reach {
    match policy.try_into() {
        Ok(policy) if well_formed(policy) => count(policy),
        _ => Reach::REFUSED,
    }
}

/// The readers that a connection must not have, and the writer that it must.
type Asked = [u32; 2];

#[inline(always)]
fn count(policy: &Policy) -> Reach {
    let mut asked = [[0; 2]; URLS];
    let asked = gather(policy, &mut asked);
    let (rows, _) = policy[POLICY_CONNECTIONS..POLICY_HTTPS_HOSTS].as_chunks::<3>();
    let mut urls = [0; CONNECTIONS];
    for (count, &[readers, _, writers]) in urls.iter_mut().zip(rows) {
        for &[forbidden, message] in asked {
            *count += u32::from(readers & forbidden | message & !writers == 0);
        }
    }
    Reach::of(urls)
}

/// What the URLs ask, one after another: an empty row is written over by the
/// next URL, so that the count need not look for it.
#[inline(always)]
fn gather<'a>(policy: &Policy, asked: &'a mut [Asked; URLS]) -> &'a [Asked] {
    let (rows, _) = policy[..POLICY_COOKIES].as_chunks::<3>();
    let mut used = 0;
    for &[word, readers, _] in rows {
        asked[used] = [!readers, only(address_of(word))];
        used += usize::from(word != NO_ADDRESS);
    }
    &asked[..used]
}
