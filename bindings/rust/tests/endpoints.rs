//! Endpoints and sets of them.

mod random;

use random::Random;
use zolherima::{Endpoint, Endpoints, Scheme};

fn all() -> impl Iterator<Item = Endpoint> {
    (0..32).filter_map(Endpoint::new)
}

#[test]
fn an_endpoint_is_made_of_scheme_and_host() {
    assert_eq!(all().count(), 32);
    for endpoint in all() {
        let host = endpoint.host();
        let same = match endpoint.scheme() {
            Scheme::Http => Endpoint::http(host),
            Scheme::Https => Endpoint::https(host),
        };
        assert_eq!(same, Some(endpoint));
        assert_eq!(Some(endpoint.event()), Endpoint::http(host));
    }
    for above in [16, 17, 32, u32::MAX] {
        assert_eq!(
            (Endpoint::http(above), Endpoint::https(above)),
            (None, None)
        );
    }
}

#[test]
fn nobody_has_none_and_everyone_all() {
    assert_eq!(Endpoints::default(), Endpoints::NOBODY);
    assert_eq!(Endpoints::NOBODY.lowest(), None);
    assert!(Endpoints::NOBODY.is_empty() && !Endpoints::EVERYONE.is_empty());
    assert!(Endpoints::EVERYONE.iter().eq(all()));
    assert_eq!(all().collect::<Endpoints>(), Endpoints::EVERYONE);
}

/// Each set is what it has, whatever it was made of.
#[test]
fn a_set_has_what_its_bits_say() {
    let mut random = Random::new(11);
    for _ in 0..2000 {
        let (one, other) = (random.endpoints(), random.endpoints());
        for endpoint in all() {
            let has = |set: Endpoints| set.has(endpoint);
            assert_eq!(has(one), one.bits() >> endpoint.number() & 1 == 1);
            assert_eq!(has(one | other), has(one) || has(other));
            assert_eq!(has(one.except(other)), has(one) && !has(other));
            assert!(Endpoints::only(endpoint).iter().eq([endpoint]));
        }
        assert_eq!(
            one.is_within(other),
            one.iter().all(|endpoint| other.has(endpoint))
        );
        assert_eq!(one.iter().collect::<Endpoints>(), one);
        assert_eq!(
            (one.iter().next(), one.iter().count()),
            (one.lowest(), one.bits().count_ones() as usize)
        );
        assert_eq!(Endpoints::from_bits(one.bits()), one);
    }
}
