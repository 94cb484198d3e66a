//! Numbers that look random and are the same in every run.

use zolherima::{Connection, Cookies, Endpoint, Endpoints, Labels, Url};

/// SplitMix64.
pub struct Random {
    state: u64,
}

// Not every test file needs all of it.
#[allow(dead_code)]
impl Random {
    pub fn new(seed: u64) -> Random {
        Random { state: seed }
    }

    pub fn word(&mut self) -> u32 {
        self.state = self.state.wrapping_add(0x9e37_79b9_7f4a_7c15);
        let mut mixed = self.state;
        mixed = (mixed ^ (mixed >> 30)).wrapping_mul(0xbf58_476d_1ce4_e5b9);
        mixed = (mixed ^ (mixed >> 27)).wrapping_mul(0x94d0_49bb_1331_11eb);
        (mixed >> 32) as u32
    }

    pub fn byte(&mut self) -> u8 {
        self.word() as u8
    }

    pub fn below(&mut self, end: u32) -> u32 {
        self.word() % end
    }

    /// True once in so many times.
    pub fn once_in(&mut self, times: u32) -> bool {
        self.below(times) == 0
    }

    pub fn one_of<T: Copy>(&mut self, list: &[T]) -> T {
        list[self.below(list.len() as u32) as usize]
    }

    pub fn bytes(&mut self, count: u32) -> Vec<u8> {
        (0..count).map(|_| self.byte()).collect()
    }
}

/// Rows of policies, and cookies.
#[allow(dead_code)]
impl Random {
    pub fn endpoint(&mut self) -> Endpoint {
        Endpoint::new(self.below(32)).expect("there is such an endpoint")
    }

    /// Nobody, everyone, one, or any.
    pub fn endpoints(&mut self) -> Endpoints {
        let (one, any) = (self.endpoint(), self.word());
        self.one_of(&[
            Endpoints::NOBODY,
            Endpoints::EVERYONE,
            Endpoints::EVERYONE,
            Endpoints::only(one),
            Endpoints::from_bits(any),
        ])
    }

    pub fn url(&mut self) -> Url {
        Url {
            address: self.endpoint(),
            is_entry: self.once_in(2),
            readers: self.endpoints(),
            writers: self.endpoints(),
        }
    }

    pub fn labels(&mut self) -> Labels {
        Labels {
            readers: self.endpoints(),
            writers: self.endpoints(),
        }
    }

    pub fn connection(&mut self) -> Connection {
        Connection {
            readers: self.endpoints(),
            script_readers: self.endpoints(),
            writers: self.endpoints(),
        }
    }

    pub fn cookies(&mut self) -> Cookies {
        let keys = self.byte() & self.byte();
        (0..8)
            .filter(|key| keys >> key & 1 == 1)
            .fold(Cookies::NONE, |cookies, key| {
                let value = self.word();
                cookies.with(key, value).expect("there is such a key")
            })
    }
}
