//! What is given to the program, and how it is saved where something differs.

use cases::policy_bytes::policy_bytes;
use programs::input::Parts;
use programs::Input;
use zolherima::SCRIPT_BYTES;

pub enum Given {
    /// Words that are a policy or not.
    Words(Vec<u32>),
    /// What walk reads, under a policy that is well formed.
    RoundTrip(Walk),
    Session(Walk),
    Reach(Walk),
    /// A text whose scripts have pages.
    Advice(Vec<u8>),
    Journey {
        walk: Walk,
        urls: Vec<u8>,
    },
    Tally {
        walk: Walk,
        list: Vec<u8>,
    },
    Import {
        text: Vec<u8>,
        lines: Vec<u8>,
    },
    /// Any bytes as a file.
    Hostile(Vec<u8>),
}

/// A policy, a script table and records of at most 255 bytes.
pub struct Walk {
    pub policy: Vec<u32>,
    pub scripts: Vec<u8>,
    pub records: Vec<Vec<u8>>,
}

impl Walk {
    /// With no script, and no record.
    pub fn over(policy: Vec<u32>) -> Walk {
        Walk {
            policy,
            scripts: vec![0; SCRIPT_BYTES],
            records: Vec::new(),
        }
    }

    pub fn bytes(&self) -> Vec<u8> {
        let mut bytes = policy_bytes(&self.policy);
        bytes.extend_from_slice(&self.scripts);
        for record in &self.records {
            bytes.push(u8::try_from(record.len()).expect("records are that short"));
            bytes.extend_from_slice(record);
        }
        bytes
    }
}

impl Input for Given {
    fn parts(&self) -> Parts<'_> {
        match self {
            Given::Words(words) => vec![("policy", policy_bytes(words).into())],
            Given::RoundTrip(walk) | Given::Session(walk) | Given::Reach(walk) => {
                vec![("walk", walk.bytes().into())]
            }
            Given::Advice(text) | Given::Hostile(text) => vec![("text", text.into())],
            Given::Journey { walk, urls } => {
                vec![("walk", walk.bytes().into()), ("urls", urls.into())]
            }
            Given::Tally { walk, list } => {
                vec![("walk", walk.bytes().into()), ("list", list.into())]
            }
            Given::Import { text, lines } => {
                vec![("text", text.into()), ("lines", lines.into())]
            }
        }
    }
}
