//! What is shown compiles to the same bytes: random policies, script tables and records, always the same ones.

use policy_text::{builder, compile, parse, render, scripts as scripts_of, show};
use zolherima::{
    Connection, Cookies, Endpoint, Endpoints, Labels, Policy, PolicyBuilder, Record, Scripts, Url,
    CONNECTIONS, HOSTS, KEYS, POLICY_WORDS, SCRIPTS, SCRIPT_BYTES, STEPS, STEP_BYTES, URLS,
};

/// Numbers that look random (xorshift).
struct Random(u64);

impl Random {
    fn next(&mut self) -> u32 {
        self.0 ^= self.0 << 13;
        self.0 ^= self.0 >> 7;
        self.0 ^= self.0 << 17;
        (self.0 >> 32) as u32
    }

    fn below(&mut self, end: u32) -> u32 {
        self.next() % end
    }

    fn one_in(&mut self, many: u32) -> bool {
        self.below(many) == 0
    }

    /// Mostly below `end`, else any byte.
    fn byte_near(&mut self, end: u32) -> u8 {
        if self.one_in(8) {
            self.next() as u8
        } else {
            self.below(end) as u8
        }
    }

    fn set(&mut self) -> Endpoints {
        let bits = match self.below(8) {
            0 => 0,
            1 => u32::MAX,
            2 => 1 << self.below(32),
            3 => !(1 << self.below(32)),
            4 => 0x0001_0001 << self.below(16),
            5 => self.next() & self.next() & self.next(),
            6 => self.next() | self.next() | self.next(),
            _ => self.next(),
        };
        Endpoints::from_bits(bits)
    }
}

fn endpoint(random: &mut Random, hosts: u32) -> Endpoint {
    let host = random.below(hosts);
    let both = [Endpoint::http(host), Endpoint::https(host)];
    both[random.below(2) as usize].unwrap()
}

fn policy(random: &mut Random) -> Policy {
    let mut builder = PolicyBuilder::new();
    let hosts = 1 + random.below(HOSTS as u32);
    let always: Vec<bool> = (0..hosts).map(|_| random.one_in(4)).collect();
    for host in (0..hosts).filter(|host| always[*host as usize]) {
        builder.always_https(host);
    }
    add_urls(random, &mut builder, hosts, &always);
    add_cookies(random, &mut builder);
    add_connections(random, &mut builder);
    builder
        .build()
        .expect("the generator makes well formed policies")
}

fn add_urls(random: &mut Random, builder: &mut PolicyBuilder, hosts: u32, always: &[bool]) {
    let sparse = 1 + random.below(6);
    let mut urls: Vec<(u32, Endpoint)> = Vec::new();
    for url in 0..URLS as u32 {
        if random.one_in(sparse) {
            urls.push((url, endpoint(random, hosts)));
        }
    }
    let partner = |address: Endpoint| {
        let https = Endpoint::https(address.host());
        urls.iter().find(|(_, other)| Some(*other) == https)
    };
    for &(url, address) in &urls {
        let by_http = address == address.event();
        let is_replaced = by_http && always[address.host() as usize];
        if is_replaced && partner(address).is_none() {
            continue;
        }
        let it = Url {
            address,
            is_entry: random.one_in(4),
            readers: random.set().and(Endpoints::only(address.event())),
            writers: random.set(),
        };
        builder.url(url, it);
        if let Some((other, _)) = partner(address).filter(|_| is_replaced) {
            builder.partner(url, *other);
        }
    }
}

fn add_cookies(random: &mut Random, builder: &mut PolicyBuilder) {
    let sparse = 1 + random.below(20);
    let all = (0..HOSTS as u32).flat_map(|host| (0..KEYS as u32).map(move |key| (host, key)));
    for (host, key) in all {
        if random.one_in(sparse) {
            let (readers, writers) = (random.set(), random.set());
            builder.cookie(host, key, Labels { readers, writers });
        }
    }
}

fn add_connections(random: &mut Random, builder: &mut PolicyBuilder) {
    let sparse = 1 + random.below(8);
    for connection in 0..CONNECTIONS as u32 {
        if !random.one_in(sparse) {
            continue;
        }
        let readers = random.set();
        let lacking = if random.one_in(2) {
            Endpoints::NOBODY
        } else {
            random.set()
        };
        let it = Connection {
            readers,
            script_readers: readers.except(lacking),
            writers: random.set(),
        };
        builder.connection(connection, it);
    }
}

fn step(random: &mut Random) -> [u8; STEP_BYTES] {
    let unused = if random.one_in(6) {
        random.next() as u8
    } else {
        0
    };
    let register = |random: &mut Random| random.byte_near(4);
    match random.below(10) {
        0 => [0, 0, 0, unused],
        1 => [
            1,
            register(random),
            random.next() as u8,
            random.next() as u8,
        ],
        2 => [2, register(random), register(random), register(random)],
        3 => [3, register(random), random.byte_near(8), unused],
        4 => [4, random.byte_near(8), register(random), unused],
        5 => [
            5,
            random.byte_near(64),
            random.byte_near(32),
            random.byte_near(16),
        ],
        6 => [6, register(random), random.next() as u8, unused],
        7 => [7, random.byte_near(64), random.byte_near(32), unused],
        8 => [0; STEP_BYTES],
        _ => random.next().to_be_bytes(),
    }
}

fn scripts(random: &mut Random) -> Scripts {
    let mut bytes = [0; SCRIPT_BYTES];
    for script in bytes.chunks_exact_mut(STEPS * STEP_BYTES).take(SCRIPTS) {
        if random.one_in(3) {
            continue;
        }
        let steps = random.below(STEPS as u32 + 1) as usize;
        let chunks = script.chunks_exact_mut(STEP_BYTES).take(steps);
        chunks.for_each(|bytes| bytes.copy_from_slice(&step(random)));
    }
    Scripts::from_bytes(&bytes).unwrap()
}

fn cookies(random: &mut Random) -> Cookies {
    let keys = if random.one_in(2) {
        0
    } else {
        random.next() as u8
    };
    let keys = (0..KEYS as u32).filter(|key| keys & 1 << key != 0);
    keys.fold(Cookies::NONE, |cookies, key| {
        let value = if random.one_in(2) {
            random.below(10)
        } else {
            random.next()
        };
        cookies.with(key, value).unwrap()
    })
}

fn record(random: &mut Random) -> Vec<u8> {
    let (url, connection) = (random.byte_near(64), random.byte_near(32));
    let cookies = cookies(random);
    let record = match random.below(6) {
        0 => Record::load(url, connection),
        1 => Record::document_response(url, connection, &cookies, random.byte_near(16)),
        2 => Record::script_response(url, connection, &cookies, random.next()),
        3 => Record::picture_response(url, connection, &cookies),
        4 => Record::redirect(url, connection, &cookies, random.byte_near(64)),
        _ => {
            let most = if random.one_in(20) {
                u8::MAX.into()
            } else {
                12
            };
            let length = random.below(most + 1);
            return (0..length).map(|_| random.next() as u8).collect();
        }
    };
    let mut bytes = record.to_vec();
    if random.one_in(8) {
        bytes.push(random.next() as u8);
    }
    bytes
}

fn bytes_of(policy: &Policy, scripts: &Scripts, records: &[&[u8]]) -> Vec<u8> {
    let mut bytes: Vec<u8> = policy
        .words()
        .iter()
        .flat_map(|word| word.to_be_bytes())
        .collect();
    bytes.extend_from_slice(scripts.bytes());
    for record in records {
        bytes.push(record.len() as u8);
        bytes.extend_from_slice(record);
    }
    bytes
}

fn holds(policy: &Policy, scripts: &Scripts, records: &[&[u8]]) {
    let text = show(policy, scripts, records);
    let plan = parse(text.as_bytes()).unwrap_or_else(|told| {
        let told = told.iter().map(|it| render(it, "shown", text.as_bytes()));
        panic!("{}", told.collect::<String>())
    });
    assert_eq!(compile(&plan), bytes_of(policy, scripts, records), "{text}");
    let again = builder(&plan).build().expect("the same words");
    let records = plan.session.iter();
    let records: Vec<&[u8]> = records.map(|record| record.it.bytes.as_slice()).collect();
    assert_eq!(show(&again, &scripts_of(&plan), &records), text);
}

#[test]
fn random_inputs() {
    let mut random = Random(0x9e37_79b9_7f4a_7c15);
    for _ in 0..2000 {
        let (policy, scripts) = (policy(&mut random), scripts(&mut random));
        let records = random.below(20);
        let records: Vec<_> = (0..records).map(|_| record(&mut random)).collect();
        let records: Vec<&[u8]> = records.iter().map(Vec::as_slice).collect();
        holds(&policy, &scripts, &records);
    }
}

/// Policy, script table and records of what walk reads.
#[test]
fn the_example_of_walk() {
    let bytes = include_bytes!("../../../crates/walk/stdin");
    let (words, rest) = bytes.split_at(POLICY_WORDS * 4);
    let words = words
        .chunks_exact(4)
        .map(|word| u32::from_be_bytes(word.try_into().unwrap()));
    let policy = Policy::from_words(&words.collect::<Vec<_>>()).unwrap();
    let (scripts, mut rest) = rest.split_at(SCRIPT_BYTES);
    let mut records = Vec::new();
    while let Some((length, after)) = rest.split_first() {
        let (record, after) = after.split_at((*length).into());
        records.push(record);
        rest = after;
    }
    assert_eq!(records.len(), 5);
    holds(&policy, &Scripts::from_bytes(scripts).unwrap(), &records);
}

#[test]
fn the_emptiest_and_the_longest() {
    let empty = PolicyBuilder::new().build().unwrap();
    assert_eq!(show(&empty, &Scripts::new(), &[]), "");
    assert!(parse(b"").is_ok_and(|plan| compile(&plan).len() == POLICY_WORDS * 4 + SCRIPT_BYTES));
    // As many records as walk takes: each is empty and takes a byte.
    let most = (1 << 16) - POLICY_WORDS * 4 - SCRIPT_BYTES;
    let records: Vec<&[u8]> = vec![&[]; most];
    holds(&empty, &Scripts::new(), &records);
    let text = show(&empty, &Scripts::new(), &records) + "  record\n  record\n";
    let told = parse(text.as_bytes()).unwrap_err();
    assert_eq!(told.len(), 1);
    assert!(told[0].message.starts_with("the session is too long"));
}

/// A URL, a connection that reaches it, and a host that is always https.
fn one_url() -> Policy {
    let both = Endpoints::from_bits(0x0008_0008);
    let mut builder = PolicyBuilder::new();
    let address = Endpoint::https(3).unwrap();
    let it = Url {
        address,
        is_entry: true,
        readers: both,
        writers: Endpoints::EVERYONE,
    };
    builder.url(2, it).always_https(3);
    let it = Connection {
        readers: both,
        script_readers: Endpoints::NOBODY,
        writers: Endpoints::only(address),
    };
    builder.connection(0, it).build().unwrap()
}

const ONE_URL: &str = "\
host host3 always https number 3

cookie cookie5 of host3 number 5
  readers nobody
  writers nobody

url url2 at https host3 entry number 2
  readers host3
  writers everyone

connection connection0
  readers host3
  script readers nobody
  writers https host3

script script0
  read key 4 into r1
  request url2 on connection0 then script1

script script1

session
  load url2 on connection0
  response url2 on connection0 runs script0 sets cookie5 = 7
  record 03 09 00
  record
";

#[test]
fn a_text_as_it_is_shown() {
    let policy = one_url();
    let mut bytes = [0; SCRIPT_BYTES];
    bytes[..8].copy_from_slice(&[3, 1, 4, 0, 5, 2, 0, 1]);
    let scripts = Scripts::from_bytes(&bytes).unwrap();
    let cookies = Cookies::NONE.with(5, 7).unwrap();
    let response = Record::document_response(2, 0, &cookies, 0);
    let shown = show(
        &policy,
        &scripts,
        &[&Record::load(2, 0), &response, &[3, 9, 0], &[]],
    );
    assert_eq!(shown, ONE_URL);
}
