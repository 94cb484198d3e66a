//! What the tests of the importer share: a host, names, and both importers held to one another.

#![allow(dead_code)] // no file of tests needs all of it

use reference::{import_fast, import_noting, ImportSeen, Imported};

/// The host of the cases: bit 3 is http there, bit 19 https.
pub const HOST: u32 = 3;
pub const HTTPS: u32 = 0x0008_0000;
pub const BOTH: u32 = 0x0008_0008;

/// Names of these keys, filled up with zero bytes; the keys that follow have none.
pub fn names(list: &[&[u8]]) -> Vec<u8> {
    let mut names = vec![0; 128];
    for (key, name) in list.iter().enumerate() {
        names[16 * key..][..name.len()].copy_from_slice(name);
    }
    names
}

/// The names of the cases: key 2 is sid.
pub fn usual_names() -> Vec<u8> {
    names(&[b"", b"lang", b"sid"])
}

pub fn refused(number: u32) -> Imported {
    Imported {
        number,
        key: 0,
        value: 0,
        secure: false,
        http_only: false,
        readers: 0,
    }
}

/// Imports a line and holds the fast importer to the plain one. Checks what holds of every answer.
pub fn import_both(host: u32, names: &[u8], text: &[u8], seen: &mut ImportSeen) -> Imported {
    let plain = import_noting(host, names, text, seen);
    let fast = import_fast(host, names, text);
    assert_eq!(plain, fast, "{host} {names:x?} {}", text.escape_ascii());
    if plain.number != 0 {
        assert!([6, 14, 15, 16].contains(&plain.number));
        assert_eq!(plain, refused(plain.number));
    }
    plain
}

/// Imports a line for the host and the names of the cases.
pub fn import_usual(text: &[u8]) -> Imported {
    import_both(HOST, &usual_names(), text, &mut ImportSeen::new())
}
