//! Inputs and requests read from bytes, as document 01 lays them out.

use cases::labels::KEYS;
use cases::list::MAPS as REQUEST_MAPS;
use cases::record::{Fields, INPUT_MAPS};

/// Reads an input; nothing where it is malformed.
pub fn read_input(record: &[u8]) -> Option<Fields> {
    let mut rest = record;
    let fields = take(&INPUT_MAPS, &mut rest)?;
    rest.is_empty().then_some(fields)
}

/// Reads requests, one right after another; nothing where the bytes are not just that.
pub fn read_requests(bytes: &[u8]) -> Option<Vec<Fields>> {
    let mut rest = bytes;
    let mut requests = Vec::new();
    while !rest.is_empty() {
        requests.push(take(&REQUEST_MAPS, &mut rest)?);
    }
    Some(requests)
}

/// Takes a record of one of these maps off the front: the fields whose bit stands, lowest bit first.
fn take(maps: &[u8], bytes: &mut &[u8]) -> Option<Fields> {
    let map = byte(bytes).filter(|map| maps.contains(map))?;
    let mut fields = Fields {
        map,
        ..Fields::default()
    };
    let carries = |bit: u8| map >> bit & 1 == 1;
    if carries(0) {
        fields.url = byte(bytes)?;
    }
    if carries(1) {
        fields.connection = byte(bytes)?;
    }
    if carries(2) {
        fields.keys = byte(bytes).filter(|&keys| keys != 0)?;
        for key in (0..KEYS).filter(|key| fields.keys >> key & 1 == 1) {
            fields.values[key] = word(bytes)?;
        }
    }
    if carries(3) {
        fields.script = byte(bytes)?;
    }
    if carries(4) {
        fields.value = word(bytes)?;
    }
    if carries(5) {
        fields.target = byte(bytes)?;
    }
    Some(fields)
}

fn byte(bytes: &mut &[u8]) -> Option<u8> {
    let (&first, rest) = bytes.split_first()?;
    *bytes = rest;
    Some(first)
}

/// Four bytes, most significant first.
fn word(bytes: &mut &[u8]) -> Option<u32> {
    let (&first, rest) = bytes.split_first_chunk()?;
    *bytes = rest;
    Some(u32::from_be_bytes(first))
}

#[cfg(test)]
mod tests {
    use super::*;

    #[test]
    fn an_input_is_read_or_malformed() {
        let read = read_input(&[0x0f, 1, 2, 0x81, 0, 0, 0, 7, 1, 0, 0, 0, 3]);
        let fields = read.expect("it is well formed");
        assert_eq!((fields.url, fields.connection, fields.script), (1, 2, 3));
        assert_eq!((fields.keys, fields.values[0]), (0x81, 7));
        assert_eq!(fields.values[7], 1 << 24);
        let malformed: [&[u8]; 6] = [
            &[],
            &[0x07, 0, 0, 1, 0, 0, 0, 7],
            &[0x0f, 0, 0, 0, 0],
            &[0x03, 0],
            &[0x03, 0, 0, 0],
            &[0x27, 0, 0, 1, 0, 0, 0, 7],
        ];
        for record in malformed {
            assert_eq!(read_input(record), None, "{record:?}");
        }
    }

    #[test]
    fn requests_are_read_or_are_none() {
        let bytes = [0x03, 1, 2, 0x0f, 3, 4, 1, 0, 0, 0, 7, 5, 0x43, 6, 7];
        let requests = read_requests(&bytes).expect("three requests");
        let maps: Vec<u8> = requests.iter().map(|request| request.map).collect();
        assert_eq!(maps, [0x03, 0x0f, 0x43]);
        assert_eq!((requests[1].values[0], requests[1].script), (7, 5));
        assert_eq!(read_requests(&[]), Some(Vec::new()));
        assert_eq!(read_requests(&bytes[..14]), None);
        assert_eq!(read_requests(&[0x13, 0, 0, 0, 0, 0, 0]), None);
    }
}
