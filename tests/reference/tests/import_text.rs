//! The program import: what it prints for inputs read by hand, and what it makes of its arguments.

#[path = "common/importing.rs"]
mod importing;
#[path = "common/lines.rs"]
mod lines;

use cases::Random;
use importing::{names, usual_names, HOST};
use lines::Call;
use reference::{host_of, import_text, names_of};

/// The program prints this for the host and the names of the cases.
fn prints(input: &[u8], text: &str) {
    let printed = import_text(HOST, &usual_names(), input);
    assert_eq!(printed, text, "{}", input.escape_ascii());
}

/// The one cookie of these cases is key 2 of host 3, whose readers are word 192 + 2 (8 · 3 + 2) = 244.
const SEVEN: &str = "1: word 244 = 0x00080008, key 2, value 7\n";
const SEVEN_SECURE: &str = "1: word 244 = 0x00080000, key 2, value 7, Secure\n";
const NO_NAME_LINE: &str = "1: refused 14: the pair has no equals sign, or no name before it\n";
const NO_KEY_LINE: &str = "1: refused 15: none of the names is the cookie's\n";

#[test]
fn a_line_for_each_answer() {
    prints(
        b"sid=7\n\
          lang=007; Secure\n\
          sid=4294967295; HttpOnly\n\
          lang=0; HttpOnly; Secure\n\
          sid\n\
          Sid=7\n\
          sid=4294967296\n",
        "1: word 244 = 0x00080008, key 2, value 7\n\
         2: word 242 = 0x00080000, key 1, value 7, Secure\n\
         3: word 244 = 0x00080008, key 2, value 4294967295, HttpOnly\n\
         4: word 242 = 0x00080000, key 1, value 0, Secure, HttpOnly\n\
         5: refused 14: the pair has no equals sign, or no name before it\n\
         6: refused 15: none of the names is the cookie's\n\
         7: refused 16: the value is not one to ten digits that make at most 4294967295\n",
    );
}

#[test]
fn a_host_above_15() {
    let printed = import_text(16, &usual_names(), b"sid=7\n\nsid=x");
    let lines = [1, 2, 3].map(|line| format!("{line}: refused 6: the host is above 15\n"));
    assert_eq!(printed, lines.concat());
}

/// The first cookie's readers are word 192, the last one's 192 + 2 · 127 = 446.
#[test]
fn the_first_and_the_last_word() {
    let names = names(&[b"a", b"", b"", b"", b"", b"", b"", b"b"]);
    assert_eq!(
        import_text(0, &names, b"a=1"),
        "1: word 192 = 0x00010001, key 0, value 1\n"
    );
    assert_eq!(
        import_text(15, &names, b"b=1;secure"),
        "1: word 446 = 0x80000000, key 7, value 1, Secure\n"
    );
}

#[test]
fn where_lines_end() {
    prints(b"", "");
    prints(b"\n", NO_NAME_LINE);
    prints(b"sid=7", SEVEN);
    prints(b"sid=7\n", SEVEN);
    prints(b"sid=7\r\n", SEVEN);
    prints(b"sid=7\r", SEVEN);
    prints(b"\r", NO_NAME_LINE);
    prints(b"\r\n", NO_NAME_LINE);
    prints(b"sid=7; Secure\r\n", SEVEN_SECURE);
    prints(b"sid=7; Secure", SEVEN_SECURE);
    // Two are taken off as well.
    prints(b"sid=7; Secure\r\r\n", SEVEN_SECURE);
    prints(b"\r\r\r", NO_NAME_LINE);
    prints(b"sid=7; Secure \r\r", SEVEN_SECURE);
    // But not one before a blank.
    prints(b"sid=7; Secure\r \r", SEVEN);
    // One within a line ends nothing.
    prints(b"x\rsid=7", NO_KEY_LINE);
    prints(b"sid=7;\rSecure\n", SEVEN);
    let three = "1: word 244 = 0x00080008, key 2, value 7\n\
                 2: refused 14: the pair has no equals sign, or no name before it\n\
                 3: word 244 = 0x00080000, key 2, value 7, Secure\n";
    prints(b"sid=7\n\nsid=7;Secure", three);
    prints(b"sid=7\r\n\r\nsid=7;Secure\r\n", three);
}

#[test]
fn the_name_of_the_header() {
    prints(b"Set-Cookie: sid=7; Secure\r\n", SEVEN_SECURE);
    prints(b"SET-cookie:sid=7\n", SEVEN);
    prints(b"set-cookie:", NO_NAME_LINE);
    prints(b"Set-Cookie:\r\n", NO_NAME_LINE);
    // It is taken off once, and only just as it is.
    prints(b"Set-Cookie:Set-Cookie:sid=7", NO_KEY_LINE);
    prints(b" Set-Cookie:sid=7", NO_KEY_LINE);
    prints(b"Set-Cookie :sid=7", NO_KEY_LINE);
    prints(b"Set-Cookie2:sid=7", NO_KEY_LINE);
    prints(b"Set_Cookie:sid=7", NO_KEY_LINE);
    prints(b"Cookie:sid=7", NO_KEY_LINE);
    prints(b":sid=7", NO_KEY_LINE);
    prints(b"Set-Cookie", NO_NAME_LINE);
    prints(b"Set-Cookie\r:sid=7", NO_KEY_LINE);
    // A colon behind it is one of the text.
    prints(b"sid=7; Expires=10:18; Secure", SEVEN_SECURE);
    prints(b"Set-Cookie: sid=7; Expires=10:18; Secure", SEVEN_SECURE);
}

/// A name of a cookie may be that of the header, which is taken off only before a colon.
#[test]
fn a_cookie_named_as_the_header() {
    let names = names(&[b"Set-Cookie", b"Set-Cookie:a"]);
    let seven = |key: u32| {
        let word = 240 + 2 * key;
        format!("1: word {word} = 0x00080008, key {key}, value 7\n")
    };
    assert_eq!(import_text(HOST, &names, b"Set-Cookie=7"), seven(0));
    assert_eq!(
        import_text(HOST, &names, b"Set-Cookie:Set-Cookie=7"),
        seven(0)
    );
    assert_eq!(import_text(HOST, &names, b"Set-Cookie:a=7"), NO_KEY_LINE);
    let twice = b"set-cookie: Set-Cookie:a=7";
    assert_eq!(import_text(HOST, &names, twice), seven(1));
}

/// 65,536 bytes are read, of one more nothing.
#[test]
fn the_longest_input() {
    let mut input = b"sid=7; Secure;".to_vec();
    input.resize(64 << 10, b' ');
    prints(&input, SEVEN_SECURE);
    input.push(b'\n');
    prints(&input, "");
    let lines = b"sid=7\n\n".repeat(9_362);
    assert_eq!(lines.len(), (64 << 10) - 2);
    let printed = import_text(HOST, &usual_names(), &lines);
    assert_eq!(printed.lines().count(), 18_724);
    let last = "\n18724: refused 14: the pair has no equals sign, or no name before it\n";
    assert!(printed.ends_with(last));
    prints(&[&lines[..], b"sid=7"].concat(), "");
    prints(&vec![b'\n'; 128 << 10], "");
}

#[test]
fn names_from_arguments() {
    assert_eq!(names_of(&[]), None);
    assert_eq!(names_of(&[b"sid"]).unwrap()[..], names(&[b"sid"]));
    assert_eq!(names_of(&[b""]).unwrap(), [0; 128]);
    let usual: [&[u8]; 3] = [b"", b"lang", b"sid"];
    assert_eq!(names_of(&usual).unwrap()[..], usual_names());
    let eight: [&[u8]; 8] = [b"a", b"b", b"", b"d", b"e", b"f", b"sixteen_letters_", b"h"];
    assert_eq!(names_of(&eight).unwrap()[..], names(&eight));
    assert_eq!(
        names_of(&[&b"a"[..]; 8]).unwrap()[..],
        names(&[&b"a"[..]; 8])
    );
    assert_eq!(names_of(&[&b"a"[..]; 9]), None);
    assert_eq!(names_of(&[&b""[..]; 9]), None);
    assert_eq!(names_of(&[b"sixteen_letters_s"]), None);
    assert_eq!(names_of(&[b"a", b"b", &[b'c'; 17]]), None);
}

#[test]
fn host_from_an_argument() {
    let hosts: [(&[u8], u32); 6] = [
        (b"0", 0),
        (b"15", 15),
        (b"16", 16),
        (b"007", 7),
        (b"0000000015", 15),
        (b"4294967295", u32::MAX),
    ];
    for (argument, host) in hosts {
        assert_eq!(host_of(argument), Some(host));
    }
    let others: [&[u8]; 10] = [
        b"",
        b"4294967296",
        b"00000000003",
        b"+3",
        b"-3",
        b"3 ",
        b" 3",
        b"3\n",
        b"0x3",
        b"canteen",
    ];
    for argument in others {
        assert_eq!(host_of(argument), None, "{}", argument.escape_ascii());
    }
}

/// The program says of each line what it says of this line alone.
#[test]
fn random_inputs() {
    for case in 0..4_000 {
        let random = Random::of_case(12, case);
        let Call { host, names, .. } = Call::random(&random);
        let (mut input, mut expected) = (Vec::new(), String::new());
        for place in 1..=random.below(9) {
            let line = random_input_line(&random);
            let alone = import_text(host, &names, &line);
            let (_, told) = alone.split_once(": ").unwrap();
            expected += &format!("{place}: {told}");
            input.extend(line);
        }
        assert_eq!(import_text(host, &names, &input), expected);
        // The last newline may be missing, unless the line before it is empty.
        if input.pop().is_some() && input.last().is_some_and(|&byte| byte != b'\n') {
            assert_eq!(import_text(host, &names, &input), expected);
        }
    }
}

/// A line of one header, with its newline.
fn random_input_line(random: &Random) -> Vec<u8> {
    let mut text = Call::random(random).text;
    text.retain(|&byte| byte != b'\n');
    let header = random.pick(&[&b""[..], b"Set-Cookie:", b"set-cookie: "]);
    let end = random.pick(&[&b"\n"[..], b"\r\n"]);
    [header, &text, end].concat()
}
