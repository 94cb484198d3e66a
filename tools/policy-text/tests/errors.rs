//! What is told of each kind of error, to the letter.

use policy_text::{parse, render};

fn told(text: &str) -> String {
    let told = parse(text.as_bytes()).expect_err("the text has an error");
    let told = told
        .iter()
        .map(|it| render(it, "a.policy", text.as_bytes()));
    told.collect()
}

#[test]
fn a_name_that_is_left_out() {
    let text = "host\n";
    let expected = r"error: expected a host's name, found the end of the line
 --> a.policy:1:5
  |
1 | host
  |     ^ a host's name goes here
  = the form of the line: host NAME [always https] [number N]
";
    assert_eq!(told(text), expected);
}

#[test]
fn a_word_of_the_language_as_a_name() {
    let text = "host everyone\n";
    let expected = r"error: expected a host's name, found `everyone`
 --> a.policy:1:6
  |
1 | host everyone
  |      ^^^^^^^^ a host's name goes here
  = `everyone` is a word of the language and no name
  = the form of the line: host NAME [always https] [number N]
";
    assert_eq!(told(text), expected);
}

#[test]
fn a_name_that_is_too_long() {
    let text = "host nnnnnnnnnnnnnnnnnnnnnnnnnnnnnnnnnnnnnnnnnnnnnnnnnnnnnnnnnnnnnnnnn\n";
    let expected = r"error: a name has at most 64 bytes, and this has 65
 --> a.policy:1:6
  |
1 | host nnnnnnnnnnnnnnnnnnnnnnnnnnnnnnnnnnnnnnnnnnnnnnnnnnnnnnnnnnnnnnnnn
  |      ^^^^^^^^^^^^^^^^^^^^^^^^^^^^^^^^^^^^^^^^^^^^^^^^^^^^^^^^^^^^^^^^^ a shorter name goes here
";
    assert_eq!(told(text), expected);
}

#[test]
fn a_word_that_is_not_the_expected_one() {
    let text = "host canteen\ncookie session canteen\n  readers canteen\n  writers canteen\n";
    let expected = r"error: expected `of`, found `canteen`
 --> a.policy:2:16
  |
2 | cookie session canteen
  |                ^^^^^^^ `of` goes here
  = the form of the line: cookie NAME of HOST [number N]
";
    assert_eq!(told(text), expected);
}

#[test]
fn a_scheme_that_there_is_not() {
    let text = "host canteen\nurl top-up at ftp canteen\n  readers canteen\n  writers canteen\n";
    let expected = r"error: expected `http` or `https`, found `ftp`
 --> a.policy:2:15
  |
2 | url top-up at ftp canteen
  |               ^^^ `http` or `https` goes here
  = the form of the line: url NAME at http|https HOST [entry] [number N]
";
    assert_eq!(told(text), expected);
}

#[test]
fn a_host_that_is_not_declared() {
    let text = "url top-up at https canteen\n  readers http canteen, canteen\n  writers nobody\n";
    let expected = r"error: there is no host `canteen`
 --> a.policy:1:21
  |
1 | url top-up at https canteen
  |                     ^^^^^^^ not declared
  = to declare it: `host canteen`
";
    assert_eq!(told(text), expected);
}

#[test]
fn a_name_that_is_nearly_right() {
    let text = "host canteen\nurl top-up at https cantene\n  readers canteen\n  writers nobody\n";
    let expected = r"error: there is no host `cantene`
 --> a.policy:2:21
  |
2 | url top-up at https cantene
  |                     ^^^^^^^ not declared
  = did you mean `canteen`?
";
    assert_eq!(told(text), expected);
}

#[test]
fn a_word_that_is_nearly_right_in_a_set() {
    let text = "host canteen\nconnection shop\n  readers htps canteen\n  writers nobdy\n";
    let expected = r"error: there is no host `htps`
 --> a.policy:3:11
  |
3 |   readers htps canteen
  |           ^^^^ not declared
  = did you mean `https`?
error: there is no host `nobdy`
 --> a.policy:4:11
  |
4 |   writers nobdy
  |           ^^^^^ not declared
  = did you mean `nobody`?
";
    assert_eq!(told(text), expected);
}

#[test]
fn a_name_of_another_kind() {
    let text = "host canteen\nconnection shop\n  readers canteen\n  writers canteen\nsession\n  load shop on shop\n";
    let expected = r"error: there is no URL `shop`
 --> a.policy:6:8
  |
6 |   load shop on shop
  |        ^^^^ not declared
  = `shop` is a connection, declared in line 2
  = to declare it: `url shop at https HOST`, and its readers and writers
";
    assert_eq!(told(text), expected);
}

#[test]
fn a_cookie_of_another_host() {
    let text = concat!(
        "host canteen\nhost bank\ncookie token of bank\n  readers bank\n",
        "  writers bank\nurl menu at http canteen\n  readers canteen\n",
        "  writers canteen\nscript start for menu\n",
        "  read token into r0\n"
    );
    let expected = r"error: host `canteen` has no cookie `token`
  --> a.policy:10:8
   |
10 |   read token into r0
   |        ^^^^^ not declared
   = a line `cookie NAME of canteen` declares one
   = what canteen sends, and its scripts, have the cookies of canteen alone
";
    assert_eq!(told(text), expected);
}

#[test]
fn a_cookie_without_a_page() {
    let text = "script start\n  read token into r0\n";
    let expected = r"error: of which host is `token`?
 --> a.policy:2:8
  |
2 |   read token into r0
  |        ^^^^^ script `start` does not say its page
  = to say it: `script start for URL`; or write `key N`
";
    assert_eq!(told(text), expected);
}

#[test]
fn a_name_declared_twice() {
    let text = "host canteen\n\nhost canteen\n";
    let expected = r"error: host `canteen` is declared twice
 --> a.policy:3:6
  |
3 | host canteen
  |      ^^^^^^^ declared again here
  = the other is in line 1
";
    assert_eq!(told(text), expected);
}

#[test]
fn a_cookie_declared_twice() {
    let text = concat!(
        "host canteen\ncookie token of canteen\n  readers nobody\n",
        "  writers nobody\ncookie token of canteen\n  readers nobody\n",
        "  writers nobody\n"
    );
    let expected = r"error: cookie `token` of `canteen` is declared twice
 --> a.policy:5:8
  |
5 | cookie token of canteen
  |        ^^^^^ declared again here
  = the other is in line 2
";
    assert_eq!(told(text), expected);
}

#[test]
fn a_number_that_is_taken() {
    let text = "host canteen\nhost bank number 0\n";
    let expected = r"error: host `canteen` has number 0
 --> a.policy:2:18
  |
2 | host bank number 0
  |                  ^ `bank` would have it too
  = it is declared in line 1
  = `number N` gives another; without it the number is one more than the last
";
    assert_eq!(told(text), expected);
}

#[test]
fn a_number_that_is_taken_without_being_given() {
    let text = "host canteen number 1\nhost bank number 0\nhost post\n";
    let expected = r"error: host `canteen` has number 1
 --> a.policy:3:6
  |
3 | host post
  |      ^^^^ `post` would have it too
  = it is declared in line 1
  = `number N` gives another; without it the number is one more than the last
";
    assert_eq!(told(text), expected);
}

#[test]
fn a_number_that_is_too_large() {
    let text = "host canteen number 16\n";
    let expected = r"error: expected a number from 0 to 15, found `16`
 --> a.policy:1:21
  |
1 | host canteen number 16
  |                     ^^ a number from 0 to 15 goes here
  = the form of the line: host NAME [always https] [number N]
";
    assert_eq!(told(text), expected);
}

#[test]
fn a_number_of_many_digits() {
    let text = "host canteen number 999999999999999999999999999999999999999999999999999999999999\n";
    let expected = r"error: expected a number from 0 to 15, found `999999999999999999999999999999999999999999999999..`
 --> a.policy:1:21
  |
1 | host canteen number 999999999999999999999999999999999999999999999999999999999999
  |                     ^^^^^^^^^^^^^^^^^^^^^^^^^^^^^^^^^^^^^^^^^^^^^^^^^^^^^^^^^^^^ a number from 0 to 15 goes here
  = the form of the line: host NAME [always https] [number N]
";
    assert_eq!(told(text), expected);
}

#[test]
fn more_than_there_can_be() {
    let text = &(0..18).map(|n| format!("host h{n}\n")).collect::<String>();
    let expected = r"error: there are at most 16 hosts, numbered 0 to 15
  --> a.policy:17:6
   |
17 | host h16
   |      ^^^ it would have number 16
";
    assert_eq!(told(text), expected);
}

#[test]
fn a_missing_clause() {
    let text = "host canteen\nurl top-up at https canteen\n  writers https canteen\n";
    let expected = r"error: URL `top-up` has no `readers`
 --> a.policy:2:5
  |
2 | url top-up at https canteen
  |     ^^^^^^ below it goes `readers`
  = readers are those who may learn of it, `nobody` where there are none; a URL has http of its host among them
";
    assert_eq!(told(text), expected);
}

#[test]
fn two_missing_clauses() {
    let text = "connection shop\n";
    let expected = r"error: connection `shop` has no `readers` and no `writers`
 --> a.policy:1:12
  |
1 | connection shop
  |            ^^^^ below it go `readers` and `writers`
  = readers are those who may learn of it, `nobody` where there are none; a URL has http of its host among them
  = writers are those who may have shaped it, or what leads there; `nobody` where there are none
";
    assert_eq!(told(text), expected);
}

#[test]
fn a_clause_that_stands_twice() {
    let text = "connection shop\n  readers nobody\n  readers everyone\n  writers nobody\n";
    let expected = r"error: connection `shop` has `readers` twice
 --> a.policy:3:3
  |
3 |   readers everyone
  |   ^^^^^^^ a second time here
  = the other is in line 2
";
    assert_eq!(told(text), expected);
}

#[test]
fn a_clause_that_belongs_to_another_kind() {
    let text = "host canteen\nurl menu at http canteen\n  readers canteen\n  writers canteen\n  script readers canteen\n";
    let expected = r"error: `script readers` belongs to a connection
 --> a.policy:5:3
  |
5 |   script readers canteen
  |   ^^^^^^^^^^^^^^ here it would belong to URL `menu`
  = URL `menu` begins in line 2
  = a line `connection NAME ..` begins one
";
    assert_eq!(told(text), expected);
}

#[test]
fn a_clause_before_all_declarations() {
    let text = "readers everyone\n";
    let expected = r"error: `readers` belongs to a cookie, a URL or a connection
 --> a.policy:1:1
  |
1 | readers everyone
  | ^^^^^^^ nothing is declared before it
  = a line `url NAME ..` begins one
";
    assert_eq!(told(text), expected);
}

#[test]
fn records_without_a_session() {
    let text = "load menu on shop\nload menu on shop\n";
    let expected = r"error: `load` belongs to a session
 --> a.policy:1:1
  |
1 | load menu on shop
  | ^^^^ nothing is declared before it
  = a line `session` begins it
";
    assert_eq!(told(text), expected);
}

#[test]
fn a_step_in_a_session() {
    let text = "session\n  r0 = 5\n";
    let expected = r"error: `r0 =` belongs to a script
 --> a.policy:2:3
  |
2 |   r0 = 5
  |   ^^ here it would belong to the session
  = the session begins in line 1
  = a line `script NAME ..` begins one
";
    assert_eq!(told(text), expected);
}

#[test]
fn a_set_that_is_left_out() {
    let text = "connection shop\n  readers\n  writers nobody\n";
    let expected = r"error: expected a set, found the end of the line
 --> a.policy:2:10
  |
2 |   readers
  |          ^ a set goes here
  = the form of the line: readers everyone | nobody | [everyone except] [http|https] HOST, ..
";
    assert_eq!(told(text), expected);
}

#[test]
fn a_set_that_ends_in_a_comma() {
    let text = "host canteen\nconnection shop\n  readers canteen,\n  writers canteen\n";
    let expected = r"error: expected a host's name, found the end of the line
 --> a.policy:3:19
  |
3 |   readers canteen,
  |                   ^ a host's name goes here
  = after a comma the next line goes on, unless it begins with a word such as `writers` or `url`
  = the form of the line: readers everyone | nobody | [everyone except] [http|https] HOST, ..
";
    assert_eq!(told(text), expected);
}

#[test]
fn a_comma_that_is_left_out() {
    let text =
        "host canteen\nhost bank\nconnection shop\n  readers canteen bank\n  writers canteen\n";
    let expected = r"error: expected `,` or the end of the line, found `bank`
 --> a.policy:4:19
  |
4 |   readers canteen bank
  |                   ^^^^ a comma goes before the next of the set
  = the form of the line: readers everyone | nobody | [everyone except] [http|https] HOST, ..
";
    assert_eq!(told(text), expected);
}

#[test]
fn a_line_that_a_comma_joins() {
    let text = "host canteen\nconnection shop\n  readers canteen,\n    http canteen https canteen\n  writers canteen\n";
    let expected = r"error: expected `,` or the end of the line, found `https`
 --> a.policy:4:18
  |
4 |     http canteen https canteen
  |                  ^^^^^ a comma goes before the next of the set
  = line 3 ends in a comma, so this line goes on from it
  = the form of the line: readers everyone | nobody | [everyone except] [http|https] HOST, ..
";
    assert_eq!(told(text), expected);
}

#[test]
fn a_line_that_no_comma_joins() {
    let text = "host canteen\nconnection shop\n  readers http canteen\n    https canteen\n  writers canteen\n";
    let expected = r"error: expected a clause, found `https`
 --> a.policy:4:5
  |
4 |     https canteen
  |     ^^^^^ a line begins with a word such as `host`, `url` or `readers`
  = a line goes on in the next only where it ends in a comma
";
    assert_eq!(told(text), expected);
}

#[test]
fn everyone_among_others() {
    let text =
        "host canteen\nconnection shop\n  readers canteen, everyone\n  writers everyone canteen\n";
    let expected = r"error: expected a host's name, found `everyone`
 --> a.policy:3:20
  |
3 |   readers canteen, everyone
  |                    ^^^^^^^^ a host's name goes here
  = `everyone` and `nobody` stand alone
  = the form of the line: readers everyone | nobody | [everyone except] [http|https] HOST, ..
error: expected `except` or the end of the line, found `canteen`
 --> a.policy:4:20
  |
4 |   writers everyone canteen
  |                    ^^^^^^^ `everyone` stands alone or before `except`
  = the form of the line: writers everyone | nobody | [everyone except] [http|https] HOST, ..
";
    assert_eq!(told(text), expected);
}

#[test]
fn a_word_that_begins_no_line() {
    let text = "hots canteen\nconnection shop\n  redaers canteen\n  writers canteen\nturnip\n";
    let expected = r"error: expected a clause, found `hots`
 --> a.policy:1:1
  |
1 | hots canteen
  | ^^^^ did you mean `host`?
error: expected a clause, found `redaers`
 --> a.policy:3:3
  |
3 |   redaers canteen
  |   ^^^^^^^ did you mean `readers`?
error: expected a clause, found `turnip`
 --> a.policy:5:1
  |
5 | turnip
  | ^^^^^^ a line begins with a word such as `host`, `url` or `readers`
";
    assert_eq!(told(text), expected);
}

#[test]
fn a_line_that_begins_with_a_sign() {
    let text = "= 5\n";
    let expected = r"error: expected a clause, found `=`
 --> a.policy:1:1
  |
1 | = 5
  | ^ a line begins with a word such as `host`, `url` or `readers`
";
    assert_eq!(told(text), expected);
}

#[test]
fn words_after_the_end() {
    let text = "host canteen https\n";
    let expected = r"error: expected the end of the line, found `https`
 --> a.policy:1:14
  |
1 | host canteen https
  |              ^^^^^ the line ends before this
  = the form of the line: host NAME [always https] [number N]
";
    assert_eq!(told(text), expected);
}

#[test]
fn a_register_that_there_is_not() {
    let text = "script start\n  registers token, sum\n  tokn = 1\n  r0 = 1\n";
    let expected = r"error: script `start` has no register `tokn`
 --> a.policy:3:3
  |
3 |   tokn = 1
  |   ^^^^ not a register
  = did you mean `token`?
  = its registers are token, sum, r2, r3
error: script `start` has no register `r0`
 --> a.policy:4:3
  |
4 |   r0 = 1
  |   ^^ not a register
  = register 0 is `token` here
  = its registers are token, sum, r2, r3
";
    assert_eq!(told(text), expected);
}

#[test]
fn a_register_named_twice() {
    let text = "script start\n  registers token, token\n";
    let expected = r"error: `token` is the name of register 0
 --> a.policy:2:20
  |
2 |   registers token, token
  |                    ^^^^^ this would be register 1
";
    assert_eq!(told(text), expected);
}

#[test]
fn a_register_by_the_name_of_another() {
    let text = "script start\n  registers r1\n";
    let expected = r"error: `r1` is the name of register 1
 --> a.policy:2:13
  |
2 |   registers r1
  |             ^^ this would be register 0
";
    assert_eq!(told(text), expected);
}

#[test]
fn too_many_registers() {
    let text = "script start\n  registers a, b, c, d, e\n";
    let expected = r"error: a script has 4 registers
 --> a.policy:2:25
  |
2 |   registers a, b, c, d, e
  |                         ^ this would be register 4
";
    assert_eq!(told(text), expected);
}

#[test]
fn registers_after_a_step() {
    let text = "script start\n  end\n  registers token\n";
    let expected = r"error: `registers` goes before the steps
 --> a.policy:3:3
  |
3 |   registers token
  |   ^^^^^^^^^ a step stands before it
";
    assert_eq!(told(text), expected);
}

#[test]
fn a_number_that_a_step_cannot_hold() {
    let text = "script start\n  r0 = 70000\n";
    let expected = r"error: expected a number from 0 to 65535, found `70000`
 --> a.policy:2:8
  |
2 |   r0 = 70000
  |        ^^^^^ a number from 0 to 65535 goes here
  = the form of the line: REGISTER = NUMBER, or REGISTER = REGISTER + REGISTER
";
    assert_eq!(told(text), expected);
}

#[test]
fn a_sum_that_is_cut() {
    let text = "script start\n  r0 = r1\n";
    let expected = r"error: expected `+`, found the end of the line
 --> a.policy:2:10
  |
2 |   r0 = r1
  |          ^ `+` goes here
  = the form of the line: REGISTER = NUMBER, or REGISTER = REGISTER + REGISTER
";
    assert_eq!(told(text), expected);
}

#[test]
fn a_skip_of_another_number() {
    let text = "script start\n  skip 2 if r0 is 1\n";
    let expected = r"error: expected `0`, found `1`
 --> a.policy:2:19
  |
2 |   skip 2 if r0 is 1
  |                   ^ `0` goes here
  = the form of the line: skip N if REGISTER is 0
";
    assert_eq!(told(text), expected);
}

#[test]
fn a_step_of_too_few_bytes() {
    let text = "script start\n  step 8 0 0\n";
    let expected = r"error: expected a number from 0 to 255, found the end of the line
 --> a.policy:2:13
  |
2 |   step 8 0 0
  |             ^ a number from 0 to 255 goes here
  = the form of the line: step OP A B C
";
    assert_eq!(told(text), expected);
}

#[test]
fn too_many_steps() {
    let text = &("script start\n".to_string() + &"  end\n".repeat(35));
    let expected = r"error: script `start` has more than 32 steps
  --> a.policy:34:3
   |
34 |   end
   |   ^^^ step 33
";
    assert_eq!(told(text), expected);
}

#[test]
fn a_second_session() {
    let text = "session\nsession\n";
    let expected = r"error: there is a second `session`
 --> a.policy:2:1
  |
2 | session
  | ^^^^^^^ a file has one at most
  = the other is in line 1
";
    assert_eq!(told(text), expected);
}

#[test]
fn a_response_that_is_cut() {
    let text = concat!(
        "host h\nurl u at http h\n  readers h\n  writers h\nconnection c\n",
        "  readers h\n  writers h\nsession\n  response u on c\n"
    );
    let expected = r"error: expected `runs` or `gives`, found the end of the line
 --> a.policy:9:18
  |
9 |   response u on c
  |                  ^ `runs` or `gives` goes here
  = the form of the line: response URL on CONNECTION runs SCRIPT|gives N [sets COOKIE = N, ..]
";
    assert_eq!(told(text), expected);
}

#[test]
fn a_cookie_set_twice() {
    let text = concat!(
        "host h\nurl u at http h\n  readers h\n  writers h\nconnection c\n",
        "  readers h\n  writers h\nsession\n",
        "  picture u on c sets key 1 = 5, key 1 = 6\n"
    );
    let expected = r"error: the record sets this cookie twice
 --> a.policy:9:34
  |
9 |   picture u on c sets key 1 = 5, key 1 = 6
  |                                  ^^^^^ key 1
";
    assert_eq!(told(text), expected);
}

#[test]
fn bytes_that_are_not_hexadecimal() {
    let text = "session\n  record 0f 1g\n";
    let expected = r"error: expected a byte of two hexadecimal digits, found `1g`
 --> a.policy:2:13
  |
2 |   record 0f 1g
  |             ^^ a byte of two hexadecimal digits goes here
  = the form of the line: record HH HH ..
";
    assert_eq!(told(text), expected);
}

#[test]
fn a_letter_outside_ascii() {
    let text = "host café # café\n";
    let expected = r"error: found `é` (U+00E9) outside a comment
 --> a.policy:1:9
  |
1 | host café # café
  |         ^ only ASCII stands outside comments
";
    assert_eq!(told(text), expected);
}

#[test]
fn a_control_character_shown_as_another() {
    let text = "host a\u{7}b\n";
    let expected = r"error: control character U+0007
 --> a.policy:1:7
  |
1 | host a�b
  |       ^ it is to be removed
";
    assert_eq!(told(text), expected);
}

#[test]
fn a_tab_before_the_place() {
    let text = "\thost\ta\tb\n";
    let expected = r"error: expected the end of the line, found `b`
 --> a.policy:1:9
  |
1 |     host    a    b
  |                  ^ the line ends before this
  = the form of the line: host NAME [always https] [number N]
";
    assert_eq!(told(text), expected);
}

#[test]
fn a_sign_that_turns_the_text() {
    let text = "# abc \u{202e} cba\n";
    let expected = r"error: character U+202E changes the direction of the text
 --> a.policy:1:7
  |
1 | # abc � cba
  |       ^ it is to be removed
";
    assert_eq!(told(text), expected);
}

#[test]
fn an_error_at_the_end_of_the_file() {
    let text = "host";
    let expected = r"error: expected a host's name, found the end of the file
 --> a.policy:1:5
  |
1 | host
  |     ^ a host's name goes here
  = the form of the line: host NAME [always https] [number N]
";
    assert_eq!(told(text), expected);
}

#[test]
fn a_carriage_return_alone() {
    let text = "host a\rhost b\r\n";
    let expected = r"error: control character U+000D
 --> a.policy:1:7
  |
1 | host a�host b
  |       ^ it is to be removed
";
    assert_eq!(told(text), expected);
}
