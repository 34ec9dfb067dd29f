//! The afternoon of the scope document, its further cases, and leaving the hall.

use second::{printed, Fault, Reply, Server, COPY_LIMIT, LIST_LENGTH};

const USERS: &str = "user;role;key;allowance\nann;repairer;k1;4\nbob;driver;k2;0\ncy;owner;k3;2\n";
const ENVIRONMENTS: &str = "user;name;value\ncy;my-engine;e7\n";
const POLICY: &str = "role;access;path\n*;READ;$.*.name\nrepairer;WRITE;$.*.cv.*\n\
    driver;READ;$.*.cv['1','29']\nowner;WRITE;$[=~my-engine].note\n";
const RECORD: &str = r#"{"e7":{"name":"Tank 7","cv":{"1":3,"29":6},"note":"shelf B"},
    "e9":{"name":"Mail","cv":{"1":12}}}"#;

fn try_open(server: &mut Server, policy: &str, record: &str) -> Result<(), Fault> {
    server.open(USERS.as_bytes(), ENVIRONMENTS.as_bytes(), policy.as_bytes(), record.as_bytes())
}

fn hall() -> Server {
    let mut server = Server::new();
    try_open(&mut server, POLICY, RECORD).expect("the tables are sound");
    server
}

fn ask(server: &mut Server, line: &str) -> Reply {
    server.request(line.as_bytes(), &mut [0; COPY_LIMIT], &mut [0; LIST_LENGTH])
}

fn saved(server: &Server) -> String {
    let mut buffer = vec![0; COPY_LIMIT];
    let Reply::Length(length) = server.save(&mut buffer) else {
        panic!("the buffer is long enough");
    };
    buffer.truncate(length);
    String::from_utf8(buffer).expect("saved text is ASCII")
}

#[test]
fn the_afternoon() {
    let mut server = hall();
    let mut out = Vec::new();
    for line in [
        "LOGIN;bob;k2",
        "LOGIN;ann;k1",
        "PUSH;1;$['e7']['cv']['29'];38",
        "PUSH;1;$['e9']['cv']['3'];10",
        "PUSH;65537;$['e7']['cv']['1'];4",
        "GET;65537",
    ] {
        printed(&mut server, line.as_bytes(), &mut out);
    }
    let expected = r#"OK;65537
OK;1
OK
TO;65537;$['e7']['cv']['29'];38
OK
NO;16
OK;167
role;access;path
driver;READ;$[*]['name']
driver;READ;$[*]['cv']['1','29']
name;value
{"e7":{"cv":{"1":3,"29":38},"name":"Tank 7"},"e9":{"cv":{"1":12},"name":"Mail"}}
"#;
    assert_eq!(String::from_utf8_lossy(&out), expected);
    assert_eq!(server.fields(), 7);

    let mut buffer = [7; 170];
    let short = server.request(b"GET;65537", &mut buffer[..166], &mut []);
    assert_eq!(short, Reply::Refused(15));
    assert_eq!(buffer, [7; 170]);
    let enough = server.request(b"GET;65537", &mut buffer, &mut []);
    assert_eq!(enough, Reply::Length(167));
    assert_eq!(buffer[166..], [b'\n', 7, 7, 7]);
}

#[test]
fn logins_and_sessions() {
    let mut server = hall();
    assert_eq!(ask(&mut server, "LOGIN;bob;k1"), Reply::Refused(12));
    assert_eq!(ask(&mut server, "LOGIN;dan;k1"), Reply::Refused(12));
    assert_eq!(ask(&mut server, "LOGIN;cy;k3"), Reply::Session(131_073));
    assert_eq!(ask(&mut server, "LOGIN;cy;k3"), Reply::Refused(13));
    assert_eq!(ask(&mut server, "GET;2"), Reply::Refused(14));
    assert_eq!(ask(&mut server, "GET;131072"), Reply::Refused(14));
    assert_eq!(ask(&mut server, "GET;4294967295"), Reply::Refused(14));
    assert_eq!(ask(&mut server, "GET;4294967296"), Reply::Refused(11));
    let push = "PUSH;131073;$['e9']['note'];1";
    assert_eq!(ask(&mut server, push), Reply::Refused(16));
}

#[test]
fn pushes() {
    let mut server = hall();
    let short = server.request(b"PUSH;9;$['a'];1", &mut [], &mut [0; 31]);
    assert_eq!(short, Reply::Refused(15));
    ask(&mut server, "LOGIN;ann;k1");
    let mut push = |rest: &str| ask(&mut server, &format!("PUSH;1;$['e7']['cv']{rest}"));
    assert_eq!(push("['1'];-2147483648"), Reply::Accepted(0));
    for value in ["-2147483649", "2147483648", "-0", "01", "1 ", " 1", "1-", "--1", "-", "+1", ""] {
        assert_eq!(push(&format!("['1'];{value}")), Reply::Refused(11), "{value}");
    }
    for key in 3..7 {
        assert_eq!(push(&format!("['{key}'];\"a; b\"")), Reply::Accepted(0));
    }
    assert_eq!(push("['7'];1"), Reply::Refused(17));
    assert_eq!(push("['3'];true"), Reply::Accepted(0));
    assert!(saved(&server).contains(r#"{"1":-2147483648,"29":6,"3":true,"4":"a; b","#));
}

#[test]
fn openings() {
    let mut server = hall();
    let before = saved(&server);
    let refused = |number, text, line| Err(Fault { number, text, line });
    let head = "role;access;path\n";
    let mut open = |lines: &str, record| try_open(&mut server, &format!("{head}{lines}"), record);
    let tangled = "*;WRITE;$.*.cv\n*;WRITE;$.e7.cv.*\n";
    assert_eq!(open(tangled, "{}"), refused(5, 3, 3));
    assert_eq!(open("*;READ;$.29\n", "{}"), refused(3, 3, 2));
    assert_eq!(open("", r#"{"a":1,"a":-0}"#), refused(8, 4, 0));
    assert_eq!(open("", r#"{"a":1,"a":{"b":1}}"#), refused(6, 4, 0));
    assert_eq!(open("*;WRITE;$.a\n", r#"{"a":{"b":1}}"#), refused(5, 4, 0));
    assert_eq!(saved(&server), before);
    try_open(&mut server, POLICY, &before).expect("a saved record opens again");
    assert_eq!(saved(&server), before);
}

#[test]
fn a_policy_path_ends_where_the_field_does() {
    let mut server = Server::new();
    let record = r#"{"a":0,"r":{"b":true}}"#;
    try_open(&mut server, "role;access;path\n*;READ;$.*.b\n", record).expect("sound");
    let mut out = Vec::new();
    printed(&mut server, b"LOGIN;ann;k1", &mut out);
    printed(&mut server, b"GET;1", &mut out);
    assert!(out.ends_with(b"name;value\n{\"r\":{\"b\":true}}\n"));
}

#[test]
fn leaving_the_hall() {
    let mut server = hall();
    let mut out = Vec::new();
    for line in [
        "LOGIN;bob;k2",
        "LOGIN;ann;k1",
        "LOGOUT;65537",
        "PUSH;1;$['e7']['cv']['29'];38",
        "LOGIN;bob;k2",
        "PUSH;1;$['e7']['cv']['29'];39",
        "LOGOUT;1",
        "LOGIN;ann;k1",
        "LOGOUT;1",
    ] {
        printed(&mut server, line.as_bytes(), &mut out);
    }
    let expected = r#"OK;65537
OK;1
OK
OK
OK;65538
OK
TO;65538;$['e7']['cv']['29'];39
OK
OK;2
NO;14
"#;
    assert_eq!(String::from_utf8_lossy(&out), expected);
}

#[test]
fn closed_numbers() {
    let mut server = hall();
    assert_eq!(ask(&mut server, "LOGOUT;1"), Reply::Refused(14));
    assert_eq!(ask(&mut server, "LOGIN;ann;k1"), Reply::Session(1));
    for line in ["LOGOUT", "LOGOUT;", "LOGOUT;1;", "LOGOUT;1 ", "LOGOUT;01", "LOGOUT;4294967296"] {
        assert_eq!(ask(&mut server, line), Reply::Refused(11), "{line}");
    }
    for number in [0, 2, 65_537, u32::MAX] {
        assert_eq!(ask(&mut server, &format!("LOGOUT;{number}")), Reply::Refused(14), "{number}");
    }
    assert_eq!(ask(&mut server, "LOGOUT;1"), Reply::Accepted(0));
    let old = ["GET;1", "PUSH;1;$['e7']['cv']['1'];4", "LOGOUT;1"];
    for line in old {
        assert_eq!(ask(&mut server, line), Reply::Refused(14), "{line}");
    }
    assert_eq!(ask(&mut server, "LOGIN;ann;k1"), Reply::Session(2));
    for line in old {
        assert_eq!(ask(&mut server, line), Reply::Refused(14), "{line}");
    }
    assert_eq!(ask(&mut server, "PUSH;2;$['e7']['cv']['1'];4"), Reply::Accepted(0));
}

#[test]
fn only_an_accepted_opening_starts_the_numbers_anew() {
    let mut server = hall();
    ask(&mut server, "LOGIN;ann;k1");
    ask(&mut server, "LOGOUT;1");
    ask(&mut server, "LOGIN;bob;k2");
    try_open(&mut server, POLICY, "").expect_err("an empty text is no record");
    assert_eq!(ask(&mut server, "LOGIN;bob;k2"), Reply::Refused(13));
    assert_eq!(ask(&mut server, "LOGIN;ann;k1"), Reply::Session(2));
    try_open(&mut server, POLICY, RECORD).expect("the tables are sound");
    assert_eq!(ask(&mut server, "LOGIN;ann;k1"), Reply::Session(1));
    assert_eq!(ask(&mut server, "LOGOUT;65537"), Reply::Refused(14));
}

#[test]
fn a_logout_writes_nothing() {
    let mut server = hall();
    ask(&mut server, "LOGIN;ann;k1");
    let before = saved(&server);
    let (mut buffer, mut list) = ([7; 170], [7; LIST_LENGTH]);
    assert_eq!(server.request(b"LOGOUT;1", &mut buffer, &mut list), Reply::Accepted(0));
    assert_eq!((buffer, list), ([7; 170], [7; LIST_LENGTH]));
    assert_eq!(saved(&server), before);
    ask(&mut server, "LOGIN;ann;k1");
    assert_eq!(server.request(b"LOGOUT;2", &mut [], &mut []), Reply::Accepted(0));
}

#[test]
fn created_fields_stay_counted() {
    let mut server = hall();
    for session in 1..=4 {
        assert_eq!(ask(&mut server, "LOGIN;ann;k1"), Reply::Session(session));
        let push = format!("PUSH;{session};$['e7']['cv']['new {session}'];1");
        assert_eq!(ask(&mut server, &push), Reply::Accepted(0));
        assert_eq!(ask(&mut server, &format!("LOGOUT;{session}")), Reply::Accepted(0));
    }
    ask(&mut server, "LOGIN;ann;k1");
    assert_eq!(ask(&mut server, "PUSH;5;$['e7']['cv']['new 5'];1"), Reply::Refused(17));
    assert_eq!(ask(&mut server, "PUSH;5;$['e7']['cv']['new 4'];2"), Reply::Accepted(0));
}

#[test]
fn the_last_login() {
    let mut server = hall();
    let mut ask = |line: &str| server.request(line.as_bytes(), &mut [], &mut []);
    for session in 1..65_535 {
        assert_eq!(ask("LOGIN;ann;k1"), Reply::Session(session));
        assert_eq!(ask(&format!("LOGOUT;{session}")), Reply::Accepted(0));
    }
    assert_eq!(ask("LOGIN;ann;k1"), Reply::Session(65_535));
    assert_eq!(ask("LOGIN;ann;k1"), Reply::Refused(13));
    assert_eq!(ask("LOGIN;ann;k2"), Reply::Refused(12));
    assert_eq!(ask("LOGIN;bob;k2"), Reply::Session(65_537));
    assert_eq!(ask("LOGOUT;65535"), Reply::Accepted(0));
    assert_eq!(ask("LOGIN;ann;k1"), Reply::Refused(18));
    assert_eq!(ask("LOGIN;ann;k2"), Reply::Refused(12));
    assert_eq!(ask("LOGIN;ann;k1"), Reply::Refused(18));
    assert_eq!(ask("GET;65535"), Reply::Refused(14));
    assert_eq!(ask("GET;65536"), Reply::Refused(14));
}
