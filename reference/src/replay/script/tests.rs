use super::*;

fn calls(script: &[u8]) -> Vec<Call> {
    read(script).unwrap().remove(0).calls
}

#[test]
fn every_call() {
    let script = b"# \xff\n\nnew 1 2\nopen HD \nrow\nrow \nrow \\0a\\5C\\fFx\xff\nconfirm\n\
            abandon\nturn 4294967295 HALTA  \nturn 0\nturn 007 \n\
            page 0 4294967295\npage 18446744073709551615 07 \npage 264 0  a b\\0a \n\
            tell 18446744073709551615\ntally";
    let turn = |day, station: &[u8]| Call::Turn {
        day,
        station: station.to_vec(),
    };
    let page = |length, minute, name: &[u8]| Call::Page {
        length,
        minute,
        name: name.to_vec(),
    };
    let expected = [
        Call::Open(b"HD ".to_vec()),
        Call::Row(vec![]),
        Call::Row(vec![]),
        Call::Row(b"\n\\\xffx\xff".to_vec()),
        Call::Confirm,
        Call::Abandon,
        turn(u32::MAX, b"HALTA  "),
        turn(0, b""),
        turn(7, b""),
        page(0, u32::MAX, b""),
        page(u64::MAX, 7, b""),
        page(264, 0, b" a b\n "),
        Call::Tell(u64::MAX),
        Call::Tally,
    ];
    assert_eq!(calls(script), expected);
}

#[test]
fn histories() {
    let script = b"new 65536 131072\ntally\nother\nabandon\nnew 0 0\nother\n";
    let expected = [
        History {
            slots: 65_536,
            line_slots: 131_072,
            calls: vec![Call::Tally],
            other: Some(vec![Call::Abandon]),
        },
        History {
            slots: 0,
            line_slots: 0,
            calls: vec![],
            other: Some(vec![]),
        },
    ];
    assert_eq!(read(script).unwrap(), expected);
    assert_eq!(read(b"").unwrap(), []);
}

#[test]
fn lines_that_are_none() {
    for line in [
        "tell",
        "tell ",
        "tell +1",
        "tell 1 ",
        "tell -1",
        "tell 18446744073709551616",
        "turn",
        "turn ",
        "turn x HALTA  ",
        "turn 4294967296 HALTA  ",
        "turn  1 HALTA  ",
        "page",
        "page ",
        "page 264",
        "page 264 ",
        "page  264 0",
        "page 264  0",
        "page -1 0",
        "page 18446744073709551616 0",
        "page 264 4294967296 a",
        "page 264 09:15 a",
        "page 264 0 \\",
        "confirm ",
        "abandon x",
        "tally\r",
        "other ",
        "new",
        "new 1",
        "new 1 ",
        "new 1 2 ",
        "new 65537 0",
        "new 0 131073",
        "new  1 2",
        " tally",
        "Tally",
        "row \\",
        "row \\0",
        "row \\0g",
        "row\t",
        "open\\20",
        "history",
    ] {
        assert_eq!(read(format!("new 1 2\n{line}\ntally\n").as_bytes()), Err(2));
    }
    assert_eq!(read(b"\ntally\nnew 1 2\n"), Err(2));
    assert_eq!(read(b"other\nnew 1 2\n"), Err(1));
    assert_eq!(read(b"new 1 2\nother\ntally\nother\n"), Err(4));
}

#[test]
fn what_is_written_comes_back() {
    let bytes: Vec<u8> = (0..=255).collect();
    let all = [
        Call::Open(bytes.clone()),
        Call::Row(bytes.clone()),
        Call::Row(vec![]),
        Call::Confirm,
        Call::Abandon,
        Call::Turn {
            day: 7,
            station: bytes.clone(),
        },
        Call::Page {
            length: 1025,
            minute: 1440,
            name: bytes,
        },
        Call::Tell(3),
        Call::Tally,
    ];
    let lines = all.iter().map(|call| call.line());
    let script: Vec<Vec<u8>> = [b"new 0 0".to_vec()].into_iter().chain(lines).collect();
    assert!(script.iter().all(|line| line.is_ascii()));
    assert_eq!(calls(&script.join(&b'\n')), all);
}
