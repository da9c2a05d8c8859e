//! The written version: what is read, shown and counted.

mod common;
use common::*;
use second_reader::cases::answers::line;
use second_reader::cases::counts::Counts;
use second_reader::cases::record::{Record, DESK, PLACE, RESPONDER_ID};
use second_reader::check::check;
use second_reader::desk;
use second_reader::layout;
use second_reader::question::Question;
use second_reader::reading::{Reading, Span};
use second_reader::shown::{responder_id, signed_part};
use second_reader::write;

/// The contents of an element that fills these octets.
fn contents_of(octets: &[u8]) -> Vec<u8> {
    let header = if octets[1] < 0x80 { 2 } else { 2 + usize::from(octets[1] - 0x80) };
    octets[header..].to_vec()
}

fn reading(response: &[u8]) -> Reading {
    layout::read(response).expect("it fits").reading
}

#[test]
fn a_written_version_0_is_read() {
    let (written, plain) = (beginning(VERSION), beginning(""));
    assert_eq!(check(&question(), &written), good());
    assert_eq!(check(&question(), &plain), good());
    // "Two responses that differ in it alone are two readings."
    assert!(reading(&written).version_written);
    assert!(!reading(&plain).version_written);
    assert_ne!(reading(&written), reading(&plain));
    assert_eq!(Reading { version_written: false, ..reading(&written) }, reading(&plain));
}

#[test]
fn what_is_read_is_written_again() {
    let changes: [fn(&mut Parts); 7] = [
        |_| {},
        |parts| parts.responder = h("a1 02 30 00"),
        |parts| parts.responder = tlv(0xA1, &tlv(0x30, &tlv(0x0C, &[0x41; 250]))),
        |parts| parts.entries = vec![],
        |parts| parts.entries = vec![entry().octets(); 64],
        |parts| parts.extensions = extensions(&[extension(NONCE, "01 01 ff", &[5, 0])]),
        |parts| parts.certificates = h("a0 08 30 06 30 02 05 00 30 00"),
    ];
    for change in changes {
        let both = ["", VERSION].map(|version| {
            with(|parts| {
                change(parts);
                parts.before = h(version);
            })
        });
        for response in &both {
            assert_eq!(write::response(&reading(response)).octets(), *response);
        }
        // With the version written the signed contents are five octets more, at
        // their start, and all else is the same.
        let [plain, written] = both.map(|response| {
            let Span { from, len } = signed_part(&response).expect("it fits");
            contents_of(&response[from..from + len])
        });
        assert_eq!(written, cat(&[&h(VERSION), &plain]));
    }
}

#[test]
fn the_responder_id_stands_after_the_version() {
    for version in ["", VERSION] {
        let response = beginning(version);
        let Span { from, len } = responder_id(&response).expect("it fits");
        assert_eq!(response[from..from + len], parts().responder);
        let signed = signed_part(&response).expect("it fits");
        assert_eq!(from, signed.from + 3 + h(version).len());
    }
}

#[test]
fn the_line_of_the_responder_id() {
    let said = |octets: Vec<u8>| line(&Record::new(RESPONDER_ID, octets)).expect("a line");
    let from = find(&beginning(VERSION), &parts().responder);
    assert_eq!(said(beginning(VERSION)), format!("0 {from} 24"));
    assert_eq!(said(vec![0; 16_385]), "2 0");
    assert_eq!(said(vec![]), "3 0");
    assert_eq!(said(h("30 03 0a 01 04")), "3 2");
    assert_eq!(said(beginning("a003 020101")), format!("3 {}", from - 3));
    assert_eq!(said(h("30 03 0a 01 06")), "4 6");
    assert_eq!(said(envelope("2a03", &[])), "5 0");
}

/// What is counted for one record, in the order of the names.
fn counted(record: &Record) -> Vec<String> {
    let mut counts = Counts::default();
    counts.add(record);
    let lines = counts.text();
    lines.lines().map(|line| line.trim_start().trim_start_matches("1  ").to_string()).collect()
}

#[test]
fn counts_tell_of_the_version() {
    let record = |question: &Question, response: &[u8]| {
        Record::new(DESK, desk::put_together(question, response))
    };
    let desk = |octets: &str| counted(&record(&question(), &beginning(octets)));
    let shown = |octets: &str| counted(&Record::new(RESPONDER_ID, beginning(octets)));
    let placed = |octets: &str| {
        let body = desk::put_together(&question(), &beginning(octets));
        counted(&Record::new(PLACE, body)).pop().expect("a line")
    };
    assert_eq!(desk(""), ["01 desk: good"]);
    assert_eq!(desk(VERSION), ["01 desk: good", "version: written, accepted"]);
    assert_eq!(shown(VERSION), ["09 responder id: shown", "version: written, accepted"]);
    for octets in ["a003 020101", "a004 02020000", "a005 020102 0500"] {
        let line = "version: another, refusal 3 at its INTEGER";
        assert_eq!(placed(octets), line, "{octets}");
        assert_eq!(desk(octets), ["01 desk: refusal  3", line], "{octets}");
        assert_eq!(shown(octets), ["09 responder id: refusal 3", line], "{octets}");
    }
    for octets in ["a000", "a003 0a0100", "a005 020100 0500", "a08103020100", "a002 0201"] {
        let line = "version: misformed, refusal 3";
        assert_eq!(desk(octets), ["01 desk: refusal  3", line], "{octets}");
        assert_eq!(shown(octets), ["09 responder id: refusal 3", line], "{octets}");
    }
    // The version is as it should be, and the misfit is in another element.
    let broken_bits = with(|parts| {
        parts.before = h(VERSION);
        parts.bits = h("0300");
    });
    for response in [beginning("a003020100 a003020100"), broken_bits] {
        let line = "version: written, refusal 3 elsewhere";
        assert_eq!(counted(&record(&question(), &response)), ["01 desk: refusal  3", line]);
    }
    // The layout fits, and the desk refuses for another reason.
    let refused = |change: fn(&mut Question), response: &[u8]| {
        counted(&record(&ask(change), response)).pop().expect("a line")
    };
    let written = beginning(VERSION);
    assert_eq!(refused(|q| q.role = 0, &written), "version: written, refusal  1");
    assert_eq!(refused(|q| q.verdict = 0, &written), "version: written, refusal  6");
    assert_eq!(refused(|q| q.now = 0, &written), "version: written, refusal 15");
    let long = with(|parts| {
        parts.before = h(VERSION);
        parts.bits = tlv(0x03, &[0; 17_000]);
    });
    assert_eq!(refused(|_| {}, &long), "version: written, refusal  2");
    // Another question's fault comes first, and the line says so.
    assert_eq!(refused(|q| q.role = 0, &beginning("a000")), "version: misformed, refusal  1");
    // Another type, a broken envelope, another tag: no line of the version.
    let inner = Parts { before: h(VERSION), ..parts() }.basic();
    for response in [
        envelope("2a03", &inner),
        cat(&[&written, &[0]]),
        beginning("a103 020100"),
        h("30 03 0a 01 06"),
    ] {
        assert_eq!(counted(&record(&question(), &response)).len(), 1);
    }
}
