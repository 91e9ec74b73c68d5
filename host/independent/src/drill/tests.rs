//! Tests of the player: what it prints, and what it cannot read.

use super::words::Complaint;
use super::*;

/// Plays a script that is given as text, and gives the lines between the first one and the last six.
fn played(script: &str) -> Vec<String> {
    let printed = String::from_utf8(play(script.as_bytes())).expect("text");
    let lines: Vec<String> = printed.lines().map(str::to_string).collect();
    assert_eq!(lines[0], transcript::FIELDS);
    lines[1..lines.len() - 6].to_vec()
}

/// A start that is heard by the other cab, and the end of it all.
#[test]
fn a_call() {
    let script = b"a private start identifier=0x1234 callee=2 media=5\nb hears a # and rings not";
    let printed = String::from_utf8(play(script)).expect("text");
    assert_eq!(
        printed,
        "# command cab machine number row before after stopped started running counters call sent untouched\n\
        1 a private 0 R1 P0 P2 - TFP1 TFP1 CFP1=1,CFP3=0,CFP4=0 identifier=4660,caller=1,callee=2,commencement=0,media=5,pck-id=0x00000000 011234000000010000000200040000000500000000 20\n\
        2 b private 0 R20 P0 P5 - TFP4 TFP4 CFP1=0,CFP3=0,CFP4=1 identifier=4660,caller=1,callee=2,commencement=0,media=5,pck-id=0x00000000 031234000000010000000200000005 32\n\
        2 b group 0 - S1 S1 - - - - group=0,identifier=0,type=0,refresh=0,media=0,originator=0,start=0,last-change=0,last-changer=0 - 63\n\
        end a private P2 TFP1 CFP1=1,CFP3=0,CFP4=0 identifier=4660,caller=1,callee=2,commencement=0,media=5,pck-id=0x00000000\n\
        end a group S1 - - group=0,identifier=0,type=0,refresh=0,media=0,originator=0,start=0,last-change=0,last-changer=0\n\
        end b private P5 TFP4 CFP1=0,CFP3=0,CFP4=1 identifier=4660,caller=1,callee=2,commencement=0,media=5,pck-id=0x00000000\n\
        end b group S1 - - group=0,identifier=0,type=0,refresh=0,media=0,originator=0,start=0,last-change=0,last-changer=0\n\
        Private call: neither cab is in a call.\n\
        Group call: neither cab is in a call.\n"
    );
}

/// The reader and the chooser answer with all fields, most of them empty.
#[test]
fn reader_and_chooser() {
    let one = "0800100000000302001e0000000500000007000003e8000003e80000000701";
    let other = one.replace("080010", "080011");
    let script = format!(
        "a hears nothing\na hears 02 ended=no\nb chooses {other} {one}\nb chooses {one},{one}"
    );
    assert_eq!(
        played(&script),
        [
            "1 a reader 3 - - - - - - - - - -".to_string(),
            "2 a reader 1 - - - - - - - - - -".to_string(),
            format!("3 b chooser 0 - - - - - - - {one} - -"),
            "4 b chooser 10 - - - - - - - - - -".to_string(),
        ]
    );
}

/// Every complaint, with the column of its word or of where a word is missing.
#[test]
fn complaints() {
    let cases = [
        ("c settings", 1, Complaint::Cab),
        (" \ta", 4, Complaint::Command),
        ("a #b", 3, Complaint::Command),
        ("a TFP6 expires", 3, Complaint::Command),
        ("a private leave", 11, Complaint::BehindPrivate),
        ("b,group end", 9, Complaint::BehindGroup),
        ("a TFG2 ", 8, Complaint::Expires),
        ("a hears ended=no", 9, Complaint::Line),
        ("a chooses nothing\r", 19, Complaint::Line),
        ("a chooses nothing a", 19, Complaint::NoLineYet(Name::A)),
        ("a hears b 5", 9, Complaint::NoLineYet(Name::B)),
        ("a settings user", 12, Complaint::Name),
        ("a group cleared state=S1", 17, Complaint::Name),
        ("a settings user=1 user=x", 19, Complaint::Twice),
        ("a settings user==1", 12, Complaint::Value),
        ("a settings user=4294967296", 12, Complaint::Value),
        ("a settings CFP1=0x", 12, Complaint::Value),
        ("a group record state=P1", 16, Complaint::Value),
        ("a buffer length=129", 10, Complaint::Value),
    ];
    for (line, column, complaint) in cases {
        let wanted = format!("! line 1, column {column}: {}", complaint.text());
        assert_eq!(played(line), [wanted], "{line:?}");
    }
    assert_eq!(
        played("a settings user=0x00fF CFP1=00000000000003 #user=1"),
        [""; 0]
    );
}

/// Of a script that is too long only whole lines are played.
#[test]
fn long_scripts() {
    let mut script = "#".repeat(MOST - 2) + "\n?";
    assert_eq!(
        played(&script),
        ["! line 2, column 1: a cab was expected, a or b"]
    );
    script += "\n";
    assert_eq!(played(&script), [transcript::TOO_LONG]);
    script = "?\n".repeat(MOST / 2) + "?";
    assert_eq!(played(&script).len(), MOST / 2 + 1);
}
