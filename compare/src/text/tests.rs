//! The model is held to the request's sentences, and the comparison to see each difference.

use super::lines::compare_replies;
use super::made::Lines;
use super::*;
use crate::tally::Tally;

const POLE: &[u8] = b"lgamma_r bff0000000000000";

fn said(text: &[u8]) -> String {
    String::from_utf8(replies(text)).unwrap()
}

fn trip(code: u8, counts: [usize; 3], written: &[u8]) -> Trip {
    Trip {
        code,
        counts,
        written: written.to_vec(),
    }
}

#[test]
fn the_case_of_the_request() {
    let answer = "lgamma_r bff0000000000000 7ff0000000000000 +\n";
    assert_eq!(said(b"lgamma_r bff0000000000000\n"), answer);
    // a last line without its newline counts
    assert_eq!(said(POLE), answer);
}

#[test]
fn a_line_of_every_name() {
    let text = "tgamma 4008000000000000\nlgamma_r 8000000000000000\nerf 0000000000000000\n\
                erfc 0000000000000000\nlgammaf_r 3f800000\nerff 80000000\nerfcf ff800000\n";
    let answers = "tgamma 4008000000000000 4000000000000000\n\
                   lgamma_r 8000000000000000 7ff0000000000000 -\n\
                   erf 0000000000000000 0000000000000000\n\
                   erfc 0000000000000000 3ff0000000000000\n\
                   lgammaf_r 3f800000 00000000 +\n\
                   erff 80000000 80000000\n\
                   erfcf ff800000 40000000\n";
    assert_eq!(said(text.as_bytes()), answers);
}

#[test]
fn a_nan_is_echoed_and_answered_by_one_pattern() {
    let text = b"erf fff0000000000001\nlgammaf_r ffc12345\ntgamma bff0000000000000";
    let answers = "erf fff0000000000001 7ff8000000000000\n\
                   lgammaf_r ffc12345 7fc00000 +\n\
                   tgamma bff0000000000000 7ff8000000000000\n";
    assert_eq!(said(text), answers);
}

#[test]
fn any_other_line_is_bad() {
    let others: [&[u8]; 21] = [
        b"",
        b" ",
        b"\r",
        b"erf",
        b"erf ",
        b"erf 3ff000000000000",
        b"erf 3ff00000000000000",
        b"erf 3FF0000000000000",
        b"Erf 3ff0000000000000",
        b"erf  3ff0000000000000",
        b"erf  3ff000000000000",
        b" erf 3ff0000000000000",
        b"erf 3ff0000000000000 ",
        b"erf 3ff0000000000000\r",
        b"erf\t3ff0000000000000",
        b"erf 3f800000",
        b"erff 3ff0000000000000",
        b"tgammaf 3f800000",
        b"erf_erfc 3ff0000000000000",
        b"erf 3ff000000000000g",
        b"lgamma_r bff00000000000000",
    ];
    for line in others {
        assert_eq!(reply(line), BAD, "{}", shown(line));
        // and the next line is read
        let text = [line, b"\n", POLE].concat();
        assert_eq!(replies(&text), [BAD, &reply(POLE)].concat());
    }
    assert_eq!(
        replies(&[b"x".repeat(100_000), b"\n\n".to_vec()].concat()),
        [BAD, BAD].concat()
    );
}

#[test]
fn the_longest_good_line_has_25_bytes() {
    let lengths = NAMES.iter().map(|name| name.line(0).len());
    assert_eq!(lengths.max(), Some(25));
}

#[test]
fn no_line_is_behind_the_last_newline() {
    assert_eq!(said(b""), "");
    assert_eq!(said(b"\n"), "bad\n");
    assert_eq!(said(b"\n\n"), "bad\nbad\n");
    assert_eq!(said(b"\nx"), "bad\nbad\n");
}

#[test]
fn a_name_is_its_kind() {
    let kinds = crate::kinds::kinds();
    for name in &NAMES {
        let kind = kinds.iter().find(|k| k.number == name.kind).unwrap();
        assert_eq!((kind.name, 2 * kind.body), (name.word, name.digits));
    }
}

#[test]
fn text_to_requests() {
    let text = b"erff 3f800000\nerf 4018000000000000";
    let requests = [19, 0, 0, 0x80, 0x3f, 3, 0, 0, 0, 0, 0, 0, 0x18, 0x40];
    assert_eq!(to_requests(text, 14), trip(0, [2, 34, 14], &requests));
    let first = |code| trip(code, [1, 14, 5], &requests[..5]);
    assert_eq!(to_requests(text, 13), first(3));
    assert_eq!(to_requests(text, 5), first(3));
    assert_eq!(to_requests(text, 4), trip(3, [0; 3], &[]));
    // a bad line stops it, before the room is looked at
    let bad = b"erff 3f800000\nno\nerf 4018000000000000";
    assert_eq!(to_requests(bad, 14), first(1));
    assert_eq!(to_requests(bad, 5), first(1));
    assert_eq!(to_requests(b"\n", 0), trip(1, [0; 3], &[]));
    assert_eq!(to_requests(b"", 0), trip(0, [0; 3], &[]));
}

#[test]
fn requests_to_text() {
    let requests = [19, 0, 0, 0x80, 0x3f, 3, 0, 0, 0, 0, 0, 0, 0x18, 0x40];
    let text = b"erff 3f800000\nerf 4018000000000000\n";
    assert_eq!(to_text(&requests, 35), trip(0, [2, 14, 35], text));
    let first = |code| trip(code, [1, 5, 14], &text[..14]);
    assert_eq!(to_text(&requests, 34), first(3));
    assert_eq!(to_text(&requests[..13], 35), first(2));
    // a kind without a name before a cut record, and that before the room
    assert_eq!(to_text(&requests[..13], 14), first(2));
    assert_eq!(to_text(&[19, 0, 0, 0x80, 0x3f, 18], 14), first(1));
    assert_eq!(to_text(&[], 0), trip(0, [0; 3], &[]));
}

#[test]
fn good_lines_survive_the_trip() {
    let made = Lines::new();
    let random = &mut Random::at(1, 0);
    for _ in 0..200 {
        let text = made.random(random, 20);
        let requests = to_requests(bare(&text), text.len()).written;
        let lines = made::good_front(&text);
        assert_eq!(to_text(&requests, lines.len()).written, lines);
        assert_eq!(crate::stream::program(&requests).last(), Some(&0));
    }
}

#[test]
fn a_talk_is_the_text_at_once() {
    let text = Lines::new().random(&mut Random::at(1, 0), 100);
    let mut heard = Vec::new();
    converse(bare(&text), &mut heard).unwrap();
    assert_eq!(heard, replies(bare(&text)));
}

#[test]
fn each_difference_is_counted() {
    let text = b"lgamma_r bff0000000000000\n\nerff 3f800000";
    let right = replies(text);
    let differ = |got: &[u8]| {
        let mut tally = Tally::default();
        compare_replies(text, got, &mut tally);
        assert_eq!(tally.compared, 4);
        tally.differ
    };
    assert_eq!(differ(&right), 0);
    // the last newline, the last reply, or all are missing
    assert_eq!(differ(bare(&right)), 1);
    assert_eq!(differ(&right[..right.len() - 23]), 1);
    assert_eq!(differ(b""), 3);
    // more than the replies
    assert_eq!(differ(&[&right, b"x".as_slice()].concat()), 1);
    assert_eq!(differ(&[&right, BAD].concat()), 1);
    for at in 0..right.len() {
        let mut other = right.clone();
        other[at] ^= 1;
        assert!(differ(&other) > 0);
    }
}
