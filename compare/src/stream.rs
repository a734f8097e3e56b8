//! The request stream answered by libm: one byte of kind and the argument's bits, the lowest byte
//! first; the batch with its room, and the form of the program `answers`.

use crate::distance;
use crate::kinds::{kinds, Kind};
use crate::leaves::{bits_of, bits_of_f32};
use crate::patterns::Width;
use crate::tally::Tally;
use std::sync::OnceLock;

/// What a batch reports.
#[derive(Debug, PartialEq)]
pub struct Report {
    pub code: u8,
    pub records: usize,
    pub read: usize,
    pub written: usize,
}

/// What stands behind the first byte of an answer, from the argument's bits.
type Function = fn(u64) -> Vec<u8>;

/// A kind, with its answers.
struct Row {
    kind: &'static Kind,
    function: Function,
}

/// The libm function of a name in kinds.txt, or the two of erf_erfc.
fn function(name: &str) -> Option<Function> {
    Some(match name {
        "tgamma" => |b| double(libm::tgamma(f64::from_bits(b))),
        "lgamma_r" => |b| {
            let (value, sign) = libm::lgamma_r(f64::from_bits(b));
            with_sign(double(value), sign)
        },
        "erf" => |b| double(libm::erf(f64::from_bits(b))),
        "erfc" => |b| double(libm::erfc(f64::from_bits(b))),
        "erf_erfc" => |b| {
            let x = f64::from_bits(b);
            [double(libm::erf(x)), double(libm::erfc(x))].concat()
        },
        "lgammaf_r" => |b| {
            let (value, sign) = libm::lgammaf_r(f32::from_bits(b as u32));
            with_sign(single(value), sign)
        },
        "tgammaf" => |b| single(libm::tgammaf(f32::from_bits(b as u32))),
        "erff" => |b| single(libm::erff(f32::from_bits(b as u32))),
        "erfcf" => |b| single(libm::erfcf(f32::from_bits(b as u32))),
        _ => return None,
    })
}

fn double(value: f64) -> Vec<u8> {
    bits_of(value).to_le_bytes().to_vec()
}

fn single(value: f32) -> Vec<u8> {
    bits_of_f32(value).to_le_bytes().to_vec()
}

fn with_sign(mut bytes: Vec<u8>, sign: i32) -> Vec<u8> {
    bytes.push(if sign < 0 { 255 } else { 1 });
    bytes
}

/// The rows of kinds.txt by the first byte of a request.
fn row(number: u8) -> Option<&'static Row> {
    static ROWS: OnceLock<Vec<Option<Row>>> = OnceLock::new();
    let rows = ROWS.get_or_init(|| {
        let mut rows: Vec<Option<Row>> = (0..256).map(|_| None).collect();
        for kind in kinds() {
            let function = function(kind.name)
                .unwrap_or_else(|| panic!("no function for kinds.txt's {}", kind.name));
            rows[usize::from(kind.number)] = Some(Row { kind, function });
        }
        rows
    });
    rows[usize::from(number)].as_ref()
}

/// The kind of a request's first byte, where it is known.
pub fn kind_of(number: u8) -> Option<&'static Kind> {
    row(number).map(|row| row.kind)
}

/// The whole records that stand at the front, each with its kind.
pub fn records(requests: &[u8]) -> impl Iterator<Item = (&'static Kind, &[u8])> {
    let mut rest = requests;
    std::iter::from_fn(move || {
        let kind = kind_of(*rest.first()?)?;
        let record = rest.get(..kind.request_length())?;
        rest = &rest[record.len()..];
        Some((kind, record))
    })
}

/// The answer to a whole record.
fn answer(row: &Row, record: &[u8]) -> Vec<u8> {
    let mut bits = [0; 8];
    bits[..row.kind.body].copy_from_slice(&record[1..]);
    let mut answer = vec![record[0] + 128];
    answer.extend((row.function)(u64::from_le_bytes(bits)));
    answer
}

/// The answer to a whole record, where its kind is known.
pub fn answer_to(record: &[u8]) -> Option<Vec<u8>> {
    Some(answer(row(*record.first()?)?, record))
}

/// Answers whole records from the front of the requests, while the answers have room.
pub fn batch(requests: &[u8], answers: &mut [u8]) -> Report {
    let mut report = Report {
        code: 0,
        records: 0,
        read: 0,
        written: 0,
    };
    while let Some(&number) = requests.get(report.read) {
        let Some(row) = row(number) else {
            return Report { code: 1, ..report };
        };
        let Some(record) = requests[report.read..].get(..row.kind.request_length()) else {
            return Report { code: 2, ..report };
        };
        let answer = answer(row, record);
        match answers[report.written..].get_mut(..answer.len()) {
            Some(room) => room.copy_from_slice(&answer),
            None => return Report { code: 3, ..report },
        }
        report.records += 1;
        report.read += record.len();
        report.written += answer.len();
    }
    report
}

/// What the program writes: the answers, byte 255 and the stop code.
pub fn program(requests: &[u8]) -> Vec<u8> {
    let room = records(requests).map(|(kind, _)| kind.answer_length());
    let mut answers = vec![0; room.sum()];
    let report = batch(requests, &mut answers);
    answers.extend([255, report.code]);
    answers
}

/// How an answer that differs from the Rust's does so, in words: how far apart the values are, or that what
/// stands behind them is another. Nothing where its first byte or its length is.
fn told(kind: &Kind, port: &[u8], rust: &[u8]) -> String {
    if port.len() != rust.len() || port[0] != rust[0] {
        return String::new();
    }
    let bits = |bytes: &[u8]| bytes.iter().rev().fold(0, |n, &b| n << 8 | u64::from(b));
    let (mut words, mut at) = (String::new(), 1);
    for &bytes in &kind.values {
        let value = at..at + bytes;
        let (port, rust) = (bits(&port[value.clone()]), bits(&rust[value.clone()]));
        let width = if bytes == 8 {
            Width::Double
        } else {
            Width::Single
        };
        words += &distance::told(width, port, rust);
        at = value.end;
    }
    if port[at..] != rust[at..] {
        words += &format!(", another {}", kind.tail.join(" or "));
    }
    words
}

/// Compares what the port wrote for a stream with what the Rust answers, record by record, and the end
/// behind them.
pub fn compare(requests: &[u8], got: &[u8], tally: &mut Tally) {
    let want = program(requests);
    let (mut read, mut written) = (0, 0);
    for (kind, request) in records(requests) {
        let end = written + kind.answer_length();
        let answer = &want[written..end];
        let port = got.get(written..end).unwrap_or(&[]);
        tally.count(port == answer, || {
            let told = told(kind, port, answer);
            format!("request {request:02x?}: port {port:02x?}, Rust {answer:02x?}{told}")
        });
        read += request.len();
        written = end;
    }
    let (port, rust) = (got.get(written..).unwrap_or(&[]), &want[written..]);
    tally.count(port == rust, || {
        let front = &requests[read..requests.len().min(read + 9)];
        format!("end of a stream at {front:02x?}: port {port:02x?}, Rust {rust:02x?}")
    });
}

#[cfg(test)]
mod tests {
    use super::*;

    const CASE: [u8; 18] = [
        0x03, 0, 0, 0, 0, 0, 0, 0x18, 0x40, 0x02, 0, 0, 0, 0, 0, 0, 0xf0, 0x3f,
    ];
    const CASE_ANSWER: [u8; 21] = [
        0x83, 0, 0, 0, 0, 0, 0, 0xf0, 0x3f, 0x82, 0, 0, 0, 0, 0, 0, 0, 0, 0x01, 0xff, 0x00,
    ];

    /// A record of each kind at -2.5, and where each ends in the requests and in the answers.
    fn mixed() -> (Vec<u8>, Vec<(usize, usize)>) {
        let (mut requests, mut ends, mut written) = (Vec::new(), Vec::new(), 0);
        for kind in kinds() {
            requests.push(kind.number);
            match kind.body {
                8 => requests.extend((-2.5f64).to_bits().to_le_bytes()),
                _ => requests.extend((-2.5f32).to_bits().to_le_bytes()),
            }
            written += kind.answer_length();
            ends.push((requests.len(), written));
        }
        (requests, ends)
    }

    fn report(code: u8, records: usize, read: usize, written: usize) -> Report {
        Report {
            code,
            records,
            read,
            written,
        }
    }

    #[test]
    fn the_whole_case() {
        assert_eq!(program(&CASE), CASE_ANSWER);
    }

    #[test]
    fn eighteen_bytes_of_room() {
        let mut answers = [7; 18];
        assert_eq!(batch(&CASE, &mut answers), report(3, 1, 9, 9));
        assert_eq!(answers[..9], CASE_ANSWER[..9]);
        assert_eq!(answers[9..], [7; 9]);
    }

    #[test]
    fn how_far_apart() {
        let kind = kind_of(2).unwrap();
        let answer = &CASE_ANSWER[9..19];
        let mut other = answer.to_vec();
        other[1] = 3;
        assert_eq!(told(kind, &other, answer), ", 3 steps apart");
        other[9] = 255;
        assert_eq!(told(kind, &other, answer), ", 3 steps apart, another sign");
        other[1..9].copy_from_slice(&(1u64 << 63 | 2).to_le_bytes());
        assert_eq!(told(kind, &other, answer), ", 2 steps apart, another sign");
        assert_eq!(told(kind, &[], answer), "");
    }

    #[test]
    fn empty() {
        assert_eq!(batch(&[], &mut []), report(0, 0, 0, 0));
        assert_eq!(program(&[]), [255, 0]);
    }

    #[test]
    fn an_answer_is_as_long_as_its_row_says() {
        for kind in kinds() {
            let row = row(kind.number).unwrap();
            let record = vec![kind.number; kind.request_length()];
            let answer = answer(row, &record);
            assert_eq!(answer.len(), kind.answer_length(), "{}", kind.name);
            assert_eq!(answer[0], kind.number + 128);
        }
    }

    #[test]
    fn cut_at_each_length() {
        let (requests, ends) = mixed();
        for end in 0..=requests.len() {
            let records = ends.iter().filter(|(read, _)| *read <= end).count();
            let (read, written) = records.checked_sub(1).map_or((0, 0), |last| ends[last]);
            let code = if read == end { 0 } else { 2 };
            assert_eq!(
                batch(&requests[..end], &mut vec![0; 2 * requests.len()]),
                report(code, records, read, written)
            );
            assert_eq!(super::records(&requests[..end]).count(), records);
        }
    }

    #[test]
    fn unknown_kind_is_tested_first() {
        for kind in (0..=255).filter(|&k| kind_of(k).is_none()) {
            let mut requests = CASE.to_vec();
            requests.push(kind);
            assert_eq!(batch(&requests, &mut [0; 19]), report(1, 2, 18, 19));
            assert_eq!(batch(&[kind], &mut []), report(1, 0, 0, 0));
        }
        for kind in [0, 200] {
            assert!(kind_of(kind).is_none());
        }
        // an incomplete body before the room
        assert_eq!(batch(&[1, 0], &mut []), report(2, 0, 0, 0));
    }

    #[test]
    fn never_half_an_answer() {
        let (requests, ends) = mixed();
        let whole = program(&requests);
        for room in 0..=whole.len() {
            let mut answers = vec![7; room];
            let got = batch(&requests, &mut answers);
            let records = ends.iter().filter(|(_, written)| *written <= room).count();
            let (read, written) = records.checked_sub(1).map_or((0, 0), |last| ends[last]);
            let code = if records == ends.len() { 0 } else { 3 };
            assert_eq!(got, report(code, records, read, written));
            assert_eq!(answers[..written], whole[..written]);
            assert!(answers[written..].iter().all(|&b| b == 7));
        }
    }

    #[test]
    fn signs_and_nans() {
        // lgamma_r(-0) = (+inf, -1)
        let minus_zero = [2, 0, 0, 0, 0, 0, 0, 0, 0x80];
        assert_eq!(program(&minus_zero)[7..10], [0xf0, 0x7f, 255]);
        // tgamma(-1) = NaN, by its one pattern
        let minus_one = [1, 0, 0, 0, 0, 0, 0, 0xf0, 0xbf];
        assert_eq!(
            program(&minus_one)[1..9],
            0x7ff8_0000_0000_0000u64.to_le_bytes()
        );
    }
}
