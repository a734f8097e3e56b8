//! What the gate replays without the Rust, held to the Rust: the list of the program `leaves`, the streams of
//! the program `answers`, the texts of the program `lines`, and the questions to the program `trip`.

use crate::leaves::{answer_bytes, told_bytes};
use crate::port::{failure, repository};
use crate::stream;
use crate::tally::Tally;
use crate::text;
use std::fs;
use std::io;
use std::path::{Path, PathBuf};

pub fn compare() -> io::Result<u8> {
    let here = repository()?;
    let mut tally = Tally::default();
    list(&here, &mut tally)?;
    let own = here.join("crates/answers");
    let mut streams = cases(&here, "requests", "answers")?;
    streams.push((own.join("stdin"), own.join("stdout")));
    for (requests, answers) in streams {
        stream::compare(&read(&requests)?, &read(&answers)?, &mut tally);
    }
    let own = here.join("crates/lines");
    let mut texts = cases(&here, "text", "replies")?;
    texts.push((own.join("stdin"), own.join("stdout")));
    for (text, replies) in texts {
        text::compare_replies(&read(&text)?, &read(&replies)?, &mut tally);
    }
    let own = here.join("crates/trip");
    let (questions, answers) = (read(&own.join("stdin"))?, read(&own.join("stdout"))?);
    tally.count(text::tripped(&questions) == answers, || {
        "crates/trip: other answers are stored than the model has".to_string()
    });
    Ok(tally.finish())
}

fn read(path: &Path) -> io::Result<Vec<u8>> {
    fs::read(path).map_err(|e| failure(format!("{}: {e}", path.display())))
}

/// The list of questions to single leaves.
fn list(here: &Path, tally: &mut Tally) -> io::Result<()> {
    let requests = read(&here.join("crates/leaves/stdin"))?;
    let answers = read(&here.join("crates/leaves/stdout"))?;
    let mut stored = answers.chunks(8);
    for request in requests.chunks_exact(24) {
        let (port, rust) = (stored.next().unwrap_or(&[]), answer_bytes(request));
        tally.count(port == rust, || {
            let told = told_bytes(request, port, &rust);
            format!("question {request:02x?}: stored {port:02x?}, worked out {rust:02x?}{told}")
        });
    }
    tally.count(stored.next().is_none(), || {
        "more answers are stored than questions".to_string()
    });
    Ok(())
}

/// The pairs of cases/ whose files end so, in the order of their names.
fn cases(here: &Path, asked: &str, answered: &str) -> io::Result<Vec<(PathBuf, PathBuf)>> {
    let mut all = Vec::new();
    let cases = here.join("cases");
    let folder = fs::read_dir(&cases);
    for entry in folder.map_err(|e| failure(format!("{}: {e}", cases.display())))? {
        let path = entry?.path();
        if path.extension().is_some_and(|e| e == asked) {
            all.push((path.clone(), path.with_extension(answered)));
        }
    }
    all.sort();
    Ok(all)
}
