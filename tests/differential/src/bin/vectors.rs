//! Writes what the program `vectors` reads, or what it has to print: `vectors stdin`, `vectors stdout`; or what the program `book` has to
//! print: `vectors book A B LIMIT`; or the usual catalogue of the survey on standard input, as a list: `vectors list`; or the one that was usual
//! before: `vectors former`.
use holvreiz_differential::catalogue::{self, Codes, FORMER, USUAL};
use holvreiz_differential::{book, vectors};
use std::io::{self, Read, Write};
use std::process::ExitCode;

/// The text of a book, if three numbers ask for it.
fn book_text(settings: &[String]) -> Option<Vec<u8>> {
    let numbers: Option<Vec<u32>> = settings.iter().map(|word| word.parse().ok()).collect();
    match numbers?[..] {
        [a, b, limit] => Some(book::text(a, b, limit).into_bytes()),
        _ => None,
    }
}

/// The list of an accepted survey.
fn list(settings: [u32; 2]) -> Option<Vec<u8>> {
    let mut survey = Vec::new();
    io::stdin().read_to_end(&mut survey).ok()?;
    let entries = Codes::default().of_survey(&survey, settings).ok()?;
    Some(catalogue::bytes(&entries))
}

fn asked(words: &[String]) -> Option<Vec<u8>> {
    match words.split_first() {
        Some((word, [])) if word == "stdin" => Some(vectors::list().calls().to_vec()),
        Some((word, [])) if word == "stdout" => Some(vectors::list().text().as_bytes().to_vec()),
        Some((word, settings)) if word == "book" => book_text(settings),
        Some((word, [])) if word == "list" => list(USUAL),
        Some((word, [])) if word == "former" => list(FORMER),
        _ => None,
    }
}

fn main() -> ExitCode {
    let words: Vec<String> = std::env::args().skip(1).collect();
    let Some(bytes) = asked(&words) else {
        eprintln!("vectors stdin | stdout | book A B LIMIT | list <SURVEY | former <SURVEY");
        return ExitCode::FAILURE;
    };
    match io::stdout().write_all(&bytes) {
        Ok(()) => ExitCode::SUCCESS,
        Err(_) => ExitCode::FAILURE,
    }
}
