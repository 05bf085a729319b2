//! Checks a list that was made elsewhere: `cargo run --example check -- SURVEY LIST [S L | four]`.
//!
//! Prints `yes` if the file LIST is, byte for byte, the catalogue of the file SURVEY with threshold S and size limit L, the usual 2 and 6 where none
//! are given; `no` if it is not; or the refusal, as in `refused 18: the length of a list is no multiple of 43`. The word `four` is for the
//! list of at most four cables, which were usual before. The exit status is 0, 1 or 2, and 3 where nothing could be asked. From the folder of
//! this crate:
//!
//!     cargo run --example check -- ../../examples/cranes.survey ../../examples/cranes.list
use holvreiz::SurveyRefusal;
use std::fs;
use std::io;
use std::process::ExitCode;

/// The settings of the catalogue that a list is held against.
enum Settings {
    Usual,
    Four,
    Given { threshold: u32, limit: u32 },
}

/// What is asked for: two files, and the settings.
struct Asked {
    survey: String,
    list: String,
    settings: Settings,
}

fn settings(words: &[String]) -> Option<Settings> {
    Some(match words {
        [] => Settings::Usual,
        [word] if word == "four" => Settings::Four,
        [s, limit] => Settings::Given {
            threshold: s.parse().ok()?,
            limit: limit.parse().ok()?,
        },
        _ => return None,
    })
}

fn asked(words: &[String]) -> Option<Asked> {
    let [survey, list, rest @ ..] = words else {
        return None;
    };
    Some(Asked {
        survey: survey.clone(),
        list: list.clone(),
        settings: settings(rest)?,
    })
}

fn check(asked: &Asked) -> io::Result<Result<bool, SurveyRefusal>> {
    let (survey, list) = (fs::read(&asked.survey)?, fs::read(&asked.list)?);
    Ok(match asked.settings {
        Settings::Usual => holvreiz::check_usual(&survey, &list),
        Settings::Four => holvreiz::check_four(&survey, &list),
        Settings::Given { threshold, limit } => {
            holvreiz::check_list(&survey, threshold, limit, &list)
        }
    })
}

fn main() -> ExitCode {
    let words: Vec<String> = std::env::args().skip(1).collect();
    let Some(asked) = asked(&words) else {
        eprintln!("check SURVEY LIST [S L | four]");
        return ExitCode::from(3);
    };
    let (text, status) = match check(&asked) {
        Ok(Ok(true)) => ("yes".to_string(), 0),
        Ok(Ok(false)) => ("no".to_string(), 1),
        Ok(Err(refused)) => (refused.to_string(), 2),
        Err(failed) => {
            eprintln!("check: {failed}");
            return ExitCode::from(3);
        }
    };
    println!("{text}");
    ExitCode::from(status)
}
