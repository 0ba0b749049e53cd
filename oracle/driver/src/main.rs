//! The driver's commands; README.md says what each prints.

use oracle::{blas, claims, dblat1, judge, list};
use std::process::ExitCode;

const USAGE: &str = "usage: oracle run [COUNT [SEED]] | list | dblat1 | differences | blas [COUNT]";

fn main() -> ExitCode {
    // A panic is an answer here; it is not to be shown.
    std::panic::set_hook(Box::new(|_| {}));
    let words: Vec<String> = std::env::args().skip(1).collect();
    let words: Vec<&str> = words.iter().map(String::as_str).collect();
    match obey(&words) {
        Some(true) => ExitCode::SUCCESS,
        Some(false) => ExitCode::FAILURE,
        None => {
            eprintln!("{USAGE}");
            ExitCode::FAILURE
        }
    }
}

/// Whether the command found all as it should be; nothing where it is none.
fn obey(words: &[&str]) -> Option<bool> {
    match words {
        ["run"] => Some(judge::run(1, 400_000).report()),
        ["run", count] => Some(judge::run(1, count.parse().ok()?).report()),
        ["run", count, seed] => Some(judge::run(seed.parse().ok()?, count.parse().ok()?).report()),
        ["list"] => Some(print(&list::lines())),
        ["differences"] => Some(claims::report()),
        ["dblat1"] => Some(print(&dblat1::lines())),
        ["blas"] => against(100_000),
        ["blas", count] => against(count.parse().ok()?),
        _ => None,
    }
}

fn print(lines: &[String]) -> bool {
    lines.iter().for_each(|line| println!("{line}"));
    true
}

/// Reference BLAS, whose path REFERENCE_BLAS has, beside the definitions.
fn against(count: u64) -> Option<bool> {
    let path = std::env::var("REFERENCE_BLAS").unwrap_or_default();
    let Some(library) = blas::Library::open(&path) else {
        eprintln!("no BLAS at REFERENCE_BLAS={path}");
        return Some(false);
    };
    let known = blas::differences(&library);
    let differ = blas::differing(&library, count);
    println!("{count} cases of axpy, gemv and ger, {differ} differ from {path}");
    Some(known && differ == 0)
}
