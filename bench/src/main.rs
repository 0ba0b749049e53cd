//! Times the calls by all sides in one run. See README.md.

mod calls;
mod plain;
mod script;
mod time;

#[cfg(konsjift)]
#[path = "../../bindings/rust/konsjift.rs"]
mod konsjift;

use oracle::blas::{Calls, Library};
use std::fmt::Write;
use std::process::ExitCode;
use time::{take, Side, Taken};

const ROWS: [usize; 5] = [2, 10, 100, 1_000, 10_000];
const LANES: [usize; 2] = [1, 64];
const SCRIPT_ROWS: [usize; 3] = [2, 10, 100];

fn main() -> ExitCode {
    let rounds = variable("ROUNDS").parse().unwrap_or(11);
    let batch = variable("BATCH_MICROSECONDS").parse().unwrap_or(2_000.0) * 1e3;
    let open = Library::open(&variable("OPENBLAS"));
    let reference = Library::open(&variable("REFERENCE_BLAS"));
    let [open, reference] = [open, reference].map(|found| found.map(|found| Calls::wide(&found)));
    let blas = [
        (Side::OpenBlas, open.as_ref()),
        (Side::Reference, reference.as_ref()),
    ];
    // All calls, or those whose names begin with what is asked for.
    let asked = variable("CALL");
    let mut taken = vec![];
    for rows in ROWS {
        for lanes in LANES {
            let all = calls::rows(rows, lanes, &blas).into_iter();
            for row in all.filter(|row| row.call.starts_with(&asked)) {
                taken.push(take(row, rounds, batch));
            }
        }
    }
    if script::NAME.starts_with(&asked) {
        for rows in SCRIPT_ROWS {
            taken.push(take(script::row(rows), rounds, batch));
        }
    }
    // Calls stand together, sizes in order.
    taken.sort_by_key(|taken| {
        let place = calls::NAMES.iter().position(|name| *name == taken.call);
        (place, taken.lanes, taken.rows)
    });
    let text = page(&taken, rounds);
    print!("{text}");
    match std::env::args().nth(1) {
        None => ExitCode::SUCCESS,
        Some(_) if !cfg!(konsjift) || !asked.is_empty() => {
            eprintln!("nothing is written of a run without the library, or of some calls only");
            ExitCode::FAILURE
        }
        Some(path) => match std::fs::write(&path, text) {
            Ok(()) => ExitCode::SUCCESS,
            Err(error) => {
                eprintln!("{path}: {error}");
                ExitCode::FAILURE
            }
        },
    }
}

fn variable(name: &str) -> String {
    std::env::var(name).unwrap_or_default()
}

/// The page of results.
fn page(taken: &[Taken], rounds: usize) -> String {
    let mut text = "# Benchmarks\n\n".to_string();
    let about = variable("ABOUT");
    writeln!(text, "Written by bench/run.sh. {about}\n").unwrap();
    let ratios = if cfg!(konsjift) {
        " and, in brackets, how many times as long konsjift took"
    } else {
        ""
    };
    writeln!(
        text,
        "Nanoseconds of one call on f64{ratios}: the median of {rounds} rounds, in which the sides \
         take turns. Tables have 8 columns; \
         mul_cols_by takes 6 of them, update_backward_diff has order 3. The Rust is diffsol-la's, \
         over the stand-in for nalgebra that oracle/ has.\n"
    )
    .unwrap();
    let ran: Vec<Side> = Side::ALL
        .into_iter()
        .filter(|side| taken.iter().any(|row| row.of(*side).is_some()))
        .collect();
    let names: Vec<_> = ran.iter().map(|side| side.name()).collect();
    writeln!(text, "| call | lanes | rows | {} |", names.join(" | ")).unwrap();
    writeln!(text, "|---|---:|---:|{}", "---:|".repeat(ran.len())).unwrap();
    for row in taken {
        write!(text, "| {} | {} | {} |", row.call, row.lanes, row.rows).unwrap();
        for side in &ran {
            match row.of(*side) {
                None => text += " |",
                Some((time, ratio)) if *side != Side::Konsjift && cfg!(konsjift) => {
                    write!(text, " {time:.1} ({ratio:.2}) |").unwrap()
                }
                Some((time, _)) => write!(text, " {time:.1} |").unwrap(),
            }
        }
        text += "\n";
    }
    if cfg!(konsjift) {
        text += &misses(taken);
    }
    text
}

/// The rows that miss what is aimed at.
fn misses(taken: &[Taken]) -> String {
    let most = |side: Side, rows: usize| match side {
        Side::Plain => Some(1.05),
        Side::Rust => Some(1.00),
        Side::OpenBlas if rows <= 100 => Some(1.00),
        _ => None,
    };
    let text = "\nAimed at: at most 1.05 of plain loops, 1.00 of the Rust, and 1.00 of OpenBLAS \
                    up to 100 rows. "
        .to_string();
    let mut missed = vec![];
    for row in taken {
        for side in Side::ALL {
            if let (Some(most), Some((_, ratio))) = (most(side, row.rows), row.of(side)) {
                // What the table shows is what counts.
                if (ratio * 100.0).round() / 100.0 > most {
                    let (call, lanes, rows) = (row.call, row.lanes, row.rows);
                    let side = side.name();
                    missed.push(format!(
                        "- {call}, {lanes} lanes, {rows} rows: {ratio:.2} of {side}\n"
                    ));
                }
            }
        }
    }
    if missed.is_empty() {
        return text + "No row misses it.\n";
    }
    text + "Missed by:\n\n" + &missed.concat()
}
