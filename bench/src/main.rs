//! The proved calls beside a version written by hand: the same answers, and how long each takes.
mod alike;
mod inspection;
mod linked;
mod plain;
mod timing;

use std::process::ExitCode;

/// `alike` compares answers alone; the path of the program `inspect` has times measured too.
fn main() -> ExitCode {
    let word = std::env::args().nth(1).expect("alike, or the path of inspect");
    alike::compare();
    if word == "alike" {
        return ExitCode::SUCCESS;
    }
    println!();
    let kept = timing::table();
    println!();
    inspection::table(&word);
    if kept { ExitCode::SUCCESS } else { ExitCode::FAILURE }
}
