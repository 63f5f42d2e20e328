//! Tests from outside: an independent reading of document 01, as document 02 amends it, that
//! shares nothing with crates/.

mod answer;
mod builder;
mod calls;
mod corpus;
mod cycle_calls;
mod cycles;
mod damage;
mod delays;
mod evaluation;
mod flows;
mod forwarding;
mod judge;
#[cfg(test)]
mod networks;
mod planner;
mod plans;
mod random;
mod runner;
mod runs;
mod shrink;
mod table;
mod text;
mod traffic;
mod trd;

use runner::Program;
use std::io::{Read, Write};
use std::process::ExitCode;

const USAGE: &str = "usage: outside planner PROGRAM..
       outside calls
       outside evaluation [--planner PROGRAM..]
       outside reference";

/// The reference planner as a program, to try the harness on.
fn reference() -> std::io::Result<()> {
    let mut text = Vec::new();
    std::io::stdin().read_to_end(&mut text)?;
    std::io::stdout().write_all(&builder::reference(&text))
}

fn print(lines: &str) -> ExitCode {
    ended(std::io::stdout().write_all(lines.as_bytes()).is_ok())
}

fn ended(well: bool) -> ExitCode {
    if well {
        ExitCode::SUCCESS
    } else {
        ExitCode::FAILURE
    }
}

fn main() -> ExitCode {
    let arguments: Vec<String> = std::env::args().skip(1).collect();
    let words: Vec<&str> = arguments.iter().map(String::as_str).collect();
    match words[..] {
        ["planner", _, ..] => {
            let program = Program(arguments[1..].to_vec());
            ended(planner::run(&program, &corpus::sections()))
        }
        ["calls"] => print(&calls::lines()),
        ["evaluation"] => ended(evaluation::run(None)),
        ["evaluation", "--planner", _, ..] => {
            let program = Program(arguments[2..].to_vec());
            ended(evaluation::run(Some(&program)))
        }
        ["reference"] => ended(reference().is_ok()),
        _ => {
            eprintln!("{USAGE}");
            ExitCode::from(2)
        }
    }
}
