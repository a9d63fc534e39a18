//! The Rust as judge: lobster 0.7.0, unchanged, and the proved library answer the same orders, and all that both answer is
//! compared. `./run help` lists what can be asked for.

extern crate lobster;
extern crate lobster_checked;

#[cfg(before)]
mod before;
mod bench;
mod books;
mod check;
mod damage;
mod examples;
mod gaps;
mod histories;
mod judge;
mod layout;
mod plain;
mod plot;
mod random;
mod refused;
mod script;
mod shapes;
mod step;
mod stored;
mod tapes;
mod whole;

use std::path::{Path, PathBuf};
use std::process::ExitCode;

const HELP: &str = "\
compare [quick]                      some seconds of everything below but speed; exit status above 0 on any difference
compare histories [--orders N] [--seed S] [--shape NAME [--history K]] [--threads T]
                                     random histories; N counts compared steps over all shapes
compare tapes [--orders N] [--seed S] [--shape NAME [--history K]]
                                     random histories as tapes through the program felavuti, its text against lobster's answers
compare refused [--rounds N] [--seed S]
                                     refused calls: short buffers, damaged books, wrong lengths
compare whole [--books N] [--seed S]
                                     is it whole?: N good books of each small size and their damage
compare stored (--out DIR | --check DIR)
                                     the fixed orders (DIR/stdin) and lobster's answers to them (DIR/stdout);
                                     those of crates/replay are written and checked with them
compare examples                     document 01's own examples
compare gaps                         where lobster's comments and its behaviour differ, by running
compare bench [--out DIR] [--orders N] [--repetitions R]
                                     speed: bench.md, growth.csv and plots
compare bench check [--repetitions R]
                                     speed of the check of a whole book alone
compare bench quotes [--repetitions R]
                                     what a quote costs beside the check
compare bench before [--repetitions R]
                                     the check and the quotes of an older library, which FELAVUTI_BEFORE names, and of this one, in turn
compare bench tapes [--orders N] [--repetitions R]
                                     speed of the program felavuti on tapes
compare plot DIR                     the plots again, from DIR/growth.csv
compare try 'limit ask 1 10 105; market bid 2 5; depth 1'
                                     lobster and ours on a script of your own
compare shapes                       the shapes of histories";

/// The value after a word, if the word is there.
fn option<'a>(words: &'a [String], name: &str) -> Option<&'a str> {
    words.iter().position(|word| word == name).and_then(|at| words.get(at + 1)).map(String::as_str)
}

fn number(words: &[String], name: &str, usual: u64) -> Result<u64, String> {
    match option(words, name) {
        None => Ok(usual),
        Some(text) => text.replace(['_', ','], "").parse().map_err(|_| format!("{name} wants a number, not {text}")),
    }
}

fn histories_plan(words: &[String], orders: u64) -> Result<histories::Plan, String> {
    let shape = option(words, "--shape");
    Ok(histories::Plan {
        seed: number(words, "--seed", 1)?,
        orders: number(words, "--orders", orders)?,
        shapes: histories::chosen(shape).ok_or("no such shape: see `compare shapes`")?,
        history: option(words, "--history").map(|_| number(words, "--history", 0)).transpose()?,
        threads: number(words, "--threads", 1)? as usize,
    })
}

/// The program that replays lobster's answers inside the gate, with the orders and answers stored beside it.
const REPLAY: &str = concat!(env!("CARGO_MANIFEST_DIR"), "/../crates/replay");

/// Everything, for some seconds.
fn quick(words: &[String]) -> Result<bool, String> {
    stored::run(REPLAY.as_ref(), true)?;
    let examples = examples::run();
    let histories = histories::run(&histories_plan(words, 220_000)?);
    let tapes = tapes::run(&histories_plan(words, 200_000)?)?;
    let refused = refused::run(number(words, "--seed", 1)?, 2_000);
    let whole = check::run(number(words, "--seed", 1)?, 200);
    let gaps = gaps::run(true);
    Ok(examples && histories && tapes && refused && whole && gaps)
}

fn bench_folder(words: &[String]) -> Result<PathBuf, String> {
    if let Some(folder) = option(words, "--out") {
        return Ok(folder.into());
    }
    let program = std::env::current_exe().map_err(|error| error.to_string())?;
    Ok(program.parent().unwrap_or(Path::new(".")).join("bench"))
}

/// Whether all is well.
fn done(words: &[String]) -> Result<bool, String> {
    match words.first().map(String::as_str) {
        None | Some("quick") => quick(words),
        Some("histories") => Ok(histories::run(&histories_plan(words, 1_000_000)?)),
        Some("tapes") => tapes::run(&histories_plan(words, 1_000_000)?),
        Some("refused") => Ok(refused::run(number(words, "--seed", 1)?, number(words, "--rounds", 20_000)?)),
        Some("whole") => Ok(check::run(number(words, "--seed", 1)?, number(words, "--books", 500)?)),
        Some("examples") => Ok(examples::run()),
        Some("gaps") => Ok(gaps::run(false)),
        Some("stored") => match (option(words, "--out"), option(words, "--check")) {
            (Some(folder), None) => stored::run(folder.as_ref(), false).map(|()| true),
            (None, Some(folder)) => stored::run(folder.as_ref(), true).map(|()| true),
            _ => Err("stored wants --out DIR or --check DIR".into()),
        },
        Some("bench") => {
            let orders = number(words, "--orders", 100_000)? as usize;
            let repetitions = number(words, "--repetitions", 7)? as usize;
            let plan = bench::Plan { orders, repetitions };
            match words.get(1).map(String::as_str) {
                Some("check") => print!("{}", bench::checks(40 * repetitions)),
                Some("quotes") => print!("{}", bench::quotes(40 * repetitions)),
                #[cfg(before)]
                Some("before") => before::run(40 * repetitions),
                #[cfg(not(before))]
                Some("before") => return Err("FELAVUTI_BEFORE must name the folder of an older libffi.a".into()),
                Some("tapes") => print!("{}", bench::of_tapes(&plan)?),
                _ => bench::run(&plan, &bench_folder(words)?)?,
            }
            Ok(true)
        }
        Some("plot") => plot::run(words.get(1).ok_or("plot wants a folder")?.as_ref()).map(|()| true),
        Some("try") => script::run(words.get(1).ok_or("try wants a script")?).map(|()| true),
        Some("shapes") => {
            shapes::SHAPES.iter().for_each(|shape| println!("{:16} {:>5} steps  {}", shape.name, shape.length, shape.about));
            Ok(true)
        }
        Some("help") => {
            println!("{HELP}");
            Ok(true)
        }
        Some(other) => Err(format!("no such command: {other}\n{HELP}")),
    }
}

fn main() -> ExitCode {
    let words: Vec<String> = std::env::args().skip(1).collect();
    match done(&words) {
        Ok(true) => ExitCode::SUCCESS,
        Ok(false) => ExitCode::from(1),
        Err(what) => {
            eprintln!("compare: {what}");
            ExitCode::from(2)
        }
    }
}
