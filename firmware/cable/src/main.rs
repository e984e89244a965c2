//! Pulls the cable at every moment and prints a page about it; with `--seed NUMBER` plays one run
//! of each exchange instead. Fails if a claim on the page does not hold.

#![forbid(unsafe_code)]

use std::process::ExitCode;

use cable::driver::Answer;
use cable::exchange::{Direction, Exchange, CARD};
use cable::explore::{explore, Found};
use cable::page::Page;
use cable::space::{Action, Space};
use cable::walk::walk;
use huskerivory::{Ack, Error};

fn main() -> ExitCode {
    let arguments: Vec<String> = std::env::args().skip(1).collect();
    let printed = match arguments.as_slice() {
        [] => print_page(),
        [option, seed] if option == "--seed" => match seed.parse() {
            Ok(seed) => print_runs(seed),
            Err(_) => return usage(),
        },
        _ => return usage(),
    };
    match printed {
        Ok(true) => ExitCode::SUCCESS,
        Ok(false) => ExitCode::FAILURE,
        Err(error) => {
            eprintln!("an exchange cannot be set up: {error}");
            ExitCode::FAILURE
        }
    }
}

fn usage() -> ExitCode {
    eprintln!("usage: cable [--seed NUMBER]");
    ExitCode::from(2)
}

/// Prints the page. Says whether every claim on it holds.
fn print_page() -> Result<bool, Error> {
    let page = Page {
        sent: [
            explored(Direction::Send, Ack::Auto)?,
            explored(Direction::Send, Ack::Manual)?,
        ],
        read_back: [
            explored(Direction::ReadBack, Ack::Auto)?,
            explored(Direction::ReadBack, Ack::Manual)?,
        ],
    };
    print!("{page}");
    Ok(page.holds())
}

fn explored(direction: Direction, ack: Ack) -> Result<(Exchange, Found), Error> {
    let exchange = Exchange::new(direction, ack, &CARD);
    eprintln!("{exchange}: looking at every situation");
    let found = explore(&mut Space::new(exchange.clone())?, &mut |situations| {
        eprintln!("{exchange}: {situations} situations so far")
    });
    Ok((exchange, found))
}

/// Plays one run of each exchange and prints what became of it.
fn print_runs(seed: u64) -> Result<bool, Error> {
    for direction in [Direction::Send, Direction::ReadBack] {
        for ack in [Ack::Auto, Ack::Manual] {
            print_run(Exchange::new(direction, ack, &CARD), seed)?;
        }
    }
    Ok(true)
}

fn print_run(exchange: Exchange, seed: u64) -> Result<(), Error> {
    println!("{exchange}");
    let walk = walk(&mut Space::new(exchange.clone())?, seed);
    for (step, action) in walk.cable {
        match action {
            Action::Pull(contact) => println!("  step {step}: pulled, {}", contact.words()),
            Action::PutBack(contact) => println!("  step {step}: put back, {}", contact.words()),
            Action::Access(_) | Action::Bus => {}
        }
    }
    let ending = walk.ending;
    let terminal = ending.terminal.map_or("no word", Answer::word);
    let scoreboard: Vec<String> = ending.scoreboard.iter().map(Answer::to_string).collect();
    println!("  step {}: it is over", walk.steps);
    println!("  the terminal said {terminal}");
    match scoreboard.as_slice() {
        [] => println!("  the scoreboard said no word"),
        answers => println!("  the scoreboard said {}", answers.join(", then ")),
    }
    println!(
        "  holes: {} right, {} misread, {} missing",
        ending.right(&exchange),
        ending.misread(&exchange),
        ending.missing()
    );
    Ok(())
}
