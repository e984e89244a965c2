//! Compares the Rattle library with the Rust driver.

mod answer;
mod bands;
mod bench;
mod calls;
mod damaged;
mod difference;
mod packing;
mod page;
mod pairs;
mod process;
mod random;
mod rattle;
mod runs;
mod shrink;
mod speed;
mod store;
mod stored;
mod timing;

use std::{env, process::ExitCode};

const USAGE: &str = "usage: compare timing [--pairs N] [--seed S]
       compare packing [--seed S]
       compare runs [--runs N | --seconds S] [--seed X]
       compare speed
       compare damaged [--calls N | --seconds S] [--seed X] [--heap]
       compare page [--logs N] [--seed S]
       compare page-program --program FILE [--logs N] [--seed S]
       compare page-text --file FILE
       compare bands [--cases N] [--seed S]
       compare bands-program --program FILE [--tables N] [--seed S]
       compare bench --program FILE [--page] [--files N] [--seed S]
       compare bench-text --file FILE [--page]
       compare store-timing --inputs FILE --answers FILE [--check]
       compare store-calls --inputs FILE --answers FILE [--check]
       compare store-page --crate DIR [--check]
       compare store-bench --crate DIR [--check]";

fn main() -> ExitCode {
    match command(Arguments(env::args().skip(1).collect())) {
        Ok(true) => ExitCode::SUCCESS,
        Ok(false) => ExitCode::FAILURE,
        Err(mistake) => {
            eprintln!("{mistake}\n{USAGE}");
            ExitCode::from(2)
        }
    }
}

/// Whether the command found all well, or what is wrong with its arguments or files.
fn command(mut arguments: Arguments) -> Result<bool, String> {
    let command = arguments.first()?;
    if let "timing" | "packing" | "runs" | "speed" | "damaged" | "page" | "bands" = command.as_str()
    {
        rattle::check_library()?;
    }
    match command.as_str() {
        "timing" => {
            let pairs = arguments.number("--pairs", 1_000_000)?;
            let seed = arguments.number("--seed", 1)?;
            arguments.none_left()?;
            Ok(timing::compare(pairs, seed))
        }
        "packing" => {
            let seed = arguments.number("--seed", 1)?;
            arguments.none_left()?;
            Ok(packing::compare(seed))
        }
        "runs" => {
            let seconds = arguments.number("--seconds", 0)?;
            let runs = arguments.number("--runs", 1_000_000)?;
            let seed = arguments.number("--seed", 1)?;
            arguments.none_left()?;
            let limit = match seconds {
                0 => runs::Limit::Runs(runs),
                _ => runs::Limit::Seconds(seconds),
            };
            runs::compare(limit, seed).map_err(|error| error.to_string())
        }
        "speed" => {
            arguments.none_left()?;
            Ok(speed::compare())
        }
        "damaged" => {
            let seconds = arguments.number("--seconds", 0)?;
            let calls = arguments.number("--calls", 1_000_000)?;
            let seed = arguments.number("--seed", 1)?;
            let heap = arguments.flag("--heap");
            arguments.none_left()?;
            let limit = match seconds {
                0 => damaged::Limit::Calls(calls),
                _ => damaged::Limit::Seconds(seconds),
            };
            Ok(damaged::compare(limit, seed, heap))
        }
        "bench" => {
            let path = &arguments.needed("--program")?;
            let accesses = arguments.accesses();
            let files = arguments.number("--files", 5_000)?;
            let seed = arguments.number("--seed", 1)?;
            arguments.none_left()?;
            let program = bench::Program { path, accesses };
            bench::compare(files, seed, program).map_err(|error| error.to_string())
        }
        "page" => {
            let logs = arguments.number("--logs", 100_000)?;
            let seed = arguments.number("--seed", 1)?;
            arguments.none_left()?;
            Ok(page::compare(logs, seed))
        }
        "page-program" => {
            let program = arguments.needed("--program")?;
            let logs = arguments.number("--logs", 1_000)?;
            let seed = arguments.number("--seed", 1)?;
            arguments.none_left()?;
            page::compare_program(logs, seed, &program).map_err(|error| error.to_string())
        }
        "page-text" => {
            let file = arguments.needed("--file")?;
            arguments.none_left()?;
            page::print_file(&file).map_err(|error| format!("{file}: {error}"))
        }
        "bands" => {
            let cases = arguments.number("--cases", 200_000)?;
            let seed = arguments.number("--seed", 1)?;
            arguments.none_left()?;
            Ok(bands::compare(cases, seed))
        }
        "bands-program" => {
            let program = arguments.needed("--program")?;
            let tables = arguments.number("--tables", 300)?;
            let seed = arguments.number("--seed", 1)?;
            arguments.none_left()?;
            bands::compare_program(tables, seed, &program).map_err(|error| error.to_string())
        }
        "store-timing" => store(arguments, store::timing()),
        "store-calls" => store(arguments, calls::sample::texts()),
        "bench-text" => {
            let file = arguments.needed("--file")?;
            let accesses = arguments.accesses();
            arguments.none_left()?;
            bench::print(&file, accesses).map_err(|error| format!("{file}: {error}"))
        }
        "store-page" => store_files(arguments, page::sample::stored()),
        "store-bench" => store_files(arguments, bench::sample::stored()),
        _ => Err(format!("there is no command {command}")),
    }
}

/// Writes a sample's two files, or checks them.
fn store(mut arguments: Arguments, texts: store::Texts) -> Result<bool, String> {
    let inputs = arguments.needed("--inputs")?;
    let answers = arguments.needed("--answers")?;
    let check = arguments.flag("--check");
    arguments.none_left()?;
    let result = if check {
        store::check(texts, &inputs, &answers)
    } else {
        store::write(texts, &inputs, &answers).map(|()| true)
    };
    result.map_err(|error| error.to_string())
}

/// Writes a sample to a program's crate, or checks it.
fn store_files(mut arguments: Arguments, sample: stored::Sample) -> Result<bool, String> {
    let folder = arguments.needed("--crate")?;
    let check = arguments.flag("--check");
    arguments.none_left()?;
    let result = if check {
        sample.check(&folder)
    } else {
        sample.write(&folder)
    };
    result.map_err(|error| error.to_string())
}

/// The words of the command line that were not taken yet.
struct Arguments(Vec<String>);

impl Arguments {
    fn first(&mut self) -> Result<String, String> {
        if self.0.is_empty() {
            return Err("a command is missing".to_string());
        }
        Ok(self.0.remove(0))
    }

    fn flag(&mut self, name: &str) -> bool {
        let place = self.0.iter().position(|word| word == name);
        place.map(|place| self.0.remove(place)).is_some()
    }

    /// How the bench tells accesses.
    fn accesses(&mut self) -> bench::Accesses {
        match self.flag("--page") {
            true => bench::Accesses::Page,
            false => bench::Accesses::Lines,
        }
    }

    fn value(&mut self, name: &str) -> Result<Option<String>, String> {
        let Some(place) = self.0.iter().position(|word| word == name) else {
            return Ok(None);
        };
        if place + 1 == self.0.len() {
            return Err(format!("{name} has no value"));
        }
        self.0.remove(place);
        Ok(Some(self.0.remove(place)))
    }

    fn needed(&mut self, name: &str) -> Result<String, String> {
        self.value(name)?.ok_or(format!("{name} is missing"))
    }

    fn number(&mut self, name: &str, usual: u64) -> Result<u64, String> {
        match self.value(name)? {
            Some(word) => word
                .parse()
                .map_err(|_| format!("{name} {word} is no number")),
            None => Ok(usual),
        }
    }

    fn none_left(&self) -> Result<(), String> {
        match self.0.first() {
            Some(word) => Err(format!("{word} is not understood")),
            None => Ok(()),
        }
    }
}
