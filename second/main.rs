//! The program over the library: its commands.

use second::base::Order;
use second::compare::{pages, pairs};
use second::page::print::Shown;
use second::pairs::print::Given;
use second::tally::Tally;
use second::{check, compare, host, lines, stored, vectors};
use std::io::{Read, Write};
use std::process::ExitCode;

const USAGE: &str = "usage: second list [crossed|rising]
       second pair [crossed|rising]
       second page
       second answer
       second stored lines|vectors|pads|pair|page
       second hosts
       second pair-calls
       second page-calls
       second met lines|vectors
       second compare --seed N --events N [--list-events PATH] [--list-archive-events PATH]
                      [--run-vectors PATH] [--host-calls PATH]
       second pairs --seed N --pairs N [--compare-events PATH] [--pair-calls PATH]
       second pages --seed N --sequences N [--page-calls PATH] [--show-page PATH]
       second check";

fn main() -> ExitCode {
    let arguments: Vec<String> = std::env::args().skip(1).collect();
    let words: Vec<&str> = arguments.iter().map(String::as_str).collect();
    let outcome = match words.as_slice() {
        ["list"] => list(Order::DEFAULT),
        ["list", "crossed"] => list(Order::Crossed),
        ["list", "rising"] => list(Order::Rising),
        ["pair"] => pair(Order::DEFAULT),
        ["pair", "crossed"] => pair(Order::Crossed),
        ["pair", "rising"] => pair(Order::Rising),
        ["page"] => take_in().and_then(|input| put_out(&Shown::of(&input).print())),
        ["answer"] => answer(),
        ["stored", "lines"] => put_out(&stored::lines()),
        ["stored", "vectors"] => put_out(&stored::vectors()),
        ["stored", "pads"] => put_out(&stored::pads()),
        ["stored", "pair"] => put_out(&stored::pair()),
        ["stored", "page"] => put_out(&stored::page()),
        ["hosts"] => put_out(&host::calls_text()),
        ["pair-calls"] => put_out(&pairs::calls_text()),
        ["page-calls"] => put_out(&pages::calls_text()),
        ["met", "lines"] => put_out(Tally::of_lines(&stored::lines()).report().as_bytes()),
        ["met", "vectors"] => {
            Tally::of_vectors(&stored::vectors()).and_then(|met| put_out(met.report().as_bytes()))
        }
        ["compare", options @ ..] => settings(options).and_then(|s| compare::run(&s)),
        ["pairs", options @ ..] => pair_settings(options).and_then(|s| pairs::run(&s)),
        ["pages", options @ ..] => page_settings(options).and_then(|s| pages::run(&s)),
        ["check"] => check::run(),
        _ => Err(USAGE.to_string()),
    };
    match outcome {
        Ok(()) => ExitCode::SUCCESS,
        Err(message) => {
            println!("{message}");
            ExitCode::FAILURE
        }
    }
}

fn put_out(bytes: &[u8]) -> Result<(), String> {
    let mut output = std::io::stdout().lock();
    output.write_all(bytes).and_then(|()| output.flush()).map_err(|error| error.to_string())
}

fn take_in() -> Result<Vec<u8>, String> {
    let mut input = Vec::new();
    std::io::stdin().lock().read_to_end(&mut input).map_err(|error| error.to_string())?;
    Ok(input)
}

fn list(order: Order) -> Result<(), String> {
    let mut output = Vec::new();
    lines::list(&take_in()?, order, &mut output, &mut |_, _| {});
    put_out(&output)
}

fn pair(order: Order) -> Result<(), String> {
    put_out(&Given::of(&take_in()?).print(order))
}

fn answer() -> Result<(), String> {
    let mut output = Vec::new();
    for vector in vectors::parse(&take_in()?)? {
        // The answer itself is only put out.
        let _ = vector.push_answer(&mut output);
    }
    put_out(&output)
}

/// The options' names and values, two by two.
fn named<'a>(options: &[&'a str]) -> Result<Vec<(&'a str, &'a str)>, String> {
    let pairs = options.chunks(2);
    pairs
        .map(|pair| pair.try_into().map(<[&str; 2]>::into).map_err(|_| USAGE.to_string()))
        .collect()
}

fn number(name: &str, value: &str) -> Result<u64, String> {
    value.parse().map_err(|_| format!("{name} wants a number\n{USAGE}"))
}

fn settings(options: &[&str]) -> Result<compare::Settings, String> {
    let mut settings = compare::Settings {
        seed: 1,
        events: 20_000,
        list_events: "target/bin/list_events".to_string(),
        list_archive_events: "target/bin/list_archive_events".to_string(),
        run_vectors: "target/bin/run_vectors".to_string(),
        host_calls: "target/host/host_calls".to_string(),
    };
    for (name, value) in named(options)? {
        match name {
            "--seed" => settings.seed = number(name, value)?,
            "--events" => settings.events = number(name, value)? as usize,
            "--list-events" => settings.list_events = value.to_string(),
            "--list-archive-events" => settings.list_archive_events = value.to_string(),
            "--run-vectors" => settings.run_vectors = value.to_string(),
            "--host-calls" => settings.host_calls = value.to_string(),
            _ => return Err(USAGE.to_string()),
        }
    }
    Ok(settings)
}

fn pair_settings(options: &[&str]) -> Result<pairs::Settings, String> {
    let mut settings = pairs::Settings {
        seed: 1,
        pairs: 2000,
        compare_events: "target/bin/compare_events".to_string(),
        pair_calls: "target/host/pair_calls".to_string(),
    };
    for (name, value) in named(options)? {
        match name {
            "--seed" => settings.seed = number(name, value)?,
            "--pairs" => settings.pairs = number(name, value)? as usize,
            "--compare-events" => settings.compare_events = value.to_string(),
            "--pair-calls" => settings.pair_calls = value.to_string(),
            _ => return Err(USAGE.to_string()),
        }
    }
    Ok(settings)
}

fn page_settings(options: &[&str]) -> Result<pages::Settings, String> {
    let mut settings = pages::Settings {
        seed: 1,
        sequences: 1000,
        page_calls: "target/host/page_calls".to_string(),
        show_page: "target/bin/show_page".to_string(),
    };
    for (name, value) in named(options)? {
        match name {
            "--seed" => settings.seed = number(name, value)?,
            "--sequences" => settings.sequences = number(name, value)? as usize,
            "--page-calls" => settings.page_calls = value.to_string(),
            "--show-page" => settings.show_page = value.to_string(),
            _ => return Err(USAGE.to_string()),
        }
    }
    Ok(settings)
}
