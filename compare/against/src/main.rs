//! Compares the row list, through the host's call, with the Rust original: every answer and every link.
mod damage;
mod differences;
mod host;
mod long;
mod numbers;
mod record;
mod script;
mod short;

use script::Tally;

fn print(what: &str, tally: &Tally) {
    println!(
        "{what}: {} scripts, {} calls ({} refused), {} links, {} reports, {} damaged inputs: {} differences",
        tally.scripts, tally.calls, tally.refusals, tally.links, tally.reports, tally.damaged, tally.differences
    );
}

fn compare() -> u64 {
    let mut all = Tally::default();
    let parts: [(&str, fn(&mut Tally)); 3] = [("short scripts", short::all), ("long scripts", long::all), ("damaged", damage::all)];
    for (what, run) in parts {
        let mut tally = Tally::default();
        run(&mut tally);
        print(what, &tally);
        all += tally;
    }
    print("in all", &all);
    all.differences
}

fn main() {
    let word = std::env::args().nth(1).unwrap_or_default();
    match word.as_str() {
        "" => std::process::exit((compare() > 0) as i32),
        "differences" => differences::show(),
        "record" => record::write(),
        _ => panic!("no word, or one of: differences, record"),
    }
}
