//! Rust and port in one process on one input. It prints; it judges no test,
//! since a machine's load is not the code's fault.

mod blocks;
mod bytewise;
mod case;
mod cause;
mod checksum;
mod lent;
mod measure;
mod partition;
mod rate;
mod run_log;
mod settings;
mod store;
mod trusting;

use clap::Parser;

use measure::Report;

#[derive(Parser)]
#[command(about = "Times the Rust and the port in turns, and says which bars the port meets")]
struct Words {
    /// More and longer rounds: some 160 seconds in place of 7
    #[arg(long)]
    long: bool,
}

fn main() {
    let Words { long } = Words::parse();
    let (rounds, ms) = if long { (101, 4) } else { (15, 1) };
    println!("bench: {rounds} rounds after a warm-up, each a batch of {ms} ms or more a contender");
    println!("bench: medians of the rounds; 'x first' is the time over the first contender's");
    let show = |kind, run: fn(&mut Report)| {
        let mut report = Report::new(kind, rounds, ms);
        run(&mut report);
        report.print_bars();
    };
    show("checksum", checksum::run);
    show("bank", partition::run);
    show("cause", cause::run);
    show("settings", settings::run);
    show("run log", run_log::run);
    show("rate", rate::run);
    show("store", store::run);
    show("commit", store::run_commits);
}
