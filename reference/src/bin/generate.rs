//! `generate SEED` prints one campaign; `generate SEED COUNT DIR` writes COUNT of them into a directory.

use std::io::{self, Write};
use std::path::Path;
use std::process::ExitCode;
use std::{env, fs};

enum Order {
    Print { seed: u64 },
    Write { first: u64, count: u64, directory: String },
}

fn read_order(arguments: &[String]) -> Option<Order> {
    match arguments {
        [seed] => Some(Order::Print { seed: seed.parse().ok()? }),
        [first, count, directory] => {
            Some(Order::Write { first: first.parse().ok()?, count: count.parse().ok()?, directory: directory.clone() })
        }
        _ => None,
    }
}

fn follow(order: Order) -> io::Result<()> {
    match order {
        Order::Print { seed } => io::stdout().write_all(&reference::generator::generate(seed)),
        Order::Write { first, count, directory } => {
            fs::create_dir_all(&directory)?;
            for seed in first..first.saturating_add(count) {
                let path = Path::new(&directory).join(format!("campaign-{seed}.txt"));
                fs::write(path, reference::generator::generate(seed))?;
            }
            Ok(())
        }
    }
}

fn main() -> ExitCode {
    let arguments: Vec<String> = env::args().skip(1).collect();
    let Some(order) = read_order(&arguments) else {
        eprintln!("usage: generate SEED | generate SEED COUNT DIR");
        return ExitCode::from(2);
    };
    match follow(order) {
        Ok(()) => ExitCode::SUCCESS,
        Err(error) => {
            eprintln!("generate: {error}");
            ExitCode::FAILURE
        }
    }
}
