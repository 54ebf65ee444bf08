//! rounds MACHINE SCRIPT: runs a machine in rounds, and prints its report.
use std::error::Error;
use std::io::{self, Write};
use std::{env, fs};
use torusmem::{check, Machine};

fn main() -> Result<(), Box<dyn Error>> {
    let words: Vec<String> = env::args().skip(1).collect();
    let [machine, script] = &words[..] else {
        return Err("give MACHINE SCRIPT".into());
    };
    let mut machine = Machine::load(&fs::read(machine)?, &fs::read(script)?)?;
    eprintln!("{} rounds", machine.finish());
    let report = machine.report()?;
    check(&report)?;
    io::stdout().write_all(&report)?;
    Ok(())
}
