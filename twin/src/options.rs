//! The arguments of the run.

use std::path::PathBuf;
use std::str::FromStr;

use crate::fault::Fault;

pub const USAGE: &str = "\
usage: twin [--seed N] [--seconds N] [--self] [--fault K] [--watch FILE] [--faults | --replay FILE | --program PATH]
  --seed N        the seed of all random numbers, 1 if not given
  --seconds N     go on with random rounds until N seconds are over
  --self          compare the twin with itself, not with the library
  --fault K       break the twin in the way numbered K
  --watch FILE    leave each case in FILE before it runs, for a library that does not come back
  --faults        break the twin in each way in turn, and show that the comparison catches it
  --replay FILE   run the one case in FILE
  --program PATH  compare the lines of the program `refine` with a model of it";

pub enum Mode {
    Differential,
    Faults,
    Replay(PathBuf),
    Program(PathBuf),
}

pub struct Options {
    pub mode: Mode,
    pub seed: u64,
    pub seconds: u64,
    pub with_itself: bool,
    pub fault: Option<Fault>,
    pub watch: Option<PathBuf>,
}

impl Options {
    pub fn from_arguments(mut arguments: impl Iterator<Item = String>) -> Result<Options, String> {
        let mut options =
            Options { mode: Mode::Differential, seed: 1, seconds: 0, with_itself: false, fault: None, watch: None };
        while let Some(argument) = arguments.next() {
            let mut value = || arguments.next().ok_or(format!("{argument} wants a value"));
            match argument.as_str() {
                "--seed" => options.seed = number(&value()?)?,
                "--seconds" => options.seconds = number(&value()?)?,
                "--self" => options.with_itself = true,
                "--fault" => {
                    let fault = Fault::numbered(number(&value()?)?);
                    options.fault = Some(fault.ok_or(format!("faults are numbered 1 to {}", Fault::ALL.len()))?);
                }
                "--watch" => options.watch = Some(PathBuf::from(value()?)),
                "--faults" => options.mode = Mode::Faults,
                "--replay" => options.mode = Mode::Replay(PathBuf::from(value()?)),
                "--program" => options.mode = Mode::Program(PathBuf::from(value()?)),
                other => return Err(format!("unknown argument: {other}")),
            }
        }
        Ok(options)
    }
}

fn number<T: FromStr>(text: &str) -> Result<T, String> {
    text.parse().map_err(|_| format!("not a number: {text}"))
}
