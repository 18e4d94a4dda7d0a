//! What `run.sh` needs beside the target: seeds, the dictionary, and inputs
//! from files to lines and back.

use fuzz::{corpus, seeds};
use std::io::{Error, Result};
use std::path::Path;

const USAGE: &str = "\
fuzz seeds             the seeds, a line of hexadecimal digits each
fuzz dictionary        words for the fuzzer
fuzz unpack FILE DIR   the inputs of FILE as files of DIR
fuzz pack DIR          the files of DIR as lines
fuzz try FILE...       tries these inputs; a difference ends it";

fn main() -> Result<()> {
    let words: Vec<String> = std::env::args().skip(1).collect();
    let words: Vec<&str> = words.iter().map(String::as_str).collect();
    match words[..] {
        ["seeds"] => print(&seeds::seeds()),
        ["dictionary"] => print!("{}", seeds::dictionary()),
        ["unpack", file, folder] => {
            let lines = std::fs::read_to_string(file)?;
            corpus::unpack(&corpus::inputs(&lines), Path::new(folder))?;
        }
        ["pack", folder] => print(&corpus::pack(Path::new(folder))?),
        ["try", ref files @ ..] => {
            for file in files {
                fuzz::one(&std::fs::read(file)?);
            }
        }
        _ => return Err(Error::other(USAGE)),
    }
    Ok(())
}

fn print(inputs: &[Vec<u8>]) {
    inputs
        .iter()
        .for_each(|input| println!("{}", corpus::line(input)));
}
