//! Kept inputs as lines of hexadecimal digits, one file for all.

use std::fs;
use std::io::Result;
use std::path::Path;

pub fn line(input: &[u8]) -> String {
    input.iter().map(|byte| format!("{byte:02x}")).collect()
}

/// The inputs of a file of lines. Lines that start with `#` are remarks.
pub fn inputs(lines: &str) -> Vec<Vec<u8>> {
    let kept = lines.lines().filter(|line| !line.starts_with('#'));
    kept.map(bytes).collect()
}

fn bytes(line: &str) -> Vec<u8> {
    let digit = |c: u8| (c as char).to_digit(16).expect("a hexadecimal digit") as u8;
    let pairs = line.as_bytes().chunks_exact(2);
    pairs
        .map(|pair| digit(pair[0]) << 4 | digit(pair[1]))
        .collect()
}

/// One file for each input, as libFuzzer has them.
pub fn unpack(inputs: &[Vec<u8>], folder: &Path) -> Result<()> {
    fs::create_dir_all(folder)?;
    for (index, input) in inputs.iter().enumerate() {
        fs::write(folder.join(format!("{index:06}")), input)?;
    }
    Ok(())
}

/// The files of a folder, short ones first.
pub fn pack(folder: &Path) -> Result<Vec<Vec<u8>>> {
    let mut inputs = Vec::new();
    for entry in fs::read_dir(folder)? {
        inputs.push(fs::read(entry?.path())?);
    }
    inputs.sort_by_key(|input| (input.len(), input.clone()));
    inputs.dedup();
    Ok(inputs)
}

#[cfg(test)]
mod tests {
    use super::*;

    #[test]
    fn lines_and_back() {
        let input = vec![0x00, 0xFF, 0x4D];
        assert_eq!(line(&input), "00ff4d");
        assert_eq!(inputs("# a remark\n00ff4d\n\n"), [input, vec![]]);
    }
}
