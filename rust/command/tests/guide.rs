//! The guide and the README can't lie: their commands are run, and what they
//! print is compared with what stands there. Rust examples run as tests of
//! the crate `cesr`.

mod common;

use common::{fed, finished, path_with_program, program, top, Folder};
use std::fs;
use std::os::unix::fs::symlink;
use std::path::Path;
use std::process::Command;
use std::sync::Once;

fn page(name: &str) -> String {
    fs::read_to_string(top().join(name)).expect("the page")
}

/// The fenced blocks of a language, in order.
fn blocks(page: &str, language: &str) -> Vec<String> {
    let open = format!("```{language}");
    let (mut found, mut block) = (Vec::new(), None::<String>);
    for line in page.lines() {
        match &mut block {
            None if line == open => block = Some(String::new()),
            None => {}
            Some(_) if line == "```" => found.extend(block.take()),
            Some(text) => {
                text.push_str(line);
                text.push('\n');
            }
        }
    }
    found
}

static BUILT: Once = Once::new();

/// A folder with the samples, and what a linker needs, which is made once.
fn place() -> Folder {
    BUILT.call_once(|| {
        let mut make = Command::new("make");
        make.args(["--silent", "lib"]).current_dir(top());
        let ran = finished(make, b"");
        assert_eq!(ran.status, 0, "{}", ran.err);
    });
    let folder = Folder::new();
    let samples = folder.path().join("samples");
    fs::create_dir(&samples).expect("a folder");
    for entry in fs::read_dir(top().join("samples")).expect("samples") {
        let entry = entry.expect("a sample");
        fs::copy(entry.path(), samples.join(entry.file_name())).expect("a copy");
    }
    for name in ["include", "target"] {
        symlink(top().join(name), folder.path().join(name)).expect("a link");
    }
    folder
}

/// The shell's script of a block: each command, told before it is run, its
/// status kept for the next one.
fn script(block: &str) -> String {
    let mut script = String::from("exec 2>&1\nstatus=0\n");
    for line in block.lines() {
        if let Some(command) = line.strip_prefix("$ ") {
            let told = line.replace('\'', "'\\''");
            script.push_str(&format!("printf '%s\\n' '{told}'\n"));
            script.push_str(&format!("(exit $status)\n{command}\nstatus=$?\n"));
        }
    }
    script
}

fn ran(block: &str, at: &Path) -> String {
    let mut command = Command::new("bash");
    command.args(["-c", &script(block)]).current_dir(at);
    command.env("PATH", path_with_program());
    finished(command, b"").text()
}

#[test]
fn commands_of_the_guide_print_what_it_shows() {
    let guide = page("docs/GUIDE.md");
    let programs = blocks(&guide, "c");
    let blocks = blocks(&guide, "console");
    assert!(blocks.len() >= 14 && programs.len() == 4);
    // The blocks stand in one place, as a reader's would.
    let folder = place();
    for program in programs {
        let name = program
            .strip_prefix("/* ")
            .and_then(|line| line.split(':').next());
        folder.file(name.expect("its file's name"), program.as_bytes());
    }
    for block in blocks {
        assert_eq!(ran(&block, folder.path()), block);
    }
}

/// The guide's programs in Python, over the library that is built.
#[test]
fn programs_of_the_guide_run_in_python() {
    let (guide, folder) = (page("docs/GUIDE.md"), place());
    let programs = blocks(&guide, "python");
    assert_eq!(programs.len(), 1);
    let library = format!("target/install/libcesr.so.{}", cesr::VERSION);
    for program in programs {
        let mut python = Command::new("python3");
        python.args(["-c", &program]).current_dir(folder.path());
        python.env("PYTHONPATH", top().join("python"));
        python.env("CESR_LIBRARY", &library);
        let ran = finished(python, b"");
        assert_eq!((ran.status, ran.err.as_str()), (0, ""));
    }
}

/// The rows of the table of numbers, cell by cell.
fn numbers() -> Vec<[String; 4]> {
    let guide = page("docs/GUIDE.md");
    let row = |line: &str| -> Option<[String; 4]> {
        let cells = line.strip_prefix("| ")?.strip_suffix(" |")?.split(" | ");
        let cells: Vec<String> = cells.map(str::to_string).collect();
        let cells: [String; 4] = cells.try_into().ok()?;
        cells[0].parse::<u8>().is_ok().then_some(cells)
    };
    guide.lines().filter_map(row).collect()
}

#[test]
fn every_number_has_its_words_and_an_example() {
    let rows = numbers();
    assert_eq!(rows.len(), cesr::Number::all().count());
    for (number, [shown, words, example, told]) in cesr::Number::all().zip(rows) {
        assert_eq!(shown, number.to_string());
        assert_eq!(words, number.words());
        let example = example.trim_matches('`').as_bytes();
        let said = match number.get() {
            1 | 3 | 12 | 13 => continue,
            20 => fed(&["compare", "/dev/null"], example).err,
            2 => fed(&["convert", "--to", "binary"], example).err,
            14 => cesr::read(cesr::Form::Text, example, 0)
                .unwrap_err()
                .to_string(),
            17 => fed(&["judge", "--form", "mixed"], example).text(),
            _ => fed(&["judge", "--form", "text"], example).text(),
        };
        assert!(said.contains(&told), "{number}: {said}");
    }
}

/// The four that have no row of their own to run are in the guide's programs.
#[test]
fn every_number_is_told_somewhere_in_full() {
    let guide = page("docs/GUIDE.md");
    let run = [blocks(&guide, "console"), blocks(&guide, "rust")]
        .concat()
        .concat();
    for number in [1, 3, 12, 13, 14, 20] {
        let number = cesr::Number::new(number).expect("a number");
        let said = format!("refused {number} at 0: {}", number.words());
        assert!(run.contains(&said), "{said}");
    }
}

/// README's first command, and what it says that this prints.
#[test]
fn the_first_command_prints_what_the_readme_shows() {
    let readme = page("README.md");
    let block = blocks(&readme, "console")
        .into_iter()
        .next()
        .expect("a block");
    let first = block.lines().next().expect("a command");
    assert_eq!(first, "$ ./cesr judge samples/first.cesr");
    // The script builds the command that is tested here, if it is not there.
    assert_eq!(ran(&block, &top()), block);
    assert!(Path::new(program()).exists());
}
