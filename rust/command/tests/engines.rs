//! `--engine`: both engines by every output, what is said of them, and what is
//! refused. That answers which differ pass nothing is tested where they are held
//! against each other, in `src/engine.rs`.

mod common;

use common::{fed, python, run, Folder};
use std::fs;
use streams::generate::any_deck;
use streams::item::stream;
use streams::{damage, Form, Random};

const STREAMS: [&str; 4] = [
    "samples/first.cesr",
    "samples/clean-binary.cesr",
    "samples/cut.cesr",
    "gone.cesr",
];

/// Each output is the first engine's but for the words that name the engine.
#[test]
fn what_is_said_is_what_the_first_says() {
    let styles: [&[&str]; 4] = [&[], &["--all"], &["--json"], &["--json", "--all"]];
    for style in styles {
        let first = run(&[&["judge"], style, &STREAMS[..]].concat());
        for engine in ["first", "second", "both"] {
            let option = ["judge", "--engine", engine];
            let ran = run(&[&option[..], style, &STREAMS[..]].concat());
            assert_eq!((ran.status, &ran.err), (first.status, &first.err));
            let said = String::from_utf8(ran.out).expect("text");
            let mut plain = said.replace(&format!(",\"engine\":\"{engine}\""), "");
            for words in ["by the second engine", "by both engines"] {
                plain = plain.replace(&format!(", judged {words}"), "");
                plain = plain.replace(&format!("; {words}"), "");
            }
            assert_eq!(plain.as_bytes(), first.out);
            assert_eq!(said == plain, engine == "first", "{said}");
        }
    }
}

#[test]
fn the_engine_has_a_key_in_every_object() {
    let ran = run(&[&["judge", "--json", "--engine=both"], &STREAMS[..]].concat());
    let script = "
import json, sys
print(*[json.loads(line)['engine'] for line in sys.stdin])
";
    assert_eq!(python(script, &ran.out), "both both both both\n");
}

/// The report's bytes and the exit status, of decks and of damaged ones, in both
/// forms; and of one that ends with a part of a unit.
#[test]
fn reports_are_the_same() {
    for seed in 0..24 {
        let mut random = Random::new(seed);
        let form = [Form::Text, Form::Binary][seed as usize % 2];
        let mut made = form.of_text(&stream(&any_deck(&mut random, 12)));
        if seed % 3 > 0 {
            damage(&mut random, form, &mut made);
        }
        if seed % 3 == 2 {
            made.push(0x30);
        }
        let form = ["text", "binary"][seed as usize % 2];
        let judged = |engine: &str| {
            let call = ["judge", "--report", "--form", form, "--engine", engine];
            let ran = fed(&call, &made);
            (ran.status, ran.out)
        };
        let first = judged("first");
        assert!(first.0 < 2 || made.is_empty(), "{made:02X?}");
        assert_eq!(judged("second"), first, "{made:02X?}");
        assert_eq!(judged("both"), first, "{made:02X?}");
    }
}

#[test]
fn files_beside_the_lines_name_the_engine() {
    let folder = Folder::new();
    let [page, suite, log] = ["page", "suite", "log"].map(|name| folder.file(name, b""));
    let files = ["--html", &page, "--junit", &suite, "--sarif", &log];
    for (engine, words) in [
        ("second", "by the second engine"),
        ("both", "by both engines"),
    ] {
        let call = ["judge", "--engine", engine, "samples/first.cesr"];
        assert_eq!(run(&[&call, &files[..]].concat()).status, 1);
        let read = |name: &str| fs::read_to_string(name).expect("a file");
        assert!(read(&page).contains(&format!("<dt>Engine</dt><dd>{engine}</dd>")));
        assert!(read(&suite).contains(words));
        assert!(read(&log).contains(&format!("\"engine\":\"{engine}\"")));
    }
    let call = ["judge", "samples/first.cesr"];
    assert_eq!(run(&[&call, &files[..]].concat()).status, 1);
    for name in [page, suite, log] {
        let told = fs::read_to_string(name).expect("a file");
        assert!(!told.to_lowercase().contains("engine"));
    }
}

#[test]
fn a_stream_over_the_limit_is_refused_by_either() {
    for engine in ["first", "second", "both"] {
        let ran = run(&["judge", "--engine", engine, "/dev/zero"]);
        assert_eq!(ran.status, 2);
        assert!(ran.err.contains("refused 1 at 0"), "{}", ran.err);
    }
}

#[test]
fn refused_in_words() {
    let file = "samples/clean.cesr";
    for (call, said) in [
        (
            &["judge", "--engine", "third", file][..],
            "an engine is first, second or both, not third",
        ),
        (
            &["judge", "--engine=", file],
            "an engine is first, second or both, not \n",
        ),
        (&["judge", file, "--engine"], "--engine asks for a value"),
        (
            &["judge", "--engine=both", "--engine", "both", file],
            "--engine is given twice",
        ),
        (
            &["expect", "--engine", "both", file],
            "no such option here: --engine",
        ),
    ] {
        let ran = run(call);
        assert_eq!((ran.status, ran.out.len()), (2, 0));
        assert!(ran.err.contains(said), "{}", ran.err);
    }
}
