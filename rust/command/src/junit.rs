//! `--junit`: a suite in the XML that build servers read, a case for each
//! stream. Failed is a `failure`; empty, missing and every other error is an
//! `error`. None is ever `skipped`.

use crate::markup::escaped;
use crate::memory::Gathered;
use crate::outcome::Outcome;
use crate::pages::Gathers;
use crate::readable;
use crate::standing::Standing;
use crate::terminal::Paint;
use crate::total::Total;
use std::io::{self, Write};
use std::time::Duration;

#[derive(Default)]
pub struct Suite {
    cases: Gathered,
    count: usize,
    failures: usize,
    errors: usize,
    took: Duration,
}

impl Gathers for Suite {
    fn add(&mut self, outcome: &Outcome, took: Duration) -> io::Result<()> {
        let standing = outcome.standing();
        let mut said = Gathered::default();
        readable::block(&mut said, outcome, false, Paint::NONE)?;
        let said = String::from_utf8_lossy(&said.0).into_owned();
        let name = outcome.name.to_string();
        self.took = self.took.saturating_add(took);
        self.case(&name, standing, took, &readable::in_a_line(outcome), &said)
    }

    fn whole(&mut self, total: &Total) -> io::Result<Vec<u8>> {
        let words = total.in_words();
        // A call may be none without an error of a stream; a suite must not.
        if total.worst() == Standing::Error && self.errors == 0 {
            self.case(
                "all streams",
                Standing::Error,
                Duration::ZERO,
                &words,
                &words,
            )?;
        }
        let (count, failures, errors) = (self.count, self.failures, self.errors);
        let (took, said) = (seconds(self.took), escaped(&words));
        let sums = format!(
            "name=\"cesr judge\" tests=\"{count}\" failures=\"{failures}\" errors=\"{errors}\" \
             time=\"{took}\""
        );
        let mut out = Gathered::default();
        writeln!(out, "<?xml version=\"1.0\" encoding=\"UTF-8\"?>")?;
        writeln!(out, "<testsuites {sums}>\n<testsuite {sums} skipped=\"0\">")?;
        let version = env!("CARGO_PKG_VERSION");
        writeln!(out, "<properties>")?;
        writeln!(out, "<property name=\"cesr\" value=\"{version}\"/>")?;
        writeln!(out, "</properties>")?;
        out.write_all(&self.cases.0)?;
        writeln!(out, "<system-out>{said}</system-out>")?;
        writeln!(out, "</testsuite>\n</testsuites>")?;
        Ok(out.0)
    }
}

impl Suite {
    fn case(
        &mut self,
        name: &str,
        standing: Standing,
        took: Duration,
        line: &str,
        said: &str,
    ) -> io::Result<()> {
        let [name, line, said] = [name, line, said].map(escaped);
        let (word, took, out) = (standing.word(), seconds(took), &mut self.cases);
        self.count = self.count.saturating_add(1);
        write!(
            out,
            "<testcase classname=\"cesr\" name=\"{name}\" time=\"{took}\">"
        )?;
        match standing {
            Standing::Passed => writeln!(out, "<system-out>{said}</system-out></testcase>"),
            Standing::Failed => {
                self.failures = self.failures.saturating_add(1);
                write!(out, "<failure type=\"{word}\" message=\"{line}\">{said}")?;
                writeln!(out, "</failure></testcase>")
            }
            Standing::Empty | Standing::Error => {
                self.errors = self.errors.saturating_add(1);
                write!(out, "<error type=\"{word}\" message=\"{line}\">{said}")?;
                writeln!(out, "</error></testcase>")
            }
        }
    }
}

fn seconds(took: Duration) -> String {
    format!("{:.3}", took.as_secs_f64())
}
