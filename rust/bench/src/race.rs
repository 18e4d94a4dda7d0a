//! How the contenders of one table are timed: best of many rounds, the rounds
//! interleaved, the buffer written with zeros before each call.

use std::hint::black_box;
use std::time::{Duration, Instant};

/// One program in a table. It answers with the length written.
pub struct Contender {
    pub name: &'static str,
    pub call: fn(&[u8], &mut [u8]) -> usize,
}

/// The length that stands for a refused call: larger than any buffer.
pub const REFUSED: usize = usize::MAX;

/// What a contender's rate is counted in.
pub enum Rate {
    /// Bytes written, in GB/s.
    Bytes(usize),
    /// Items judged, in ns each.
    Items(usize),
}

/// One table: contenders over one input, and their best times so far.
pub struct Race {
    pub title: String,
    pub contenders: &'static [Contender],
    pub rate: Rate,
    pub best: Vec<Duration>,
    input: Vec<u8>,
    room: usize,
}

/// A sweep's rounds go on for this long, and there are this many at least.
const PATIENCE: Duration = Duration::from_millis(80);
const LEAST_ROUNDS: usize = 8;

impl Race {
    /// The first `equal` contenders must write the same bytes, so that what is
    /// timed is the same work.
    pub fn new(
        title: String,
        contenders: &'static [Contender],
        equal: usize,
        input: Vec<u8>,
        room: usize,
        rate: Rate,
    ) -> Race {
        for pair in contenders[..equal].windows(2) {
            let same = pair[0].answer(&input, room) == pair[1].answer(&input, room);
            assert!(same, "{} and {} differ", pair[0].name, pair[1].name);
        }
        let best = vec![Duration::MAX; contenders.len()];
        Race {
            title,
            contenders,
            rate,
            best,
            input,
            room,
        }
    }

    /// Some rounds more. Every round calls each contender once.
    pub fn sweep(&mut self) {
        let mut out = vec![1; self.room];
        let started = Instant::now();
        let mut rounds = 0;
        while rounds < LEAST_ROUNDS || started.elapsed() < PATIENCE {
            for (contender, best) in self.contenders.iter().zip(&mut self.best) {
                *best = contender.time(&self.input, &mut out).min(*best);
            }
            rounds += 1;
        }
    }
}

impl Contender {
    fn answer(&self, input: &[u8], room: usize) -> (usize, Vec<u8>) {
        let mut out = vec![0xA5; room];
        let length = (self.call)(input, &mut out);
        assert!(length <= room, "{} was refused", self.name);
        (length, out)
    }

    fn time(&self, input: &[u8], out: &mut [u8]) -> Duration {
        out.fill(0);
        black_box(&mut *out);
        let start = Instant::now();
        let length = (self.call)(black_box(input), out);
        black_box(&mut *out);
        let time = start.elapsed();
        assert!(length <= out.len(), "{} was refused", self.name);
        time
    }
}
