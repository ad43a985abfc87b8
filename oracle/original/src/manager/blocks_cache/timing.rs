//! `time N`: what the original's own calls take, without the conversions beside them.
use std::cell::Cell;
use std::time::{Duration, Instant};

use reading::records::Request;
use reading::script::Command;

#[derive(Default)]
pub struct Clock {
    spent: Cell<Duration>,
}

impl Clock {
    pub fn time<T>(&self, call: impl FnOnce() -> T) -> T {
        let start = Instant::now();
        let result = call();
        self.spent.set(self.spent.get() + start.elapsed());
        result
    }

    pub fn spent(&self) -> Duration {
        self.spent.get()
    }
}

/// What timing nothing takes: the least average of a hundred rounds, so that a round in which the machine did something else doesn't count.
fn own_cost() -> Duration {
    const TIMES: u32 = 1000;
    let round = |_| {
        let clock = Clock::default();
        (0..TIMES).for_each(|_| clock.time(|| std::hint::black_box(())));
        clock.spent() / TIMES
    };
    (0..100).map(round).min().unwrap_or_default()
}

/// The time of so many calls in microseconds, less the clock's own.
pub fn microseconds(spent: Duration, times: u32) -> u128 {
    spent.saturating_sub(own_cost() * times).as_micros()
}

/// A call after which the cache may be another one.
pub fn changes(request: &Request) -> bool {
    !matches!(request, Request::Peek(_) | Request::TailIds(_) | Request::Sound)
}

/// The commands since the last `new` or `load`, with it: they make the cache again.
#[derive(Default)]
pub struct Kept {
    pub commands: Vec<Command>,
}

impl Kept {
    pub fn keep(&mut self, command: &Command) {
        if matches!(command, Command::Load | Command::Call(Request::New(_))) {
            self.commands.clear();
        }
        let kept = match command {
            Command::Call(request) => changes(request),
            Command::Load | Command::Loading(_) => true,
            _ => false,
        };
        if kept {
            self.commands.push(command.clone());
        }
    }
}
