//! The second clock of document 02, R-10, in plain Rust: the input of `replay` on standard input, every call a step by
//! this clock, and on standard output a line for each with its length. It walks one second at a time to the next stop.

// The driver's modules, of which this program needs a part.
#[path = "../image.rs"]
mod image;
#[expect(dead_code)]
#[path = "../input.rs"]
mod input;
#[expect(dead_code)]
#[path = "../network.rs"]
mod network;
#[expect(dead_code)]
#[path = "../project.rs"]
mod project;

use std::io::{self, Read, Write};

use input::Input;
use network::{NEVER, Network, Trigger};
use project::{DAY, Fault, Times};

/// The code of the call.
const STEP_BY_SECONDS: u32 = 8;

/// Document 02's number for works that the second clock does not serve.
const NOT_SERVED: Fault = Fault(14);

/// Controls are looked at in groups of so many, which the compiler compares without a jump.
const GROUP: usize = 16;

fn main() -> io::Result<()> {
    let mut bytes = Vec::new();
    io::stdin().lock().read_to_end(&mut bytes)?;
    let mut input = Input::new(&bytes);
    let mut out = io::BufWriter::new(io::stdout().lock());
    match input.image().and_then(image::decode) {
        Ok(project) => answer(&mut out, &mut input, &Network::new(project))?,
        Err(Fault(number)) => writeln!(out, "refused {number}")?,
    }
    out.flush()
}

/// Makes the calls, each from the instant where the one before stopped.
fn answer(out: &mut impl Write, input: &mut Input, network: &Network) -> io::Result<()> {
    let clock = serves(network).then(|| SecondClock::new(network));
    let mut instant = 0;
    for _ in 0..input.word().expect("a count of calls") {
        let code = input.word().expect("a call");
        assert!(code == STEP_BY_SECONDS, "no call {code}");
        if let Some(clock) = &clock {
            let length = clock.walk(instant);
            instant += length;
            writeln!(out, "slow {length}")?;
        } else {
            writeln!(out, "slow refused={}", NOT_SERVED.0)?;
        }
    }
    Ok(())
}

/// No tanks, not the fast path, and one of the timesteps at most a day.
fn serves(network: &Network) -> bool {
    let Times { report_timestep, pattern_timestep, hydraulic_timestep, .. } = network.times;
    let shortest = report_timestep.min(pattern_timestep).min(hydraulic_timestep);
    network.tanks.is_empty() && !network.is_fast && shortest <= DAY
}

struct SecondClock {
    times: Times,
    /// What time controls wait for, in whole groups.
    instants: Vec<u32>,
    /// What clock controls wait for, in whole groups.
    clock_times: Vec<u32>,
}

impl SecondClock {
    fn new(network: &Network) -> Self {
        let (mut instants, mut clock_times) = (Vec::new(), Vec::new());
        for control in &network.controls {
            match control.trigger {
                Trigger::Time { seconds } => instants.push(seconds),
                Trigger::Clock { seconds } => clock_times.push(seconds),
                _ => {}
            }
        }
        SecondClock { times: network.times, instants: in_groups(instants), clock_times: in_groups(clock_times) }
    }

    /// The seconds from an instant to the next stop, the duration at the farthest.
    fn walk(&self, from: u32) -> u32 {
        let Times { duration, hydraulic_timestep, report_timestep, pattern_timestep, start_clock, .. } = self.times;
        // The seconds since the last multiple are counted along: two divisions in every second would take longer.
        let mut since_report = from % report_timestep;
        let mut since_pattern = from % pattern_timestep;
        let mut clock = (from + start_clock) % DAY;
        let mut instant = from;
        while instant < duration {
            instant += 1;
            since_report += 1;
            since_pattern += 1;
            clock = if clock == DAY - 1 { 0 } else { clock + 1 };
            if since_report == report_timestep
                || since_pattern == pattern_timestep
                || instant - from == hydraulic_timestep
                || any_is(&self.instants, instant)
                || any_is(&self.clock_times, clock)
            {
                break;
            }
        }
        instant - from
    }
}

/// Filled up with seconds that never come.
fn in_groups(mut seconds: Vec<u32>) -> Vec<u32> {
    seconds.resize(seconds.len().next_multiple_of(GROUP), NEVER);
    seconds
}

fn any_is(seconds: &[u32], now: u32) -> bool {
    let (groups, _) = seconds.as_chunks::<GROUP>();
    groups.iter().any(|group| group.iter().fold(false, |found, &one| found | (one == now)))
}
