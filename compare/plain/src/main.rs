//! Document 01's program `driver` in plain Rust: an image and loads on standard input, the listing on standard output.

mod image;
mod input;
#[expect(dead_code)] // what the timetable alone needs
mod listing;
mod load;
mod network;
mod project;
mod state;

use std::hint::black_box;
use std::io::{self, Read};

use input::Input;
use listing::Listing;
use network::Network;
use project::Fault;
use state::State;

fn main() -> io::Result<()> {
    let mut bytes = Vec::new();
    io::stdin().lock().read_to_end(&mut bytes)?;
    let mut listing = Listing::new(io::stdout().lock());
    if let Err(fault) = drive(&bytes, &mut listing)? {
        listing.refusal(fault)?;
    }
    listing.end()
}

/// Every step of a run. The inner error is a refusal, which ends the listing.
fn drive(bytes: &[u8], listing: &mut Listing<impl io::Write>) -> io::Result<Result<(), Fault>> {
    let mut input = Input::new(bytes);
    let network = match input.image().and_then(image::decode) {
        Ok(project) => Network::new(project),
        Err(fault) => return Ok(Err(fault)),
    };
    let mut state = State::new(&network);
    let mut steps = 0;
    listing.header()?;
    while state.instant < network.times.duration {
        state.apply_patterns(&network);
        state.apply_controls(&network);
        if !input.is_empty()
            && let Err(fault) = load::take(&mut input, &network, &mut state)
        {
            return Ok(Err(fault));
        }
        state.close_tank_links(&network);
        let from = state.instant;
        let length = state.step(&network);
        steps += 1;
        listing.step(from, length)?;
    }
    listing.count(steps)?;
    // No line shows demands, statuses and settings; this keeps the compiler from leaving them out.
    black_box(&state);
    Ok(Ok(()))
}
