//! A load: every link's flow and every junction's head, in place of the solver.

use crate::input::Input;
use crate::network::Network;
use crate::project::Fault;
use crate::state::State;

/// Flows and heads lie within plus and minus this.
const MOST: f64 = 1e12;

/// Takes the load at the front of the input. Whatever is wrong with its shape comes before a value out of range.
pub fn take(input: &mut Input, network: &Network, state: &mut State) -> Result<(), Fault> {
    let (flow_words, head_words) = (2 * network.links.len(), 2 * network.junctions.len());
    let header = input.word().ok_or(Fault::LOAD_SHAPE)?;
    if header != 15 << 28 | (flow_words + head_words) as u32 {
        return Err(Fault::LOAD_SHAPE);
    }
    let flows = input.words(flow_words).ok_or(Fault::LOAD_SHAPE)?;
    let heads = input.words(head_words).ok_or(Fault::LOAD_SHAPE)?;
    if !flows.numbers().chain(heads.numbers()).all(|number| number.abs() <= MOST) {
        return Err(Fault::LOAD_VALUE);
    }
    state.put_load(network, flows.numbers(), heads.numbers());
    Ok(())
}
