//! Document 01's program `driver`.

use std::io::{self, Write};

use crate::image::Fault;
use crate::input::Input;
use crate::load;
use crate::progress::Progress;

const CUT_LOAD: Fault = 7;

pub fn drive(bytes: &[u8], out: &mut impl Write) -> io::Result<()> {
    let mut input = Input::new(bytes);
    let project = match input.project() {
        Ok(project) => project,
        Err(fault) => return writeln!(out, "refused {fault}"),
    };
    let mut progress = Progress::start(&project);
    writeln!(out, "from length")?;
    while progress.instant() < progress.duration() {
        progress.patterns();
        progress.controls();
        if let Err(fault) = take_load(&mut progress, &mut input) {
            return writeln!(out, "refused {fault}");
        }
        progress.close();
        let from = progress.instant();
        let length = progress.step();
        progress.check_state();
        writeln!(out, "{from} {length}")?;
    }
    writeln!(out, "steps {}", progress.count())
}

/// One load, if any byte is left. A header at fault is told before the words that it asks for.
fn take_load(progress: &mut Progress, input: &mut Input) -> Result<(), Fault> {
    if input.is_empty() {
        return Ok(());
    }
    let header = input.peek().ok_or(CUT_LOAD)?;
    load::judge_header(header, progress.links(), progress.junctions())?;
    let words = input.words(load::load_words(progress.links(), progress.junctions())).ok_or(CUT_LOAD)?;
    progress.load(&words)
}
