//! A list of calls on a project from its start, and the whole state after each.

use std::io::{self, Write};

use crate::image::Fault;
use crate::input::Input;
use crate::progress::Progress;

/// "A list of calls is cut, or has a code" that no call has.
const BROKEN_LIST: Fault = 18;

pub fn replay(bytes: &[u8], out: &mut impl Write) -> io::Result<()> {
    let mut input = Input::new(bytes);
    let project = match input.project() {
        Ok(project) => project,
        Err(fault) => return writeln!(out, "refused {fault}"),
    };
    let mut progress = Progress::start(&project);
    write!(out, "start ok")?;
    end_line(&progress, out)?;
    let Some(calls) = input.word() else { return writeln!(out, "refused {BROKEN_LIST}") };
    for _ in 0..calls {
        let Some(answer) = call(&mut progress, &mut input) else { return writeln!(out, "refused {BROKEN_LIST}") };
        write!(out, "{answer}")?;
        end_line(&progress, out)?;
    }
    Ok(())
}

/// What the next call answers; none where it is cut or has another code.
fn call(progress: &mut Progress, input: &mut Input) -> Option<String> {
    let answer = match input.word()? {
        1 => {
            progress.patterns();
            "patterns ok".to_string()
        }
        2 => {
            progress.controls();
            "controls ok".to_string()
        }
        3 => {
            let count = input.word()?;
            match progress.load(&input.words(count as usize)?) {
                Ok(()) => "load ok".to_string(),
                Err(fault) => format!("load refused={fault}"),
            }
        }
        4 => {
            progress.close();
            "close ok".to_string()
        }
        5 => format!("pressure {}", progress.pressure()),
        6 => match progress.premise(input.word()?) {
            Ok(truth) => format!("premise {truth}"),
            Err(fault) => format!("premise refused={fault}"),
        },
        7 => format!("step {}", progress.step()),
        8 => match progress.slow() {
            Ok(length) => format!("slow {length}"),
            Err(fault) => format!("slow refused={fault}"),
        },
        9 => {
            progress.close_by_table();
            "close ok".to_string()
        }
        _ => return None,
    };
    Some(answer)
}

fn end_line(progress: &Progress, out: &mut impl Write) -> io::Result<()> {
    progress.check_state();
    progress.write_state(out)?;
    writeln!(out)
}
