//! What the program `watch` prints of an input.

use super::monitor::{Event, Notice};
use super::{read_rules, read_state, Fault, Monitor};
use std::io::{self, Write};

const LONGEST_INPUT: usize = 32_768;

pub fn watch(input: &[u8]) -> Vec<u8> {
    let mut output = Vec::new();
    let mut watching = || -> io::Result<()> {
        if let Err(fault) = watched(input, &mut output)? {
            writeln!(output, "refused={} line={}", fault.number, fault.line)?;
        }
        Ok(())
    };
    watching().expect("a vector takes all bytes");
    output
}

fn watched(input: &[u8], output: &mut Vec<u8>) -> io::Result<Result<(), Fault>> {
    if input.len() > LONGEST_INPUT {
        return Ok(Err(Fault { number: 9, line: 0 }));
    }
    let (table, used) = match read_rules(input) {
        Ok(read) => read,
        Err(fault) => return Ok(Err(fault)),
    };
    let rules = table.rules().len();
    let mut line = table.formulas().len() + rules + 2;
    let mut monitor = Monitor::new(table);
    let mut rest = &input[used..];
    while !rest.is_empty() {
        line += 1;
        match append_line(&mut monitor, rest) {
            Ok(used) => rest = &rest[used..],
            Err(number) => return Ok(Err(Fault { number, line })),
        }
        let point = monitor.count();
        for notice in monitor.notices(point) {
            write_notice(output, point, notice)?;
        }
    }
    write_end(output, &monitor, rules)?;
    Ok(Ok(()))
}

/// Appends the state of the first line; answers the bytes used, or the number of the refusal.
fn append_line(monitor: &mut Monitor, text: &[u8]) -> Result<usize, u8> {
    let (state, used) = read_state(text, monitor.count()).map_err(|fault| fault.number)?;
    monitor.append(state).map_err(|refusal| refusal.number())?;
    Ok(used)
}

fn write_notice(output: &mut Vec<u8>, point: usize, notice: Notice) -> io::Result<()> {
    let event = match notice.event {
        Event::Raised => "raised",
        Event::Fulfilled => "fulfilled",
        Event::Violated => "violated",
    };
    writeln!(output, "s={point} r={} from={} is={event}", notice.rule, notice.from)
}

fn write_end(output: &mut Vec<u8>, monitor: &Monitor, rules: usize) -> io::Result<()> {
    let tallies = || (0..rules).filter_map(|rule| monitor.tally(rule).ok());
    writeln!(
        output,
        "end states={} raised={} fulfilled={} violated={} open={}",
        monitor.count(),
        tallies().map(|tally| tally.raised).sum::<usize>(),
        tallies().map(|tally| tally.fulfilled).sum::<usize>(),
        tallies().map(|tally| tally.violated).sum::<usize>(),
        tallies().map(|tally| tally.open).sum::<usize>(),
    )
}
