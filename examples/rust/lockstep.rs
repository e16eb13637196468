//! Lockstep on the stored scripts: the machine is opened by the first line of a script and answers the others one by one. The replies are the
//! records of the stored listing.

use crate::xalevinda::{open_in, step_in, Machine, Reply, MACHINE_WORDS, SHOWN_WORDS};
use std::time::Instant;

/// The reasons that are no refusals, and the first number of a refusal (include/xalevinda.h).
const NO_REASON: u64 = 0;
const INTERCEPTED: u64 = 1;
const SHORT_SLICE: u64 = 2;
const FIRST_REFUSAL: u64 = 16;

/// The lines of a script, without their line feeds. What follows the last line feed is a line where it has bytes.
fn lines(script: &[u8]) -> Vec<&[u8]> {
    let mut lines: Vec<&[u8]> = script.split(|&byte| byte == b'\n').collect();
    if lines.last().is_some_and(|line| line.is_empty()) {
        lines.pop();
    }
    lines
}

/// The reason goes with the answer: none where the event is done, an intercept, or a refusal.
fn reason_fits(reply: Reply) -> bool {
    match reply.answer {
        0 => reply.reason == NO_REASON,
        9 => reply.reason == INTERCEPTED,
        _ => reply.reason >= FIRST_REFUSAL,
    }
}

/// The listing that lockstep gives, and how many lines it answered. A refusal leaves the machine as it was.
fn listed(script: &[u8]) -> Result<(Vec<u8>, usize), String> {
    let lines = lines(script);
    let Some(Ok(mut machine)) = lines.first().map(|line| Machine::open(line)) else {
        return Ok((b"0\t1\t0\t0\n".to_vec(), 0));
    };
    let mut listing = b"0\t0\t0\t0\n".to_vec();
    for (number, line) in lines.iter().enumerate().skip(1) {
        let before = machine.clone();
        let reply = machine.step(line);
        if !reason_fits(reply) {
            return Err(format!("line {number}: answer and reason {reply:?}"));
        }
        if !matches!(reply.answer, 0 | 9) && machine != before {
            return Err(format!("line {number}: a refusal changed the machine"));
        }
        let Reply {
            answer,
            value,
            level,
            ..
        } = reply;
        listing.extend(format!("{number}\t{answer}\t{value}\t{level}\n").bytes());
    }
    Ok((listing, lines.len() - 1))
}

/// A script in lockstep gives its stored listing. Returns how many lines were answered.
pub fn check(name: &str, script: &[u8], stored: &[u8]) -> Result<usize, String> {
    let (listing, count) = listed(script).map_err(|what| format!("lockstep {name}: {what}"))?;
    if listing != stored {
        return Err(format!("lockstep {name}: other answers than those stored"));
    }
    Ok(count)
}

/// Slices that are too short are refused, and nothing changes; words behind the machine stay.
pub fn check_slices() -> Result<(), String> {
    let (first, flush) = (b"vsm\t1\t0\t1\t0\t15".as_slice(), b"flush\t0\t0".as_slice());
    let mut words = [170; MACHINE_WORDS + 1];
    let mut shown = [170; SHOWN_WORDS + 1];
    let short = &mut words[..MACHINE_WORDS - 1];
    let refused = open_in(first, short) == SHORT_SLICE && step_in(short, flush, &mut shown) == 1;
    let told = shown == [0, 0, SHORT_SLICE, 170];
    let untouched = words == [170; MACHINE_WORDS + 1];
    let opened = open_in(first, &mut words) == NO_REASON;
    let before = words;
    let no_room = step_in(&mut words, flush, &mut shown[..SHOWN_WORDS - 1]) == 1 && words == before;
    let done = step_in(&mut words, flush, &mut shown) == 0 && shown == [0, 0, NO_REASON, 170];
    if refused && told && untouched && opened && no_room && done && words[MACHINE_WORDS] == 170 {
        return Ok(());
    }
    Err("lockstep: slices that are too short".to_string())
}

/// How long a step takes on average.
pub fn time(script: &[u8]) {
    let lines = lines(script);
    let Ok(mut machine) = Machine::open(lines[0]) else {
        return;
    };
    let start = Instant::now();
    let done = lines[1..]
        .iter()
        .filter(|line| machine.step(line).answer == 0)
        .count();
    let seconds = start.elapsed().as_secs_f64();
    println!(
        "{} lines in {seconds:.3} s in lockstep, {:.0} lines a second, {done} done",
        lines.len(),
        lines.len() as f64 / seconds
    );
}
