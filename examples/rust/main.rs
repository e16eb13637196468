//! Runs what is stored for the programs `bench`, `save`, `resume`, `explain` and `why` through the library and holds what it writes to what is stored, cuts
//! scripts in two with the machine passed on between the parts, runs the stored scripts in lockstep, tries a few words of document 001, and times a
//! long script: the file that the second argument names, or examples over and over. The first argument is the repository.

mod lockstep;
mod xalevinda;

use std::path::Path;
use std::time::Instant;
use std::{env, fs, process};
use xalevinda::{
    explain, explain_into, field, listing, listing_into, resume, resume_into, save, save_into, why,
    why_into, with_field, Register,
};

type Checked = Result<(), String>;

fn read(path: &Path) -> Result<Vec<u8>, String> {
    fs::read(path).map_err(|e| format!("{}: {e}", path.display()))
}

/// A function of the library, in its two forms, and the program that does the same.
struct Function {
    program: &'static str,
    into: fn(&[u8], &mut [u8]) -> usize,
    whole: fn(&[u8]) -> Vec<u8>,
}

const LISTING: Function = Function {
    program: "bench",
    into: listing_into,
    whole: listing,
};
const SAVE: Function = Function {
    program: "save",
    into: save_into,
    whole: save,
};
const RESUME: Function = Function {
    program: "resume",
    into: resume_into,
    whole: resume,
};

const EXPLAIN: Function = Function {
    program: "explain",
    into: explain_into,
    whole: explain,
};

const WHY: Function = Function {
    program: "why",
    into: why_into,
    whole: why,
};

/// What is written is the stored text, also in a buffer of just its size; a buffer one byte shorter stays as it was.
fn check_text(name: &str, function: &Function, input: &[u8], stored: &[u8]) -> Checked {
    let program = function.program;
    let mut out = vec![170; stored.len() + 1];
    let size = (function.into)(input, &mut out[..stored.len()]);
    if size != stored.len()
        || out[..size] != *stored
        || out[size] != 170
        || (function.whole)(input) != stored
    {
        return Err(format!("{program} {name}: what is written differs"));
    }
    let mut short = vec![170; size - 1];
    if (function.into)(input, &mut short) != size || short.iter().any(|&byte| byte != 170) {
        return Err(format!(
            "{program} {name}: a buffer that is too short was changed"
        ));
    }
    Ok(())
}

/// The inputs that a program is held to in the gate: `args` names them, `-` for `stdin`. `stdout` has each name and then what is written. A check
/// gets the name, the input and what is stored.
fn check_stored(
    root: &Path,
    program: &str,
    mut check: impl FnMut(&str, &[u8], &[u8]) -> Checked,
) -> Result<usize, String> {
    let folder = root.join("crates").join(program);
    let text = |name| String::from_utf8(read(&folder.join(name))?).map_err(|e| e.to_string());
    let (names, stored) = (text("args")?, text("stdout")?);
    let mut rest = stored.as_str();
    for (i, name) in names.lines().enumerate() {
        rest = rest
            .strip_prefix(&format!("{name}\n"))
            .ok_or(format!("{name}: nothing is stored"))?;
        let end = match names.lines().nth(i + 1) {
            Some(next) => {
                rest.find(&format!("\n{next}\n"))
                    .ok_or(format!("{next}: nothing is stored"))?
                    + 1
            }
            None => rest.len(),
        };
        let input = match name {
            "-" => folder.join("stdin"),
            _ => folder.join("data").join(name),
        };
        check(name, &read(&input)?, rest[..end].as_bytes())?;
        rest = &rest[end..];
    }
    Ok(names.lines().count())
}

fn check_cases(root: &Path, function: &Function) -> Result<usize, String> {
    check_stored(root, function.program, |name, input, stored| {
        check_text(name, function, input, stored)
    })
}

/// The stored scripts in lockstep: how many there are, and how many lines were answered.
fn check_lockstep(root: &Path) -> Result<(usize, usize), String> {
    let mut lines = 0;
    let scripts = check_stored(root, LISTING.program, |name, script, stored| {
        lines += lockstep::check(name, script, stored)?;
        Ok(())
    })?;
    lockstep::check_slices()?;
    Ok((scripts, lines))
}

/// The scripts of examples/, each beside its listing.
const EXAMPLES: [&str; 5] = [
    "angle-lost",
    "angle-kept",
    "interrupt-waits",
    "execute-by-mode",
    "two-levels-up",
];

fn example(root: &Path, name: &str, kind: &str) -> Result<Vec<u8>, String> {
    read(&root.join(format!("examples/{name}-{kind}.tsv")))
}

fn check_examples(root: &Path) -> Checked {
    for name in EXAMPLES {
        check_text(
            name,
            &LISTING,
            &example(root, name, "script")?,
            &example(root, name, "listing")?,
        )?;
    }
    Ok(())
}

/// The lines of a listing without their numbers.
fn answers(listing: &[u8]) -> Vec<&[u8]> {
    listing
        .split_inclusive(|&byte| byte == b'\n')
        .map(|line| &line[line.iter().position(|&byte| byte == b'\t').unwrap_or(0)..])
        .collect()
}

/// Each example is cut in two after every line. The machine is saved after the first part and resumed with the second: the answers are those
/// of the script in one.
fn check_passed_on(root: &Path) -> Result<usize, String> {
    let mut count = 0;
    for name in EXAMPLES {
        let script = example(root, name, "script")?;
        let whole = listing(&script);
        let ends = script.iter().enumerate().filter(|(_, &byte)| byte == b'\n');
        for (lines, (end, _)) in (1..).zip(ends) {
            let (one, two) = script.split_at(end + 1);
            let passed = [save(one), two.to_vec()].concat();
            let listed = resume(&passed);
            if answers(&listed)[1..] != answers(&whole)[lines..] {
                return Err(format!("{name}: passed on after {lines} lines"));
            }
            check_text(name, &RESUME, &passed, &listed)?;
            count += 1;
        }
    }
    Ok(count)
}

/// Words and the values of their fields by the layouts of 001.
const WORDS: [(Register, u64, &[u64]); 6] = [
    (Register::Capabilities, 1 << 63 | 2 << 47, &[0, 2, 1]),
    (Register::PartitionStatus, 2162691, &[3, 1, 2]), // levels 0 and 1 of at most 1, MBEC at level 1
    (Register::VpStatus, 196624, &[0, 1, 3]), // the status word of the example execute-by-mode
    (Register::PartitionConfig, 991, &[1, 15, 0, 1, 1]), // bits 7 and 8 are reserved
    (Register::SecureConfig, 2, &[0, 1]),
    (Register::CodePageOffsets, 4095 << 12 | 5, &[5, 4095]),
];

/// Each word has these fields and no more, and each field can be replaced by itself, whatever it held.
fn check_fields() -> Result<usize, String> {
    for (register, word, values) in WORDS {
        for (n, &value) in (0..).zip(values.iter().chain(&[0])) {
            let changed = with_field(register, n, word, !value);
            if field(register, n, word) != value || with_field(register, n, changed, value) != word
            {
                return Err(format!(
                    "register {}, field {n} of the word {word}",
                    register as u64
                ));
            }
        }
    }
    Ok(WORDS.iter().map(|(_, _, values)| values.len()).sum())
}

/// The code page offsets of 001: VtlCallOffset and VtlReturnOffset, 12 bits each, written into a word and read back. Only the low 12
/// bits of a value are written, and the 40 reserved bits stay.
fn check_code_page_offsets() -> Checked {
    let offsets = Register::CodePageOffsets;
    let reserved = u64::MAX << 24;
    for (before, call, back) in [
        (0, 0x123, 0xabc),
        (u64::MAX, 0, 0xfff),
        (reserved, 0x1fff, 0x5000),
    ] {
        let word = with_field(offsets, 1, with_field(offsets, 0, before, call), back);
        let (call, back) = (call & 0xfff, back & 0xfff);
        if (field(offsets, 0, word), field(offsets, 1, word)) != (call, back)
            || word != before & reserved | back << 12 | call
        {
            return Err(format!("code page offsets {call} and {back} in {before}"));
        }
    }
    Ok(())
}

/// A machine, and then the events of the examples over and over until there are a million lines.
fn long_script(root: &Path) -> Result<Vec<u8>, String> {
    let scripts = EXAMPLES
        .iter()
        .map(|name| example(root, name, "script"))
        .collect::<Result<Vec<_>, _>>()?;
    let events: Vec<&[u8]> = scripts
        .iter()
        .flat_map(|s| s.split_inclusive(|&b| b == b'\n').skip(1))
        .collect();
    let first = b"vsm\t2\t2\t4\t0\t15\n".as_slice();
    Ok([first]
        .into_iter()
        .chain(events.into_iter().cycle().take(999_999))
        .flatten()
        .copied()
        .collect())
}

fn time(what: &str, lines: usize, call: impl FnOnce()) {
    let start = Instant::now();
    call();
    let seconds = start.elapsed().as_secs_f64();
    println!(
        "{lines} lines in {seconds:.3} s, {:.0} lines a second: {what}",
        lines as f64 / seconds
    );
}

/// Checks a script for which there is no stored listing, and times it: with room for any listing of so many lines, and with room for its
/// own listing only.
fn time_listings(script: &[u8]) -> Checked {
    let mut out = listing(script);
    check_text("the long script", &LISTING, script, &out)?;
    let lines = out.split(|&byte| byte == b'\n').count() - 1;
    time("run once", lines, || drop(listing(script)));
    time("run twice, to count and to write", lines, || {
        listing_into(script, &mut out);
    });
    Ok(())
}

fn run() -> Checked {
    let arguments: Vec<String> = env::args().collect();
    let root = Path::new(
        arguments
            .get(1)
            .ok_or("usage: xalevinda REPOSITORY [SCRIPT]")?,
    );
    for function in [LISTING, SAVE, RESUME, EXPLAIN, WHY] {
        println!(
            "{} inputs of the program {} give what is stored, and leave a buffer that is too short untouched",
            check_cases(root, &function)?,
            function.program
        );
    }
    check_examples(root)?;
    println!("{} examples as well", EXAMPLES.len());
    println!(
        "{} times an example went on from its saved machine with the same answers",
        check_passed_on(root)?
    );
    println!(
        "{} fields of {} words are those of 001, read and replaced",
        check_fields()?,
        WORDS.len()
    );
    check_code_page_offsets()?;
    println!("code page offsets are written into a word and read back");
    let (scripts, lines) = check_lockstep(root)?;
    println!("{scripts} scripts in lockstep, {lines} lines one by one, give what is stored");
    let script = match arguments.get(2) {
        Some(name) => read(Path::new(name))?,
        None => long_script(root)?,
    };
    time_listings(&script)?;
    lockstep::time(&script);
    Ok(())
}

fn main() {
    if let Err(difference) = run() {
        eprintln!("{difference}");
        process::exit(1);
    }
}
