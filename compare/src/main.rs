//! `compare` holds the archive to the reference on many inputs; `compare bench` times both;
//! `compare dump` writes the sheets to files.

mod archive;

use std::path::Path;
use std::process::ExitCode;
use std::thread::{self, available_parallelism};
use std::time::Instant;

use archive::Archive;
use compare::bench::{bench, bench_sides, timed_sheets};
use compare::case::{
    Asked, Case, Comparison, FIRST_CLIPPED, FIRST_NEIGHBOURING, FIRST_PARTLY_OUTSIDE,
};
use compare::coverage::Coverage;
use compare::jobs::Reference;
use compare::random::Random;
use compare::reference::{Edition, MEMORY_MAX};
use compare::shrink::shrink;
use compare::strips::check_strips;

const HELP: &str = "\
compare [--sheets N] [--seed S] [--edition E] [--case K] [--trace]
    Compare every public job of the archive with the reference on the sheets of the timings and,
    of each edition, on N random sheets (20000), on N/20 more that are partly outside, on N/20 with
    neighbouring stores and on N/20 with clipped loads. Perform the stores of each in other orders,
    and exchange neighbouring ones. The same seed gives the same sheets. --edition E takes only the
    sheets of edition E, --case K only random sheet K, --trace prints the number of each random
    sheet before it is tried.
compare bench [--sides] [--samples N]
    Time both sides on named sheets, N samples each (51). --sides prints only the last table, of
    what lies outside.
compare dump FOLDER [--sheets N] [--seed S] [--edition E]
    Write each of the sheets to a file of the folder, NUMBER-MEMORY-EDITION.sheet, where MEMORY
    is the length of the memory that it is compared on.";

/// From this many sheets of an edition on, every refusal and every outcome must have been met.
const SHEETS_FOR_COVERAGE: u64 = 20_000;
/// For so many sheets there is one more that is partly outside, one with neighbouring stores and one
/// with clipped loads.
const SHEETS_A_SPECIAL: u64 = 20;
const SEED: u64 = 1;
/// Each sheet of the timings is compared so often, with other traces each time.
const TIMES_TIMED: u64 = 10;
/// So far apart are the outcomes of such a sheet that are asked for, others each time: there are up
/// to 7,936, and each question checks all. It divides no matrix. Of the stores that may be exchanged
/// another two are each time.
const TIMED_APART: usize = 251;

struct Options {
    help: bool,
    bench: bool,
    sides: bool,
    dump: Option<String>,
    sheets: u64,
    samples: usize,
    seed: u64,
    editions: Vec<Edition>,
    case: Option<u64>,
    trace: bool,
}

fn main() -> ExitCode {
    let options = match parse(std::env::args().skip(1)) {
        Ok(options) if options.help => {
            println!("{HELP}");
            return ExitCode::SUCCESS;
        }
        Ok(options) => options,
        Err(what) => {
            eprintln!("compare: {what}\n{HELP}");
            return ExitCode::from(2);
        }
    };
    if options.bench {
        let timings = if options.sides { bench_sides } else { bench };
        timings(&Archive, &Reference::default(), options.samples);
        return ExitCode::SUCCESS;
    }
    let done = match &options.dump {
        Some(folder) => dump(&options, Path::new(folder)),
        None => compare_all(&options),
    };
    match done {
        Ok(()) => ExitCode::SUCCESS,
        Err(what) => {
            println!("FAILED: {what}");
            ExitCode::FAILURE
        }
    }
}

fn parse(arguments: impl Iterator<Item = String>) -> Result<Options, String> {
    let mut options = Options {
        help: false,
        bench: false,
        sides: false,
        dump: None,
        sheets: SHEETS_FOR_COVERAGE,
        samples: 51,
        seed: SEED,
        editions: Edition::ALL.to_vec(),
        case: None,
        trace: false,
    };
    let mut arguments = arguments;
    while let Some(argument) = arguments.next() {
        let mut number = || {
            let word = arguments.next().ok_or(format!("{argument} needs a number"))?;
            word.parse::<u64>().map_err(|_| format!("{argument} {word}: not a number"))
        };
        match argument.as_str() {
            "--help" => options.help = true,
            "bench" => options.bench = true,
            "--sides" => options.sides = true,
            "dump" => options.dump = Some(arguments.next().ok_or("dump needs a folder")?),
            "--sheets" => options.sheets = number()?,
            "--samples" => options.samples = number()?.max(1) as usize,
            "--seed" => options.seed = number()?,
            "--edition" => options.editions = vec![edition(number()?)?],
            "--case" => options.case = Some(number()?),
            "--trace" => options.trace = true,
            _ => return Err(format!("unknown argument {argument}")),
        }
    }
    Ok(options)
}

fn edition(number: u64) -> Result<Edition, String> {
    let edition = u8::try_from(number).ok().and_then(Edition::of_number);
    edition.ok_or(format!("there is no edition {number}"))
}

/// Writes the sheets of the random cases.
fn dump(options: &Options, folder: &Path) -> Result<(), String> {
    for &edition in &options.editions {
        for number in 0..options.sheets {
            let case = Case::of_seed(edition, options.seed, number);
            let name = format!("{number:05}-{}-{}.sheet", case.memory.len(), edition.number());
            let file = folder.join(name);
            std::fs::write(&file, &case.sheet)
                .map_err(|why| format!("{}: {why}", file.display()))?;
        }
    }
    Ok(())
}

/// The strips, then of each edition the sheets of the timings and the random cases.
fn compare_all(options: &Options) -> Result<(), String> {
    let start = Instant::now();
    let strips = check_strips(&Archive)?;
    println!("{strips} strips agree with the scope");
    for &edition in &options.editions {
        if options.case.is_none() {
            compare_timed(options.seed, edition)?;
        }
        compare_edition(options, edition)?;
    }
    println!("{:.1} seconds", start.elapsed().as_secs_f64());
    Ok(())
}

/// The sheets of the timings of an edition, some of which have the longest traces.
fn compare_timed(seed: u64, edition: Edition) -> Result<(), String> {
    let reference = Reference::default();
    let mut comparison = Comparison::new(&Archive, &reference, edition);
    let sheets = timed_sheets(edition);
    for (name, sheet) in &sheets {
        for number in 0..TIMES_TIMED {
            let random = &mut Random::of_case(seed, number);
            let mut case = Case::of_sheet(random, edition, sheet.clone(), MEMORY_MAX);
            case.asked = Asked { first: number as usize, apart: TIMED_APART };
            compare_case(&mut comparison, case)
                .map_err(|what| format!("seed {seed}, {name} of the timings: {what}"))?;
        }
    }
    println!("{} sheets of the timings of edition {} agree", sheets.len(), edition.number());
    Ok(())
}

/// The random cases of an edition, then what they met.
fn compare_edition(options: &Options, edition: Edition) -> Result<(), String> {
    let numbers = numbers(options);
    let of_edition = format!("seed {}, edition {}", options.seed, edition.number());
    println!("{of_edition}, {} sheets", numbers.len());
    let coverage = compare_numbers(options, edition, &numbers)
        .map_err(|(number, what)| format!("{of_edition}, sheet {number}: {what}"))?;
    println!("{}", coverage.table());
    if options.case.is_none() && options.sheets >= SHEETS_FOR_COVERAGE {
        let missing = coverage.missing();
        if !missing.is_empty() {
            return Err(format!("{of_edition}: never met:\n  {}", missing.join("\n  ")));
        }
        println!("every refusal of every job and every outcome was met");
    }
    println!("{} sheets of edition {} agree", numbers.len(), edition.number());
    Ok(())
}

/// A case that fails: its number, and all that is said about it.
type Failure = (u64, String);

/// Compares the cases of some numbers, shared out among threads unless each is to be printed.
fn compare_numbers(
    options: &Options,
    edition: Edition,
    numbers: &[u64],
) -> Result<Coverage, Failure> {
    let threads = match available_parallelism() {
        Ok(count) if !options.trace => count.get(),
        _ => 1,
    };
    let shares = thread::scope(|scope| {
        let share = |first| move || compare_share(options, edition, numbers, first, threads);
        let running: Vec<_> = (0..threads).map(|first| scope.spawn(share(first))).collect();
        running.into_iter().map(|thread| thread.join().expect("no thread panics")).collect()
    });
    join(shares, edition)
}

/// What all shares met, or the first case that failed.
fn join(shares: Vec<Result<Coverage, Failure>>, edition: Edition) -> Result<Coverage, Failure> {
    let mut coverage = Coverage::new(edition);
    let mut failures = Vec::new();
    for share in shares {
        match share {
            Ok(met) => coverage.add(met),
            Err(failure) => failures.push(failure),
        }
    }
    match failures.into_iter().min() {
        Some(failure) => Err(failure),
        None => Ok(coverage),
    }
}

/// Compares each so many-th case from one on, up to the first that fails.
fn compare_share(
    options: &Options,
    edition: Edition,
    numbers: &[u64],
    first: usize,
    apart: usize,
) -> Result<Coverage, Failure> {
    let reference = Reference::default();
    let mut comparison = Comparison::new(&Archive, &reference, edition);
    for &number in numbers.iter().skip(first).step_by(apart) {
        if options.trace {
            println!("sheet {number}");
        }
        let case = Case::of_seed(edition, options.seed, number);
        compare_case(&mut comparison, case).map_err(|what| (number, what))?;
    }
    Ok(comparison.coverage)
}

/// The numbers of an edition's random cases.
fn numbers(options: &Options) -> Vec<u64> {
    if let Some(case) = options.case {
        return vec![case];
    }
    let special = |first| first..first + options.sheets / SHEETS_A_SPECIAL;
    let specials = [FIRST_PARTLY_OUTSIDE, FIRST_NEIGHBOURING, FIRST_CLIPPED].map(special);
    (0..options.sheets).chain(specials.into_iter().flatten()).collect()
}

/// Compares every job on a case. One that fails is shrunk, and all is said about it.
fn compare_case(comparison: &mut Comparison, case: Case) -> Result<(), String> {
    let Err(what) = comparison.compare(&case) else { return Ok(()) };
    let small = shrink(case, &mut |case| comparison.compare(case).is_err());
    let of_small = comparison.compare(&small).expect_err("it fails still");
    Err(format!("{what}\nshrunk: {of_small}\n{small}"))
}
