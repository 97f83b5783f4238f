//! The differential run: `gate_tests [--seed N] [--cases N]`, or one case again with `--case N`.

use std::process::ExitCode;
use std::time::Instant;

use gate_tests::aimed;
use gate_tests::checker::Verdict;
use gate_tests::compare::{Failure, Outcome, Tally};
use gate_tests::lending::{Tries, SEEDS, SIZES};
use gate_tests::models::{self, Case};
use gate_tests::rng::Rng;
use gate_tests::rows;

struct Settings {
    seed: u64,
    cases: u64,
    /// Only this case, to look at it again.
    only: Option<u64>,
}

fn main() -> ExitCode {
    let settings = match settings() {
        Ok(settings) => settings,
        Err(told) => {
            eprintln!("{told}\nusage: gate_tests [--seed N] [--cases N] [--case N]");
            return ExitCode::FAILURE;
        }
    };
    let compared =
        if cfg!(feature = "library") { "library, checker and runner" } else { "checker and runner, no library" };
    println!("seed {}, {} cases, {compared}", settings.seed, settings.cases);
    let start = Instant::now();
    let mut tally = Tally::default();
    let outcome = run(&settings, &mut tally);
    report(&tally, start.elapsed().as_secs_f64());
    if let Err(failure) = outcome {
        show(&failure);
        return ExitCode::FAILURE;
    }
    let wanting = || unmet(&tally) || rare(&settings, &tally) || few_functions(&settings, &tally) || heavy();
    if settings.only.is_none() && wanting() {
        return ExitCode::FAILURE;
    }
    println!("ok: no disagreement");
    ExitCode::SUCCESS
}

/// Was a refusal number never met?
fn unmet(tally: &Tally) -> bool {
    let unmet = tally.never_met();
    if !unmet.is_empty() {
        println!("FAILED: never reached: {unmet:?} (few cases reach few numbers)");
    }
    !unmet.is_empty()
}

/// The most real memory that the run may take, in kB: models of 2 GiB are zeros that nobody touches.
const MEMORY: u64 = 100_000;

/// Did a model of the largest size become real memory, by what Linux says was the most?
fn heavy() -> bool {
    let status = std::fs::read_to_string("/proc/self/status").unwrap_or_default();
    let peak = status.lines().find_map(|line| line.strip_prefix("VmHWM:")?.trim().strip_suffix(" kB")?.parse().ok());
    let peak: u64 = peak.unwrap_or(u64::MAX);
    println!("{peak} kB of memory at most");
    if peak > MEMORY {
        println!("FAILED: more than {MEMORY} kB of memory");
    }
    peak > MEMORY
}

/// Was a kind of call of the indexed check hardly made?
fn rare(settings: &Settings, tally: &Tally) -> bool {
    let (count, (size, seed)) = tally.rarest();
    let few = count < settings.cases / 200;
    if few {
        println!("FAILED: only {count} calls with {} extra cells and seed {}", SIZES[size].0, SEEDS[seed].0);
    }
    few
}

/// Had fewer than a third of the generated models functions?
fn few_functions(settings: &Settings, tally: &Tally) -> bool {
    let few = 3 * tally.with_functions < settings.cases;
    if few {
        println!("FAILED: only {} models with functions", tally.with_functions);
    }
    few
}

fn settings() -> Result<Settings, String> {
    let mut settings = Settings { seed: 20_240_501, cases: 200_000, only: None };
    let mut words = std::env::args().skip(1);
    while let Some(word) = words.next() {
        let value = words.next().ok_or(format!("{word} needs a number"))?;
        let number = value.parse::<u64>().map_err(|_| format!("{word} needs a number, not {value}"))?;
        match word.as_str() {
            "--seed" => settings.seed = number,
            "--cases" => settings.cases = number,
            "--case" => settings.only = Some(number),
            _ => return Err(format!("unknown word {word}")),
        }
    }
    Ok(settings)
}

fn run(settings: &Settings, tally: &mut Tally) -> Outcome {
    if let Some(number) = settings.only {
        return generated(settings.seed, number, tally);
    }
    for row in rows::document().iter().chain(&rows::by_hand()).chain(&rows::functions()) {
        tally.row(row)?;
        tally.spellings(row)?;
    }
    let fields = rows::positions().into_iter().chain(rows::names()).chain(rows::function_fields());
    for row in fields.chain(rows::ir_versions()).chain(rows::wide()) {
        tally.row(&row)?;
    }
    aimed_models(tally)?;
    short_models(tally)?;
    short_names(tally)?;
    neighbours(tally)?;
    for row in rows::large() {
        tally.row(&row)?;
    }
    for number in 0..settings.cases {
        generated(settings.seed, number, tally)?;
    }
    Ok(())
}

fn generated(seed: u64, number: u64, tally: &mut Tally) -> Outcome {
    let case = models::case(seed, number);
    tally.generated(&case, &mut Rng::of_case(seed, !number)).map_err(|mut failure| {
        failure.label = format!("case {number} of seed {seed}, {}", failure.label);
        failure
    })
}

/// Models aimed at comparisons, and at the index: the small ones with each number of spare cells, the large ones with some.
fn aimed_models(tally: &mut Tally) -> Outcome {
    for row in aimed::near() {
        tally.row(&row)?;
    }
    for row in aimed::small() {
        tally.sweep(&row, 0..=60)?;
    }
    for row in aimed::crafted() {
        tally.sweep(&row, [0, 1, 2, 2 + 4 * 500, 2 + 4 * 1_000].into_iter())?;
    }
    Ok(())
}

/// All models of one and two bytes, and of three where the last is 0, as in a padded varint: the wire's edges, whole.
fn short_models(tally: &mut Tally) -> Outcome {
    let mut rng = Rng::new(2);
    let mut short = |label: &str, model: &[u8]| short(tally, label, model, &mut rng);
    for first in 0..=255u8 {
        short("one byte", &[first])?;
        for second in 0..=255u8 {
            short("two bytes", &[first, second])?;
            short("three bytes", &[first, second, 0])?;
        }
    }
    Ok(())
}

/// All graph names of one and two bytes, and those of three and four with tails at the ends of their ranges or beside them.
fn short_names(tally: &mut Tally) -> Outcome {
    let mut rng = Rng::new(3);
    let mut named = |name: &[u8]| {
        let length = name.len() as u8;
        let model = [&[8, 8, 0x42, 2, 0x10, 13, 0x3A, 2 + length, 0x12, length], name].concat();
        short(tally, "a graph's name", &model, &mut rng)
    };
    for first in 0..=255u8 {
        named(&[first])?;
        for second in 0..=255u8 {
            named(&[first, second])?;
        }
        for second in [0x7F, 0x80, 0x8F, 0x90, 0x9F, 0xA0, 0xBF, 0xC0] {
            for third in TAILS {
                named(&[first, second, third])?;
                for fourth in TAILS {
                    named(&[first, second, third, fourth])?;
                }
            }
        }
    }
    Ok(())
}

/// The least and the greatest tail of UTF-8, and what is beside them.
const TAILS: [u8; 4] = [0x7F, 0x80, 0xBF, 0xC0];

/// One call of each check: such models are many, and bind nothing.
fn short(tally: &mut Tally, label: &str, model: &[u8], rng: &mut Rng) -> Outcome {
    tally.cases += 1;
    tally.verdict(label, model, &models::lists::L, 1, Tries::Some(1, rng)).map(|_| ())
}

/// The accepted rows with each byte replaced by each other, taken out, or the last.
fn neighbours(tally: &mut Tally) -> Outcome {
    let mut rng = Rng::new(0);
    for row in rows::document().into_iter().chain(rows::by_hand()).chain(rows::whole_functions()) {
        if !matches!(row.answer, Verdict::Accepted(_)) || row.model.len() > 64 {
            continue;
        }
        let mut near =
            Case { label: format!("near row {}", row.name), model: Vec::new(), list: row.list, expected: None };
        for at in 0..row.model.len() {
            for byte in 0..=255u8 {
                near.model.clone_from(&row.model);
                near.model[at] = byte;
                tally.case(&near, &mut rng)?;
            }
            near.model.clone_from(&row.model);
            near.model.remove(at);
            tally.case(&near, &mut rng)?;
            near.model.clone_from(&row.model);
            near.model.truncate(at);
            tally.case(&near, &mut rng)?;
        }
    }
    Ok(())
}

fn report(tally: &Tally, seconds: f64) {
    let per_second = tally.cases as f64 / seconds;
    println!("{} cases, {} verdicts in {seconds:.1} s ({per_second:.0} cases a second)", tally.cases, tally.verdicts);
    println!("{} bytes of generated models; {} runs of the runner, {} reads", tally.bytes, tally.runs, tally.reads);
    println!("{} generated models with functions, {} of them sound", tally.with_functions, tally.sound_functions);
    println!("{} answers of 23 with the runner's defining place, {} of them before it", tally.twice, tally.behind);
    println!(
        "{} acceptances with the third count of the fields by themselves, {} with odd names",
        tally.counted, tally.odd
    );
    let least = tally.rarest().0;
    println!("{} calls of the indexed check, {} of them answered 65;", tally.indexed, tally.short);
    println!("each size of extra cells with each seed at least {least} times");
    println!("verdicts by number (0: accepted):");
    for (number, count) in &tally.numbers {
        println!("{number:4} {count:9}");
    }
}

fn show(failure: &Failure) {
    let hex = |bytes: &[u8]| bytes.iter().map(|byte| format!("{byte:02X}")).collect::<Vec<_>>().join(" ");
    println!("DISAGREEMENT: {}", failure.label);
    println!("  {}", failure.told);
    match failure.cells {
        usize::MAX => println!("  cells without bound"),
        cells => println!("  cells {cells}"),
    }
    println!("  list  {}", hex(&failure.list));
    match &failure.model {
        Some(model) => println!("  model {}", hex(model)),
        None => println!("  the model is too long to be shown, see the row"),
    }
}
