//! Times programs on the same words and the same standard input, in turn, and prints a table: the medians of the time on the
//! clock and of the processor's time (user and system), the latter for a million cells, its ratio to that of the first program,
//! and the greatest memory. It needs Linux on a 64-bit processor.
//!
//! Usage: measure RUNS CELLS INPUT PROGRAM... -- WORD...

use std::fs::File;
use std::io;
use std::path::Path;
use std::process::{Command, ExitCode, Stdio};
use std::time::Instant;

/// The start of the kernel's account of a process that ended: times in seconds and microseconds, the
/// greatest memory in KiB, and fourteen numbers more.
#[repr(C)]
#[derive(Default)]
struct Usage {
    user: [i64; 2],
    system: [i64; 2],
    memory: i64,
    others: [i64; 13],
}

unsafe extern "C" {
    fn wait4(process: i32, status: *mut i32, options: i32, usage: *mut Usage) -> i32;
}

/// What one run took, in seconds and MiB.
#[derive(Clone, Copy)]
struct Run {
    clock: f64,
    processor: f64,
    memory: f64,
}

fn measure(program: &str, words: &[String], file: &str) -> io::Result<Run> {
    let input = File::open(file)?;
    let start = Instant::now();
    let child = Command::new(program)
        .args(words)
        .stdin(input)
        .stdout(Stdio::null())
        .spawn()?;
    let mut status = 0;
    let mut usage = Usage::default();
    // SAFETY: the child is ours and nobody waits for it elsewhere; both places can be written.
    let ended = unsafe { wait4(child.id() as i32, &mut status, 0, &mut usage) };
    let clock = start.elapsed().as_secs_f64();
    if ended < 0 {
        return Err(io::Error::last_os_error());
    }
    if status != 0 {
        return Err(io::Error::other(format!(
            "it ended with wait status {status}"
        )));
    }
    let seconds = |time: [i64; 2]| time[0] as f64 + time[1] as f64 / 1e6;
    Ok(Run {
        clock,
        processor: seconds(usage.user) + seconds(usage.system),
        memory: usage.memory as f64 / 1024.0,
    })
}

fn median(runs: &[Run], part: impl Fn(&Run) -> f64) -> f64 {
    let mut numbers: Vec<f64> = runs.iter().map(part).collect();
    numbers.sort_by(f64::total_cmp);
    let middle = numbers.len() / 2;
    if numbers.len() % 2 == 1 {
        numbers[middle]
    } else {
        (numbers[middle - 1] + numbers[middle]) / 2.0
    }
}

fn name(program: &str) -> String {
    let name = Path::new(program).file_name().unwrap_or_default();
    name.to_string_lossy().into_owned()
}

/// The request: how many runs over how many million cells, a file for standard input, the programs, and their arguments.
struct Task<'a> {
    rounds: usize,
    millions: f64,
    input: &'a str,
    programs: &'a [String],
    words: &'a [String],
}

fn task_of(words: &[String]) -> Option<Task<'_>> {
    let end = words.iter().position(|word| word == "--")?;
    let [rounds, cells, input, programs @ ..] = &words[..end] else {
        return None;
    };
    let rounds = rounds.parse().ok()?;
    (rounds > 0 && !programs.is_empty()).then_some(Task {
        rounds,
        millions: cells.parse::<f64>().ok()? / 1e6,
        input,
        programs,
        words: &words[end + 1..],
    })
}

/// The runs of each program.
fn run_in_turn(task: &Task<'_>) -> Result<Vec<Vec<Run>>, String> {
    let mut runs: Vec<Vec<Run>> = vec![Vec::new(); task.programs.len()];
    for _ in 0..task.rounds {
        for (program, runs) in task.programs.iter().zip(&mut runs) {
            let run = measure(program, task.words, task.input);
            runs.push(run.map_err(|error| format!("{program}: {error}"))?);
        }
    }
    Ok(runs)
}

fn main() -> ExitCode {
    let words: Vec<String> = std::env::args().skip(1).collect();
    let Some(task) = task_of(&words) else {
        eprintln!("usage: measure RUNS CELLS INPUT PROGRAM... -- WORD...");
        return ExitCode::from(2);
    };
    let runs = match run_in_turn(&task) {
        Ok(runs) => runs,
        Err(error) => {
            eprintln!("{error}");
            return ExitCode::from(1);
        }
    };
    let first = median(&runs[0], |run| run.processor);
    let (rounds, of_first) = (task.rounds, name(&task.programs[0]));
    println!("medians of {rounds} runs each; the ratio is of user+sys, to {of_first}");
    println!(
        "{:<22} {:>10} {:>10} {:>9} {:>8} {:>8}",
        "program", "user+sys s", "wall s", "s/Mcells", "ratio", "MiB"
    );
    for (program, runs) in task.programs.iter().zip(&runs) {
        let processor = median(runs, |run| run.processor);
        let clock = median(runs, |run| run.clock);
        let memory = runs.iter().map(|run| run.memory).fold(0.0, f64::max);
        let (each, ratio) = (processor / task.millions, processor / first);
        println!(
            "{:<22} {processor:>10.3} {clock:>10.3} {each:>9.4} {ratio:>8.2} {memory:>8.1}",
            name(program)
        );
    }
    ExitCode::SUCCESS
}
