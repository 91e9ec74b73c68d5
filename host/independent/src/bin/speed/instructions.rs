//! How many instructions each implementation takes: the program runs itself under valgrind, which
//! writes down what it has counted each time that one function is called.

use crate::contest::Contest;
use crate::options::Options;
use independent::command::named;
use std::hint::black_box;
use std::io;
use std::path::Path;
use std::process::{Command, Stdio};
use std::{env, fs, process};

/// Lets an implementation go over its inputs; valgrind is told the name of this function.
#[inline(never)]
fn counted_once(run: &mut dyn FnMut()) {
    run();
    // With something behind it the call is no jump.
    black_box(());
}

/// Goes over the inputs of all contests once, each implementation inside the counted function; the
/// last call of it shows where the last of them ends.
pub fn once(contests: &mut [Contest]) {
    for contest in contests {
        contest.once(counted_once);
    }
    counted_once(&mut || ());
}

/// Gives valgrind's name with its version.
pub fn counter() -> io::Result<String> {
    let missing = |error| named("valgrind, which counts instructions, cannot be run", error);
    let said = Command::new("valgrind").arg("--version").output();
    let said = said.map_err(missing)?;
    Ok(String::from_utf8_lossy(&said.stdout).trim().to_string())
}

/// Counts the instructions of every implementation in contest after contest, so many in all.
pub fn counted(options: &Options, runs: usize) -> io::Result<Vec<u64>> {
    let folder = env::temp_dir().join(format!("speed-{}", process::id()));
    fs::create_dir(&folder)
        .map_err(|error| named("no folder for what valgrind counts could be made", error))?;
    let counts = run(options, &folder).and_then(|()| totals(&folder, runs));
    fs::remove_dir_all(&folder)?;
    counts
}

/// Runs this program under valgrind, which leaves a file of what it has counted since the last one
/// each time that the counted function is called.
fn run(options: &Options, folder: &Path) -> io::Result<()> {
    let mut command = Command::new("valgrind");
    command
        .args(["--tool=callgrind", "--quiet"])
        .arg("--dump-before=*counted_once*")
        .arg(format!("--callgrind-out-file={}/counts", folder.display()))
        .arg(env::current_exe()?)
        .args(["--once", "--seed", &options.seed.to_string()])
        .env_remove("VALGRIND_OPTS");
    if let Some(before) = &options.before {
        command.args(["--before", before]);
    }
    let ended = command
        .stdin(Stdio::null())
        .stdout(Stdio::null())
        .stderr(Stdio::null())
        .status()?;
    if ended.success() {
        Ok(())
    } else {
        Err(io::Error::other(format!("valgrind did not count: {ended}")))
    }
}

/// Reads what was counted in each run: in every file but the first, which is of all ahead of them.
fn totals(folder: &Path, runs: usize) -> io::Result<Vec<u64>> {
    let file = |number: usize| folder.join(format!("counts.{number}"));
    let read = |number| total(&fs::read_to_string(file(number)).ok()?);
    let totals: Option<Vec<u64>> = (2..=runs + 1).map(read).collect();
    totals
        .filter(|_| !file(runs + 2).exists())
        .ok_or_else(|| io::Error::other("valgrind did not count each run once"))
}

/// Finds the count of all instructions in what valgrind has written.
fn total(written: &str) -> Option<u64> {
    let count = |line: &str| line.strip_prefix("totals: ")?.trim().parse().ok();
    written.lines().find_map(count).filter(|&count| count > 0)
}

#[cfg(test)]
mod tests {
    use super::*;

    /// The total is found, and none where there is none.
    #[test]
    fn totals_are_found() {
        assert_eq!(
            total("events: Ir\nfn=(1) x\n+3 7\n\ntotals: 1234\n"),
            Some(1_234)
        );
        assert_eq!(total("events: Ir\ntotals: 0\n"), None);
        assert_eq!(total("summary: 5\n"), None);
    }

    /// Every contest is gone over, and nothing is timed.
    #[test]
    fn all_go_once() {
        let mut contest = Contest::new("one", 1, 1);
        let mut runs = 0;
        contest.enter("a", || runs += 1);
        once(std::slice::from_mut(&mut contest));
        assert!(contest.medians()[0].is_nan());
        drop(contest);
        assert_eq!(runs, 1);
    }
}
