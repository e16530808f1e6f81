//! The instructions of each call on each side: valgrind's callgrind runs over this very program, which does the call's work, and counts
//! what is done in `the_work`.
use crate::work;
use std::io::{self, ErrorKind, Write};
use std::process::{self, Command};

/// Why nothing was counted.
type Failed = String;

// The instructions of one call, on a side, with so many rows or lines passed over if it is those that are counted.
fn instructions(call: &str, side: &str, passed: Option<usize>) -> Result<f64, Failed> {
    let failed = |why: &str| format!("{call} was not counted: {why}");
    let bench = std::env::current_exe().map_err(|why| failed(&why.to_string()))?;
    let ran = Command::new("valgrind")
        .args(["--tool=callgrind", "--callgrind-out-file=/dev/null", "--collect-atstart=no"])
        .arg("--toggle-collect=*the_work*")
        .arg(bench)
        .args(["--work", call, side])
        .args(passed.map(|many| many.to_string()))
        .output()
        .map_err(|why| failed(&format!("valgrind: {why}")))?;
    let (out, err) = (String::from_utf8_lossy(&ran.stdout), String::from_utf8_lossy(&ran.stderr));
    let calls: Option<f64> = out.trim().parse().ok();
    let all: Option<f64> =
        err.lines().find_map(|line| line.split_once("Collected : ")?.1.trim().parse().ok());
    match (ran.status.success(), all, calls) {
        (true, Some(all), Some(calls)) => Ok(all / calls),
        _ => Err(failed(&err)),
    }
}

// The instructions of one call; or of one row or line passed over, which is how much more the longer work takes.
fn counted(call: &str, side: &str) -> Result<f64, Failed> {
    let Some([few, many]) = work::passed(call) else {
        return instructions(call, side, None);
    };
    let more = instructions(call, side, Some(many))? - instructions(call, side, Some(few))?;
    Ok(more / (many - few) as f64)
}

fn line(call: &str, columns: [&str; 4]) -> Result<(), Failed> {
    let [library, plain, ratio, limit] = columns;
    let line = format!("{call:<19}{library:>10}{plain:>10}{ratio:>8}{limit:>8}");
    writeln!(io::stdout(), "{}", line.trim_end()).map_err(|why| match why.kind() {
        // nobody is there to be told
        ErrorKind::BrokenPipe => process::exit(1),
        _ => format!("standard output: {why}"),
    })
}

/// The table of these calls, or of all if none is named.
pub fn count(named: &[String]) -> Result<(), Failed> {
    if Command::new("valgrind").arg("--version").output().is_err() {
        return Err("no valgrind on the path: Debian's package valgrind has it".to_string());
    }
    let calls = match named {
        [] => work::calls(),
        _ => named.iter().map(String::as_str).collect(),
    };
    line("call", ["library", "plain", "ratio", "limit"])?;
    for call in calls {
        let (library, plain) = (counted(call, "library")?, counted(call, "plain")?);
        let limit = match work::has_limit(call) {
            true => format!("{:.1}", counted(call, "limit")?),
            false => String::new(),
        };
        let ratio = format!("{:.2}", library / plain);
        line(call, [&format!("{library:.1}"), &format!("{plain:.1}"), &ratio, &limit])?;
    }
    Ok(())
}
