//! What the figures were measured on.

use std::fs;
use std::path::Path;
use std::process::Command;

pub fn description(root: &Path) -> String {
    let processor = fs::read_to_string("/proc/cpuinfo").unwrap_or_default();
    let processor = processor
        .lines()
        .find_map(|line| line.strip_prefix("model name"))
        .map_or("unknown", |rest| rest.trim_start_matches([' ', '\t', ':']));
    let cores = std::thread::available_parallelism().map_or(0, usize::from);
    let load = fs::read_to_string("/proc/loadavg").unwrap_or_default();
    let load = load
        .split_whitespace()
        .next()
        .unwrap_or("unknown")
        .to_string();
    let compiler = first_line(Command::new("rustc").arg("--version"));
    let toolchain = first_line(Command::new("rt").arg("version"));
    let commit =
        first_line(
            Command::new("git")
                .arg("-C")
                .arg(root)
                .args(["rev-parse", "--short", "HEAD"]),
        );
    let date = first_line(Command::new("date").arg("+%F"));
    format!(
        "Measured on {date} at commit {commit}: {processor}, {cores} cores, load average {load} at the start; \
         {compiler}; {toolchain}."
    )
}

fn first_line(command: &mut Command) -> String {
    match command.output() {
        Ok(output) => String::from_utf8_lossy(&output.stdout)
            .lines()
            .next()
            .unwrap_or("")
            .to_string(),
        Err(_) => "unknown".to_string(),
    }
}
