//! What a run was measured on, and when.

use std::fs;
use std::process::Command;

/// The day, and the processor as Linux names it.
pub fn measured() -> String {
    let info = fs::read_to_string("/proc/cpuinfo").unwrap_or_default();
    let field = |name: &str| {
        let mut fields = info.lines().filter_map(|line| line.split_once(':'));
        let found = fields.find(|(key, _)| key.trim() == name);
        found.map_or("unknown", |(_, value)| value.trim()).to_string()
    };
    let cores = info.lines().filter(|line| line.starts_with("processor")).count();
    format!(
        "Measured on {}, {cores} cores of {} (family {}, model {}).",
        day(),
        field("model name"),
        field("cpu family"),
        field("model"),
    )
}

fn day() -> String {
    let date = Command::new("date").args(["-u", "+%Y-%m-%d"]).output();
    date.map_or("an unknown day".into(), |date| {
        String::from_utf8_lossy(&date.stdout).trim().to_string()
    })
}
