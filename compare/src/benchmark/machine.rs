//! The machine that a table was made on: its processor, and where its caches end.

use super::markdown::binary;
use std::fs;
use std::process::Command;

/// The processor, for the reader of a table.
pub fn print_processor() {
    let caches: Vec<String> = caches().into_iter().map(binary).collect();
    let caches = match caches.is_empty() {
        true => "caches of a size that it does not tell".to_owned(),
        false => format!("caches for data of {}", caches.join(", ")),
    };
    println!(
        "- Processor: {}, {}, {caches}. One thread.",
        name().unwrap_or_else(|| "of a name that it does not tell".to_owned()),
        std::env::consts::ARCH
    );
    if !cfg!(target_arch = "x86_64") {
        println!(
            "- The kit compiles for x86-64; here the same module was compiled for {}.",
            std::env::consts::ARCH
        );
    }
}

fn name() -> Option<String> {
    let told = Command::new("lscpu").env("LC_ALL", "C").output().ok()?;
    let told = String::from_utf8(told.stdout).ok()?;
    let line = told
        .lines()
        .find_map(|line| line.strip_prefix("Model name:"))?;
    Some(line.trim().to_owned())
}

/// The bytes of each cache that holds data, from the nearest on; none where the machine does not tell.
pub fn caches() -> Vec<usize> {
    let each = (0..).map(|number| format!("/sys/devices/system/cpu/cpu0/cache/index{number}"));
    each.map_while(|folder| {
        let kind = fs::read_to_string(format!("{folder}/type")).ok()?;
        let size = fs::read_to_string(format!("{folder}/size")).ok()?;
        Some((kind, size))
    })
    .filter(|(kind, _)| kind.trim() != "Instruction")
    .filter_map(|(_, size)| size.trim().strip_suffix('K')?.parse().ok())
    .map(|size: usize| size << 10)
    .collect()
}
