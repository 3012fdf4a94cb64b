//! Rows and numbers as text, in Markdown that is also read as it stands.

/// Rows in Markdown, the first of them a heading: so many columns of words, and numbers behind.
pub fn print_rows(rows: &[Vec<String>], words: usize) {
    let column = |at: usize| rows.iter().map(move |row| row[at].len());
    let widths: Vec<usize> = (0..rows[0].len())
        .map(|at| column(at).max().unwrap_or(0))
        .collect();
    for (number, row) in rows.iter().enumerate() {
        let cells = row.iter().zip(&widths).enumerate();
        let cells: Vec<String> = cells
            .map(|(at, (cell, &width))| match at < words {
                true => format!("{cell:<width$}"),
                false => format!("{cell:>width$}"),
            })
            .collect();
        println!("| {} |", cells.join(" | "));
        if number == 0 {
            print_rule(&widths, words);
        }
    }
    println!();
}

/// What stands under a heading.
fn print_rule(widths: &[usize], words: usize) {
    let cells = widths.iter().enumerate().map(|(at, &width)| {
        let line = "-".repeat(width + 1);
        match at < words {
            true => format!("{line}-"),
            false => format!("{line}:"),
        }
    });
    println!("|{}|", cells.collect::<Vec<_>>().join("|"));
}

/// Three figures, or all before the point.
pub fn short(number: f64) -> String {
    match number {
        small if small < 10.0 => format!("{small:.2}"),
        middle if middle < 100.0 => format!("{middle:.1}"),
        large => format!("{large:.0}"),
    }
}

/// A number with its thousands apart.
pub fn grouped(number: usize) -> String {
    match number {
        0..1_000 => number.to_string(),
        _ => format!("{},{:03}", grouped(number / 1_000), number % 1_000),
    }
}

/// A number of bytes.
pub fn binary(bytes: usize) -> String {
    match bytes >> 20 {
        0 => format!("{} KiB", bytes >> 10),
        whole => format!("{whole} MiB"),
    }
}
