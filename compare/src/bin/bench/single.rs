//! The table of single calls.

use crate::classes::{classes, Role};
use crate::clock::medians;
use crate::ways::{agree, measure, WAYS};

const ROUNDS: usize = 27;

/// Calls per second of a class, by the order of `WAYS`.
pub struct Row {
    pub name: &'static str,
    pub role: Role,
    rates: Vec<f64>,
}

impl Row {
    pub fn to_memory(&self) -> f64 {
        self.rates[0] / self.rates[2]
    }

    pub fn to_original(&self) -> f64 {
        self.rates[0] / self.rates[3]
    }

    /// Time proved / time port.
    pub fn port_time(&self) -> f64 {
        self.rates[1] / self.rates[0]
    }
}

/// Prints the table, a row as soon as it is measured.
pub fn table() -> Vec<Row> {
    println!("| calls per second (median of {ROUNDS} rounds) | proved | plain port | original, in memory | original, from and to bytes | proved / port | proved / in memory | proved / from and to bytes | time proved / time port |");
    println!("|---|---|---|---|---|---|---|---|---|");
    let mut rows = Vec::new();
    for class in classes() {
        agree(&class);
        let calls = (class.calls.len() * class.turns) as f64;
        let seconds = medians(ROUNDS, WAYS.len(), |way| measure(WAYS[way].1, &class));
        let row = Row {
            name: class.name,
            role: class.role,
            rates: seconds.into_iter().map(|taken| calls / taken).collect(),
        };
        let rates: Vec<String> = row.rates.iter().copied().map(grouped).collect();
        println!(
            "| {} | {} | {:.2} | {:.2} | {:.2} | {:.2} |",
            row.name,
            rates.join(" | "),
            1.0 / row.port_time(),
            row.to_memory(),
            row.to_original(),
            row.port_time(),
        );
        rows.push(row);
    }
    rows
}

/// A whole number with commas between its thousands.
pub fn grouped(rate: f64) -> String {
    let digits = format!("{rate:.0}");
    let mut text = String::new();
    for (at, digit) in digits.chars().enumerate() {
        if at > 0 && (digits.len() - at) % 3 == 0 {
            text.push(',');
        }
        text.push(digit);
    }
    text
}

#[cfg(test)]
mod tests {
    use super::*;

    #[test]
    fn thousands_are_set_apart() {
        let texts = [7.4, 999.6, 123_456.0, 1_234_567.0].map(grouped);
        assert_eq!(texts, ["7", "1,000", "123,456", "1,234,567"]);
    }
}
