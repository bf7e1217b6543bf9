//! The targets, held against the measured rows.

use crate::chains;
use crate::classes::Role;
use crate::single;

enum Limit {
    AtLeast(f64),
    AtMost(f64),
}

impl Limit {
    fn met(&self, value: f64) -> bool {
        match self {
            Limit::AtLeast(limit) => value >= *limit,
            Limit::AtMost(limit) => value <= *limit,
        }
    }

    /// Whether the first value is farther on the wrong side.
    fn worse(&self, first: f64, second: f64) -> bool {
        match self {
            Limit::AtLeast(_) => first < second,
            Limit::AtMost(_) => first > second,
        }
    }
}

/// A value of a row that a target looks at, and whether it decides.
struct Seen {
    row: String,
    value: f64,
    decides: bool,
}

struct Target {
    words: &'static str,
    limit: Limit,
    seen: Vec<Seen>,
}

/// Prints a line for each target: what decides it, and the other rows.
pub fn lines(singles: &[single::Row], plans: &[chains::Rows]) {
    println!("| target | decided by | verdict | all rows | worst row |");
    println!("|---|---|---|---|---|");
    let targets = of_singles(singles).into_iter().chain(of_plans(plans));
    for target in targets {
        println!("{}", line(&target));
    }
}

fn line(target: &Target) -> String {
    let deciding: Vec<&Seen> = target.seen.iter().filter(|seen| seen.decides).collect();
    let all: Vec<&Seen> = target.seen.iter().collect();
    let met = |seen: &[&Seen]| {
        seen.iter()
            .filter(|seen| target.limit.met(seen.value))
            .count()
    };
    let verdict = match met(&deciding) == deciding.len() {
        true => "met",
        false => "missed",
    };
    let (decided, worst) = (worst(target, &deciding), worst(target, &all));
    format!(
        "| {} | {:.2}: {} | {verdict} | {} of {} meet it | {:.2}: {} |",
        target.words,
        decided.value,
        decided.row,
        met(&all),
        all.len(),
        worst.value,
        worst.row,
    )
}

fn worst<'a>(target: &Target, seen: &[&'a Seen]) -> &'a Seen {
    let farther =
        |first: &'a Seen, second: &'a Seen| match target.limit.worse(second.value, first.value) {
            true => second,
            false => first,
        };
    seen.iter()
        .copied()
        .reduce(farther)
        .expect("a target has rows")
}

/// The ratios are set for accepted calls of the generator; the other rows are
/// told beside. Category products of 128 by 128 have a target of their own.
fn of_singles(rows: &[single::Row]) -> [Target; 5] {
    let seen = |value: fn(&single::Row) -> f64, all: bool, role: Role| -> Vec<Seen> {
        rows.iter()
            .filter(|row| all || row.role == role)
            .map(|row| Seen {
                row: row.name.to_string(),
                value: value(row),
                decides: row.role == role,
            })
            .collect()
    };
    [
        Target {
            words: "at least 10 times the original in memory",
            limit: Limit::AtLeast(10.0),
            seen: seen(single::Row::to_memory, true, Role::Accepted),
        },
        Target {
            words: "at least 15 times the original with decoding and encoding",
            limit: Limit::AtLeast(15.0),
            seen: seen(single::Row::to_original, true, Role::Accepted),
        },
        Target {
            words: "at most 1.3 times the port's time",
            limit: Limit::AtMost(1.3),
            seen: seen(single::Row::port_time, true, Role::Accepted),
        },
        Target {
            words: "128 by 128 faster than the original in memory",
            limit: Limit::AtLeast(1.0),
            seen: seen(single::Row::to_memory, false, Role::Square),
        },
        Target {
            words: "128 by 128 faster than the original with decoding and encoding",
            limit: Limit::AtLeast(1.0),
            seen: seen(single::Row::to_original, false, Role::Square),
        },
    ]
}

fn of_plans(kinds: &[chains::Rows]) -> [Target; 2] {
    // The shortest plan is not held against itself.
    let seen = |skipped: usize, value: fn(&chains::Row, &chains::Row) -> f64| -> Vec<Seen> {
        let pairs = kinds
            .iter()
            .flat_map(|rows| rows.iter().skip(skipped).map(|row| (row, &rows[0])));
        pairs
            .map(|(row, shortest)| Seen {
                row: format!("{}, {} nodes", row.name, row.nodes),
                value: value(row, shortest),
                decides: true,
            })
            .collect()
    };
    [
        Target {
            words: "a step in a plan at most 1.15 times the same single call",
            limit: Limit::AtMost(1.15),
            seen: seen(0, |row, _| row.to_single()),
        },
        Target {
            words: "linear: a step at most 1.15 times a step of the shortest plan",
            limit: Limit::AtMost(1.15),
            seen: seen(1, chains::Row::growth),
        },
    ]
}

#[cfg(test)]
mod tests {
    use super::*;

    fn target(limit: Limit, values: [(f64, bool); 3]) -> String {
        let seen = values.map(|(value, decides)| Seen {
            row: format!("row {value}"),
            value,
            decides,
        });
        line(&Target {
            words: "words",
            limit,
            seen: seen.into(),
        })
    }

    #[test]
    fn the_deciding_rows_give_the_verdict() {
        let line = target(
            Limit::AtLeast(10.0),
            [(10.0, true), (4.0, false), (12.0, false)],
        );
        assert_eq!(
            line,
            "| words | 10.00: row 10 | met | 2 of 3 meet it | 4.00: row 4 |"
        );
    }

    #[test]
    fn one_deciding_row_over_the_limit_misses() {
        let line = target(
            Limit::AtMost(1.5),
            [(1.5, true), (1.75, true), (2.0, false)],
        );
        assert_eq!(
            line,
            "| words | 1.75: row 1.75 | missed | 1 of 3 meet it | 2.00: row 2 |"
        );
    }
}
