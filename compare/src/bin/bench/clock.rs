//! Time on a processor.

/// Seconds that this thread has been on a processor: others may share the
/// machine. Giving way first brings the kernel's count up to date.
pub fn on_cpu() -> f64 {
    std::thread::yield_now();
    let text =
        std::fs::read_to_string("/proc/thread-self/schedstat").expect("Linux with schedstat");
    let spent = text
        .split(' ')
        .next()
        .and_then(|field| field.parse::<u64>().ok());
    spent.expect("nanoseconds first") as f64 / 1e9
}

/// Seconds of so many runs.
pub fn spent(turns: usize, mut run: impl FnMut()) -> f64 {
    let start = on_cpu();
    for _ in 0..turns {
        run();
    }
    on_cpu() - start
}

/// The median of each way's measurements. The ways take turns in every round,
/// so that a disturbance falls on all of them.
pub fn medians(rounds: usize, ways: usize, mut measure: impl FnMut(usize) -> f64) -> Vec<f64> {
    let mut taken = vec![Vec::new(); ways];
    for _ in 0..rounds {
        for (way, into) in taken.iter_mut().enumerate() {
            into.push(measure(way));
        }
    }
    taken.into_iter().map(median).collect()
}

fn median(mut values: Vec<f64>) -> f64 {
    values.sort_by(f64::total_cmp);
    values[values.len() / 2]
}

#[cfg(test)]
mod tests {
    use super::*;

    #[test]
    fn each_way_has_its_own_median() {
        let mut round = 0.0;
        let found = medians(3, 2, |way| {
            round += 1.0;
            // 1, 3, 5 in the first way; 20, 40, 60 in the second.
            [round, round * 10.0][way]
        });
        assert_eq!(found, [3.0, 40.0]);
    }
}
