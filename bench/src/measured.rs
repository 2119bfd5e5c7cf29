//! What rounds come to, and the tables of it.

/// What a way's rounds come to, and how many times the first way's time that is.
pub struct Measured {
    median: f64,
    ratio: f64,
    least: f64,
    least_ratio: f64,
}

fn median(mut numbers: Vec<f64>) -> f64 {
    numbers.sort_by(f64::total_cmp);
    numbers[numbers.len() / 2]
}

fn least(numbers: &[f64]) -> f64 {
    numbers.iter().copied().fold(f64::INFINITY, f64::min)
}

/// The rounds of each way beside those of the first: the ratio is the median of the rounds' ratios.
pub fn beside(ways: &[Vec<f64>]) -> Vec<Measured> {
    let first = &ways[0];
    let of = |times: &Vec<f64>| Measured {
        median: median(times.clone()),
        ratio: median(
            times
                .iter()
                .zip(first)
                .map(|(time, of)| time / of)
                .collect(),
        ),
        least: least(times),
        least_ratio: least(times) / least(first),
    };
    ways.iter().map(of).collect()
}

/// Two tables, of the medians and of the fastest rounds: a column for each input, a row for each way.
pub fn print(unit: &str, columns: &[&str], rows: &[&str], all: &[Vec<Measured>]) {
    type Cell = fn(&Measured) -> [f64; 2];
    let titles: [(&str, Cell); 2] = [
        ("median", |m| [m.median, m.ratio]),
        ("fastest round", |m| [m.least, m.least_ratio]),
    ];
    for (title, cell) in titles {
        println!("| {unit}, {title} | {} |", columns.join(" | "));
        println!("|---|{}", "---:|".repeat(columns.len()));
        for (i, name) in rows.iter().enumerate() {
            let cells = all.iter().map(|one| {
                let [time, ratio] = cell(&one[i]);
                format!("{time:.1} ({ratio:.2}×)")
            });
            let cells: Vec<String> = cells.collect();
            println!("| {name} | {} |", cells.join(" | "));
        }
        println!();
    }
}
