//! Tables of times, in markdown.

use crate::cases::{written, Case};
use crate::times::least;

/// A column: the time of a side, or the ratio of two.
pub enum Column {
    Time(usize),
    Ratio(usize, usize),
}

use Column::{Ratio, Time};

/// Of audits.
pub const AUDITS: &[Column] = &[Time(0), Time(1), Ratio(0, 1), Time(2), Time(3), Time(4), Ratio(0, 4)];

/// Of all other cases.
pub const TWO_SIDES: &[Column] = &[Time(0), Time(1), Ratio(0, 1)];

impl Column {
    fn title(&self, case: &Case) -> String {
        let name = |side: usize| case.sides[side].name;
        match *self {
            Time(side) => name(side).to_string(),
            Ratio(one, other) => format!("{} / {}", name(one), name(other)),
        }
    }

    fn cell(&self, times: &[f64]) -> String {
        match *self {
            Time(side) => micro(times[side]),
            Ratio(one, other) => format!("{:.2}", times[one] / times[other]),
        }
    }
}

/// A time in microseconds, in three digits or more.
fn micro(nanoseconds: f64) -> String {
    let time = nanoseconds / 1e3;
    match time {
        ..10.0 => format!("{time:.2}"),
        ..100.0 => format!("{time:.1}"),
        _ => written(time.round() as usize),
    }
}

fn line<'a>(cells: impl Iterator<Item = &'a str>) {
    println!("|{}", cells.map(|cell| format!(" {cell} |")).collect::<String>());
}

/// Measures each case when it comes and prints its row.
pub fn table(title: &str, first: &str, columns: &[Column], cases: impl IntoIterator<Item = Case>) {
    println!("\n{title}\n");
    for (row, mut case) in cases.into_iter().enumerate() {
        if row == 0 {
            let titles: Vec<String> = columns.iter().map(|column| column.title(&case)).collect();
            line([first].into_iter().chain(titles.iter().map(String::as_str)));
            println!("{}|", "|---".repeat(columns.len() + 1));
        }
        let times = least(&mut case);
        let cells: Vec<String> = columns.iter().map(|column| column.cell(&times)).collect();
        line([case.name.as_str()].into_iter().chain(cells.iter().map(String::as_str)));
    }
}
