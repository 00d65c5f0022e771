//! The plot of the growing numbers, as SVG.

/// What stands above the columns of the numbers.
pub const HEAD: &str = "what,number,rattle_ns,yardstick_ns";

const WIDTH: f64 = 330.0;
const HEIGHT: f64 = 230.0;
const GAP: f64 = 75.0;

/// A row of the numbers: what grows, to how much, and the times of Rattle and Rust in nanoseconds.
struct Row {
    what: String,
    number: f64,
    times: [f64; 2],
}

fn rows(text: &str) -> Vec<Row> {
    let row = |line: &str| {
        // what grows may have commas in it, the numbers after it have none
        let mut parts = line.rsplitn(4, ',');
        let mut number = || parts.next().and_then(|part| part.parse().ok());
        let (rust, rattle, grown) = (number()?, number()?, number()?);
        Some(Row { what: parts.next()?.to_string(), number: grown, times: [rattle, rust] })
    };
    text.lines().filter_map(row).collect()
}

/// A scale from numbers to a length: even, or by powers of ten.
struct Scale {
    powers: bool,
    most: f64,
    least: f64,
    length: f64,
}

impl Scale {
    fn new(powers: bool, numbers: impl Iterator<Item = f64> + Clone, length: f64) -> Scale {
        let most = numbers.clone().fold(0.0, f64::max);
        let least = if powers { numbers.fold(most, f64::min) } else { 0.0 };
        if powers {
            return Scale { powers, most: most.log10().ceil(), least: least.log10().floor(), length };
        }
        Scale { powers, most: most * 1.05, least, length }
    }

    fn place(&self, number: f64) -> f64 {
        let number = if self.powers { number.log10() } else { number };
        (number - self.least) / (self.most - self.least) * self.length
    }

    /// Where lines with a number are drawn.
    fn ticks(&self) -> Vec<f64> {
        if self.powers {
            return (self.least as i32..=self.most as i32).map(|power| 10f64.powi(power)).collect();
        }
        let raw = 10f64.powf((self.most / 4.0).log10().floor());
        let step = [1.0, 2.0, 2.5, 5.0, 10.0].map(|k| k * raw).into_iter().find(|step| self.most / step < 5.0);
        let step = step.unwrap_or(10.0 * raw);
        (0..).map(|k| f64::from(k) * step).take_while(|&tick| tick <= self.most).collect()
    }
}

/// What ends the name of a number that grows on high-density disks.
const LARGE: &str = ", high density";

/// One panel: times over what grows. What grows on high-density disks is drawn in dashes.
fn panel(title: &str, what: &str, rows: &[&Row], powers: bool, left: f64) -> String {
    let top = 45.0;
    let across = Scale::new(powers, rows.iter().map(|row| row.number), WIDTH);
    let up = Scale::new(powers, rows.iter().flat_map(|row| row.times.map(|time| time / 1e3)), HEIGHT);
    let mut svg = format!("<text x='{left}' y='{}' font-weight='bold'>{title}</text>\n", top - 15.0);
    for tick in across.ticks() {
        let x = left + across.place(tick);
        svg += &format!("<path d='M{x:.1} {top}V{}' stroke='#ddd'/>", top + HEIGHT);
        svg += &format!("<text x='{x:.1}' y='{}' text-anchor='middle'>{tick}</text>\n", top + HEIGHT + 16.0);
    }
    for tick in up.ticks() {
        let y = top + HEIGHT - up.place(tick);
        svg += &format!("<path d='M{left} {y:.1}h{WIDTH}' stroke='#ddd'/>");
        svg += &format!("<text x='{}' y='{:.1}' text-anchor='end'>{tick}</text>\n", left - 5.0, y + 4.0);
    }
    let below = top + HEIGHT + 34.0;
    svg += &format!("<text x='{}' y='{below}' text-anchor='middle'>{what}</text>\n", left + WIDTH / 2.0);
    let large = |row: &&&Row| row.what.ends_with(LARGE);
    let (dashed, plain): (Vec<&Row>, Vec<&Row>) = rows.iter().partition(large);
    for (side, (name, colour)) in
        [("Rattle", "#1663b0"), ("Rust written for speed", "#c4571b")].into_iter().enumerate()
    {
        let point = |row: &&Row| (left + across.place(row.number), top + HEIGHT - up.place(row.times[side] / 1e3));
        for (rows, dashes) in [(&plain, ""), (&dashed, " stroke-dasharray='6 4'")] {
            if rows.is_empty() {
                continue;
            }
            let points: Vec<String> = rows.iter().map(point).map(|(x, y)| format!("{x:.1},{y:.1}")).collect();
            let points = points.join(" ");
            svg +=
                &format!("<polyline points='{points}' fill='none' stroke='{colour}' stroke-width='2'{dashes}/>\n");
            for (x, y) in rows.iter().map(point) {
                svg += &format!("<circle cx='{x:.1}' cy='{y:.1}' r='3' fill='{colour}'/>");
            }
        }
        let y = top + 18.0 + 16.0 * side as f64;
        svg += &format!("<text x='{}' y='{y}' fill='{colour}'>{name}</text>\n", left + 12.0);
    }
    if !dashed.is_empty() {
        svg += &format!("<text x='{}' y='{}'>dashed: high density</text>\n", left + 12.0, top + 50.0);
    }
    svg
}

/// All panels.
pub fn plot(text: &str) -> String {
    let rows = rows(text);
    let panels = [
        ("Audit, µs", "used blocks", false),
        ("Audit, µs (both scales by powers of ten)", "entries on one chain", true),
        ("Load of 1 MiB, µs", "targets, load", false),
        ("Move of 1 MiB, µs", "targets, move", false),
    ];
    let drawn = panels.iter().enumerate().map(|(index, (title, what, powers))| {
        let is_own = |row: &&Row| row.what.strip_suffix(LARGE).unwrap_or(&row.what) == *what;
        let own: Vec<&Row> = rows.iter().filter(is_own).collect();
        let below = what.split(',').next().unwrap_or(what);
        let (column, line) = ((index % 2) as f64, (index / 2) as f64);
        let inner = panel(title, below, &own, *powers, GAP + column * (WIDTH + GAP));
        format!("<g transform='translate(0 {})'>\n{inner}</g>\n", line * (HEIGHT + 95.0))
    });
    let body: String = drawn.collect();
    let (width, height) = (GAP + 2.0 * (WIDTH + GAP), 2.0 * (HEIGHT + 95.0));
    format!(
        "<svg xmlns='http://www.w3.org/2000/svg' width='{width}' height='{height}' \
         font-family='sans-serif' font-size='12'>\n\
         <rect width='100%' height='100%' fill='white'/>\n{body}</svg>\n"
    )
}
