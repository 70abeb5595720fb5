//! A small bar plot as SVG, the times on a logarithmic scale.

use std::fmt::Write;

pub struct Group {
    pub label: String,
    pub values: [Option<f64>; 3],
}

const COLOURS: [&str; 3] = ["#1b6ca8", "#7fb069", "#c8c8c8"];
const LEFT: f64 = 320.0;
const WIDTH: f64 = 470.0;
const BAR: f64 = 7.0;
const BETWEEN: f64 = 8.0;

/// Groups of three bars under a title each; the names are those of the bars.
pub fn svg(title: &str, names: [&str; 3], charts: &[(&str, Vec<Group>)]) -> String {
    let values = || charts.iter().flat_map(|(_, groups)| groups).flat_map(|g| g.values).flatten();
    let least = values().fold(f64::MAX, f64::min).log10().floor();
    let most = values().fold(f64::MIN_POSITIVE, f64::max).log10().ceil().max(least + 1.0);
    let x = |value: f64| LEFT + WIDTH * (value.log10() - least) / (most - least);
    let mut body = String::new();
    let mut y = 60.0;
    for (what, groups) in charts {
        writeln!(body, "<text x=\"10\" y=\"{:.0}\" font-weight=\"bold\">{what}</text>", y + 4.0)
            .unwrap();
        y += 16.0;
        for group in groups {
            let middle = y + 1.5 * BAR + 4.0;
            writeln!(
                body,
                "<text x=\"{:.0}\" y=\"{middle:.1}\" text-anchor=\"end\">{}</text>",
                LEFT - 8.0,
                group.label
            )
            .unwrap();
            for (value, colour) in group.values.iter().zip(COLOURS) {
                if let Some(value) = value {
                    let length = (x(*value) - LEFT).max(1.0);
                    writeln!(body, "<rect x=\"{LEFT}\" y=\"{y:.1}\" width=\"{length:.1}\" height=\"{BAR}\" fill=\"{colour}\"/>").unwrap();
                }
                y += BAR;
            }
            y += BETWEEN;
        }
        y += 14.0;
    }
    let mut grid = String::new();
    for power in least as i32..=most as i32 {
        let at = x(10f64.powi(power));
        writeln!(
            grid,
            "<line x1=\"{at:.1}\" y1=\"48\" x2=\"{at:.1}\" y2=\"{y:.0}\" stroke=\"#dddddd\"/>"
        )
        .unwrap();
        writeln!(
            grid,
            "<text x=\"{at:.1}\" y=\"{:.0}\" text-anchor=\"middle\">{}</text>",
            y + 14.0,
            time(power)
        )
        .unwrap();
    }
    let mut key = String::new();
    for (at, (name, colour)) in names.iter().zip(COLOURS).enumerate() {
        let left = LEFT + 130.0 * at as f64;
        writeln!(key, "<rect x=\"{left}\" y=\"30\" width=\"10\" height=\"10\" fill=\"{colour}\"/>")
            .unwrap();
        writeln!(key, "<text x=\"{}\" y=\"39\">{name}</text>", left + 15.0).unwrap();
    }
    format!(
        "<svg xmlns=\"http://www.w3.org/2000/svg\" width=\"{:.0}\" height=\"{:.0}\" \
         font-family=\"sans-serif\" font-size=\"11\">\n\
         <rect width=\"100%\" height=\"100%\" fill=\"white\"/>\n\
         <text x=\"10\" y=\"18\" font-size=\"14\">{title}</text>\n{key}{grid}{body}</svg>\n",
        LEFT + WIDTH + 30.0,
        y + 28.0
    )
}

/// A power of ten of microseconds, readably.
fn time(power: i32) -> String {
    match power {
        ..=-1 => format!("{} ns", 10f64.powi(power + 3)),
        0..=2 => format!("{} µs", 10f64.powi(power)),
        3..=5 => format!("{} ms", 10f64.powi(power - 3)),
        _ => format!("{} s", 10f64.powi(power - 6)),
    }
}
