//! Plots of growth.csv as SVG, ours and lobster side by side, both axes by powers of ten.

use std::collections::BTreeMap;
use std::path::Path;

const WIDTH: f64 = 640.0;
const HEIGHT: f64 = 400.0;
const LEFT: f64 = 70.0;
const RIGHT: f64 = 150.0;
const TOP: f64 = 40.0;
const BOTTOM: f64 = 50.0;
const COLOURS: [&str; 3] = ["#1b6ca8", "#c0392b", "#2e8b57"];

type Points = Vec<(f64, f64)>;

/// A line of a plot: its name and whether it is ours.
type Lines = BTreeMap<(String, bool), Points>;

fn read(text: &str) -> Result<BTreeMap<String, Lines>, String> {
    let mut plots: BTreeMap<String, Lines> = BTreeMap::new();
    for line in text.lines().skip(1) {
        let cells: Vec<&str> = line.split(',').collect();
        let [grows, size, call, ours, lobster] = cells[..] else { return Err(format!("not a row: {line}")) };
        let number = |cell: &str| cell.parse::<f64>().map_err(|_| format!("not a number: {cell}"));
        let lines = plots.entry(grows.into()).or_default();
        for (cell, is_ours) in [(ours, true), (lobster, false)] {
            lines.entry((call.into(), is_ours)).or_default().push((number(size)?, number(cell)?.max(1.0)));
        }
    }
    Ok(plots)
}

/// The powers of ten around the values.
fn range(values: impl Iterator<Item = f64>) -> (f64, f64) {
    let (least, most) = values.fold((f64::MAX, f64::MIN), |(a, b), v| (a.min(v.log10()), b.max(v.log10())));
    (least.floor(), most.ceil().max(least.floor() + 1.0))
}

/// Where values stand on the paper.
struct Paper {
    x: (f64, f64),
    y: (f64, f64),
}

impl Paper {
    fn at_x(&self, power: f64) -> f64 {
        LEFT + (power - self.x.0) / (self.x.1 - self.x.0) * (WIDTH - LEFT - RIGHT)
    }

    fn at_y(&self, power: f64) -> f64 {
        HEIGHT - BOTTOM - (power - self.y.0) / (self.y.1 - self.y.0) * (HEIGHT - TOP - BOTTOM)
    }

    /// Lines at the powers of ten, with their numbers.
    fn grid(&self) -> String {
        let mut out = String::new();
        for power in self.x.0 as i32..=self.x.1 as i32 {
            let (x, end) = (self.at_x(power.into()), HEIGHT - BOTTOM);
            out += &format!("<line x1=\"{x:.1}\" y1=\"{TOP}\" x2=\"{x:.1}\" y2=\"{end:.1}\" stroke=\"#ddd\"/>\n");
            out += &format!("<text x=\"{x:.1}\" y=\"{:.1}\" text-anchor=\"middle\">{}</text>\n", end + 18.0, 10f64.powi(power));
        }
        for power in self.y.0 as i32..=self.y.1 as i32 {
            let (y, end) = (self.at_y(power.into()), WIDTH - RIGHT);
            out += &format!("<line x1=\"{LEFT}\" y1=\"{y:.1}\" x2=\"{end:.1}\" y2=\"{y:.1}\" stroke=\"#ddd\"/>\n");
            out +=
                &format!("<text x=\"{:.1}\" y=\"{:.1}\" text-anchor=\"end\">{}</text>\n", LEFT - 6.0, y + 4.0, 10f64.powi(power));
        }
        out
    }

    fn line(&self, points: &Points, colour: &str, ours: bool) -> String {
        let dashes = if ours { "" } else { " stroke-dasharray=\"5 4\"" };
        let path: Vec<String> =
            points.iter().map(|p| format!("{:.1},{:.1}", self.at_x(p.0.log10()), self.at_y(p.1.log10()))).collect();
        format!("<polyline points=\"{}\" fill=\"none\" stroke=\"{colour}\" stroke-width=\"1.8\"{dashes}/>\n", path.join(" "))
    }
}

fn plot(title: &str, lines: &Lines) -> String {
    let paper = Paper {
        x: range(lines.values().flatten().map(|point| point.0)),
        y: range(lines.values().flatten().map(|point| point.1)),
    };
    let mut out = format!(
        "<svg xmlns=\"http://www.w3.org/2000/svg\" width=\"{WIDTH}\" height=\"{HEIGHT}\" font-family=\"sans-serif\" font-size=\"12\">\n\
         <rect width=\"100%\" height=\"100%\" fill=\"white\"/>\n\
         <text x=\"{LEFT}\" y=\"22\" font-size=\"14\">Nanoseconds a call, by {title}</text>\n"
    );
    out += &paper.grid();
    out += &format!("<text x=\"{LEFT}\" y=\"{:.1}\">{title} (solid: ours, dashed: lobster)</text>\n", HEIGHT - 12.0);
    let calls: Vec<&String> = lines.keys().filter(|key| key.1).map(|key| &key.0).collect();
    for (at, call) in calls.into_iter().enumerate() {
        let colour = COLOURS[at % COLOURS.len()];
        for ours in [true, false] {
            out += &lines.get(&(call.clone(), ours)).map_or(String::new(), |points| paper.line(points, colour, ours));
        }
        let (x, y) = (WIDTH - RIGHT + 10.0, TOP + 14.0 + 18.0 * at as f64);
        out += &format!("<text x=\"{x:.1}\" y=\"{y:.1}\" fill=\"{colour}\">{call}</text>\n");
    }
    out + "</svg>\n"
}

/// Makes the plots of a folder's growth.csv.
pub fn run(folder: &Path) -> Result<(), String> {
    let said = |path: &Path, error: std::io::Error| format!("{}: {error}", path.display());
    let data = folder.join("growth.csv");
    let text = std::fs::read_to_string(&data).map_err(|error| said(&data, error))?;
    for (title, lines) in read(&text)? {
        let path = folder.join(format!("{}.svg", title.replace(' ', "-")));
        std::fs::write(&path, plot(&title, &lines)).map_err(|error| said(&path, error))?;
        println!("  written: {}", path.display());
    }
    Ok(())
}
