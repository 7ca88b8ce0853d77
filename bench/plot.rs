//! The race as a picture, light and dark: time against statements and against nested locals, of both sides.

use std::fmt::Write;

/// Both sides' nanoseconds at one place.
pub struct Point {
    pub along: f64,
    pub library: f64,
    pub plain: f64,
}

pub struct Panel {
    pub title: String,
    pub along: &'static str,
    /// Times by their powers of ten, where they are far apart.
    pub by_powers: bool,
    pub points: Vec<Point>,
}

const WIDE: f64 = 400.0;
const HIGH: f64 = 330.0;
const LEFT: f64 = 66.0;
const RIGHT: f64 = 62.0;
const TOP: f64 = 74.0;
const BOTTOM: f64 = 52.0;

const STYLE: &str = "\
.picture{color-scheme:light dark}
.picture text{font-family:Helvetica,Arial,'Liberation Sans',sans-serif;fill:#16202b}
.picture .paper{fill:#ffffff}
.picture .faint{fill:#4a5663}
.picture .grid{fill:none;stroke:#d5dae0;stroke-width:1}
.picture .rule{fill:none;stroke:#3c4754;stroke-width:1}
.picture .library{fill:none;stroke:#0b5d2a;stroke-width:2.4}
.picture .plain{fill:none;stroke:#96201a;stroke-width:1.8;stroke-dasharray:5 3}
.picture .library.dot{fill:#0b5d2a}
.picture .plain.dot{fill:#ffffff;stroke-dasharray:none}
@media screen and (prefers-color-scheme:dark){
.picture text{fill:#e8edf2}
.picture .paper{fill:#12181f}
.picture .faint{fill:#aab6c2}
.picture .grid{stroke:#2f3a45}
.picture .rule{stroke:#b4c0cc}
.picture .library{stroke:#7fe0a0}
.picture .plain{stroke:#ff9d94}
.picture .library.dot{fill:#7fe0a0}
.picture .plain.dot{fill:#12181f}
}
";

/// A time in words, as short as can be.
fn short(ns: f64) -> String {
    match ns {
        _ if ns == 0.0 => "0".to_string(),
        _ if ns < 1e3 => format!("{} ns", ns.round()),
        _ if ns < 1e6 => format!("{} us", (ns / 10.0).round() / 100.0),
        _ => format!("{} ms", (ns / 1e4).round() / 100.0),
    }
}

/// The times at which a panel has a line, from its lowest to its highest: powers of ten, or from 0 in steps of 1, 2 or 5 of one.
fn lines(panel: &Panel) -> Vec<f64> {
    let times = || panel.points.iter().flat_map(|p| [p.library, p.plain]);
    let most = times().fold(1.0, f64::max);
    if panel.by_powers {
        let least = times().fold(most, f64::min);
        return (least.log10().floor() as i32..=most.log10().ceil() as i32).map(|power| 10f64.powi(power)).collect();
    }
    let power = 10f64.powf(most.log10().floor());
    let step = [0.2, 0.5, 1.0, 2.0].iter().map(|part| part * power).find(|step| most / step <= 5.0).unwrap_or(2.0 * power);
    (0..=(most / step).ceil() as i32).map(|n| f64::from(n) * step).collect()
}

/// How high a time stands, from the panel's bottom to its top.
fn height(panel: &Panel, lines: &[f64], ns: f64) -> f64 {
    let along = |t: f64| if panel.by_powers { t.log10() } else { t };
    let (low, high) = (along(lines[0]), along(lines[lines.len() - 1]));
    HIGH - BOTTOM - (HIGH - BOTTOM - TOP) * (along(ns) - low) / (high - low)
}

fn text(out: &mut String, class: &str, x: f64, y: f64, anchor: &str, said: &str) {
    let _ = writeln!(out, "<text class=\"{}\" x=\"{:.1}\" y=\"{:.1}\" font-size=\"11\" text-anchor=\"{}\">{}</text>", class, x, y, anchor, said);
}

/// One side's line, its dots, and its name at its end.
fn side(out: &mut String, name: &str, places: &[(f64, f64)]) {
    let way: Vec<String> = places.iter().map(|(x, y)| format!("{:.1} {:.1}", x, y)).collect();
    let _ = writeln!(out, "<path class=\"{}\" d=\"M{}\"/>", name, way.join("L"));
    for (x, y) in places {
        let _ = writeln!(out, "<circle class=\"{} dot\" cx=\"{:.1}\" cy=\"{:.1}\" r=\"3\"/>", name, x, y);
    }
    if let Some((x, y)) = places.last() {
        text(out, "", x + 8.0, y + 4.0, "start", name);
    }
}

fn panel(out: &mut String, panel: &Panel, left: f64) {
    let lines = lines(panel);
    let (from, to) = (left + LEFT, left + WIDE - RIGHT);
    text(out, "", (from + to) / 2.0, TOP - 14.0, "middle", &panel.title);
    for &time in &lines {
        let y = height(panel, &lines, time);
        let _ = writeln!(out, "<path class=\"grid\" d=\"M{:.1} {:.1}H{:.1}\"/>", from, y, to);
        text(out, "faint", from - 6.0, y + 4.0, "end", &short(time));
    }
    let first = if panel.points[0].along > 10.0 { 0.0 } else { panel.points[0].along };
    let last = panel.points[panel.points.len() - 1].along;
    let place = |along: f64| from + (to - from) * (along - first) / (last - first);
    let _ = writeln!(out, "<path class=\"rule\" d=\"M{:.1} {:.1}V{:.1}H{:.1}\"/>", from, TOP, HIGH - BOTTOM, to);
    let every = 1 + panel.points.len() / 8;
    for point in panel.points.iter().rev().step_by(every) {
        text(out, "faint", place(point.along), HIGH - BOTTOM + 16.0, "middle", &point.along.to_string());
    }
    text(out, "faint", (from + to) / 2.0, HIGH - BOTTOM + 34.0, "middle", panel.along);
    let at = |time: fn(&Point) -> f64| -> Vec<(f64, f64)> { panel.points.iter().map(|p| (place(p.along), height(panel, &lines, time(p)))).collect() };
    side(out, "plain", &at(|p| p.plain));
    side(out, "library", &at(|p| p.library));
}

/// What the picture shows, for who does not see it: each panel's last place.
fn said(panel: &Panel) -> String {
    let last = &panel.points[panel.points.len() - 1];
    format!("{}: at {} {} the library takes {}, the plain evaluator {}", panel.title, last.along, panel.along, short(last.library), short(last.plain))
}

pub fn picture(machine: &str, panels: &[Panel]) -> String {
    let (wide, machine) = (WIDE * panels.len() as f64, machine.replace('&', "&amp;").replace('<', "&lt;"));
    let mut out = format!("<svg xmlns=\"http://www.w3.org/2000/svg\" class=\"picture\" width=\"{0}\" height=\"{1}\" viewBox=\"0 0 {0} {1}\" role=\"img\">\n", wide, HIGH);
    let told: Vec<String> = panels.iter().map(said).collect();
    let _ = writeln!(out, "<title>The time of an instant, library and plain evaluator</title>\n<desc>{}</desc>\n<style>\n{}</style>", told.join("; "), STYLE);
    let _ = writeln!(out, "<rect class=\"paper\" width=\"{}\" height=\"{}\"/>", wide, HIGH);
    let _ = writeln!(out, "<text x=\"{:.1}\" y=\"24\" font-size=\"15\" font-weight=\"bold\" text-anchor=\"middle\">The time of an instant</text>", wide / 2.0);
    text(&mut out, "faint", wide / 2.0, 41.0, "middle", &machine);
    for (n, each) in panels.iter().enumerate() {
        panel(&mut out, each, WIDE * n as f64);
    }
    out.push_str("</svg>\n");
    out
}
