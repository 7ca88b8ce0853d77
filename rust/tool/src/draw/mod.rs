//! Pictures as SVG that stands alone: texts of known width, outlines, arrows, and a layout in layers. What a picture shows is its user's to say.

pub mod chart;
pub mod heads;
pub mod layers;
pub mod style;
pub mod text;
pub mod timing;

use std::fmt::Write;
use text::Words;

#[derive(Clone, Copy, PartialEq, Debug, Default)]
pub struct Point {
    pub x: f64,
    pub y: f64,
}

pub const fn at(x: f64, y: f64) -> Point {
    Point { x, y }
}

/// An upright box by its middle.
#[derive(Clone, Copy, PartialEq, Debug, Default)]
pub struct Area {
    pub middle: Point,
    pub width: f64,
    pub height: f64,
}

impl Area {
    pub fn of(left: f64, top: f64, width: f64, height: f64) -> Area {
        Area { middle: at(left + width / 2.0, top + height / 2.0), width, height }
    }

    pub fn left(&self) -> f64 {
        self.middle.x - self.width / 2.0
    }

    pub fn top(&self) -> f64 {
        self.middle.y - self.height / 2.0
    }

    fn right(&self) -> f64 {
        self.middle.x + self.width / 2.0
    }

    fn bottom(&self) -> f64 {
        self.middle.y + self.height / 2.0
    }
}

/// How a box is drawn: outlines tell apart what colours tell apart.
#[derive(Clone, Copy, PartialEq, Eq, Debug)]
pub enum Outline {
    Round,
    Square,
    /// Pointed to the left and the right.
    Pointed,
    /// Square, with bars in front.
    Barred,
}

/// How far the slanting sides of a pointed box reach in.
pub const POINT: f64 = 14.0;

/// The tip of an arrow.
#[derive(Clone, Copy, PartialEq, Eq, Debug)]
pub enum Tip {
    Filled,
    Hollow,
}

/// What an element is called: its class for the style, and what else is told of it.
pub type Told<'a> = &'a [(&'a str, &'a str)];

pub struct Picture {
    body: String,
    width: f64,
    height: f64,
    tones: &'static [style::Tone],
}

impl Picture {
    pub fn new(width: f64, height: f64, tones: &'static [style::Tone]) -> Picture {
        Picture { body: String::new(), width, height, tones }
    }

    pub fn open(&mut self, told: Told) {
        let _ = writeln!(self.body, "<g{}>", attributes(told));
    }

    pub fn close(&mut self) {
        self.body.push_str("</g>\n");
    }

    /// What a reader is told who points at the group that is open, or cannot see it.
    pub fn title(&mut self, words: &str) {
        let _ = writeln!(self.body, "<title>{}</title>", escaped(words));
    }

    pub fn outline(&mut self, outline: Outline, area: Area, told: Told) {
        let told = attributes(told);
        let _ = match outline {
            Outline::Pointed => writeln!(self.body, "<path d=\"{}\"{}/>", pointed(area), told),
            _ => {
                let round = if outline == Outline::Round { 14.0 } else { 1.0 };
                writeln!(self.body, "<rect {} rx=\"{}\"{}/>", sides(area), n(round), told)
            }
        };
        if outline == Outline::Barred {
            self.bars(area);
        }
    }

    /// Bars left and right of the words in the middle.
    fn bars(&mut self, area: Area) {
        let mut d = String::new();
        for k in 0..3 {
            let away = 5.0 + 6.0 * f64::from(k);
            for x in [area.left() + away, area.right() - away] {
                let _ = write!(d, "M{} {}V{}", n(x), n(area.top()), n(area.bottom()));
            }
        }
        let _ = writeln!(self.body, "<path class=\"bars\" d=\"{}\"/>", d);
    }

    /// Words on one line, by the middle of their foot. The width is the measured one in whatever font they are set.
    pub fn words(&mut self, foot: Point, words: &Words, class: &str) {
        let weight = if words.bold { " font-weight=\"bold\"" } else { "" };
        let _ = writeln!(
            self.body,
            "<text class=\"{}\" x=\"{}\" y=\"{}\" font-size=\"{}\"{} text-anchor=\"middle\" textLength=\"{}\" lengthAdjust=\"spacingAndGlyphs\">{}</text>",
            class, n(foot.x), n(foot.y), n(words.size), weight, n(words.width()), escaped(&words.text)
        );
    }

    /// The same by the left end of their foot.
    pub fn words_from(&mut self, foot: Point, words: &Words, class: &str) {
        self.words(at(foot.x + words.width() / 2.0, foot.y), words, class);
    }

    /// The same by the right end of their foot.
    pub fn words_to(&mut self, foot: Point, words: &Words, class: &str) {
        self.words(at(foot.x - words.width() / 2.0, foot.y), words, class);
    }

    /// A line that is drawn as it is told.
    pub fn line(&mut self, d: &str, told: Told) {
        let _ = writeln!(self.body, "<path d=\"{}\"{}/>", d, attributes(told));
    }

    pub fn rect(&mut self, area: Area, told: Told) {
        let _ = writeln!(self.body, "<rect {}{}/>", sides(area), attributes(told));
    }

    /// Slanting lines within a box: what is unknown is told by them, whatever the colours are.
    pub fn hatch(&mut self, area: Area) {
        let mut d = String::new();
        let (l, r, t, b) = (area.left(), area.right(), area.top(), area.bottom());
        let mut sum = l + t + HATCH;
        while sum < r + b {
            let (from, to) = (at((sum - b).max(l), sum - (sum - b).max(l)), at((sum - t).min(r), sum - (sum - t).min(r)));
            let _ = write!(d, "M{} {}L{} {}", n(from.x), n(from.y), n(to.x), n(to.y));
            sum += HATCH;
        }
        self.line(&d, &[("class", "hatch")]);
    }

    /// An arrow along a route that ends upright, up or down.
    pub fn arrow(&mut self, route: &[Point], tip: Tip, told: Told) {
        let (last, before) = match route {
            [.., before, last] => (*last, *before),
            _ => return,
        };
        let back = if before.y < last.y { -TIP } else { TIP };
        let _ = writeln!(self.body, "<g{}>", attributes(told));
        let _ = writeln!(self.body, "<path class=\"way\" d=\"{}\"/>", curve(route, at(last.x, last.y + back)));
        let (left, right) = (at(last.x - TIP / 2.0, last.y + back), at(last.x + TIP / 2.0, last.y + back));
        let class = if tip == Tip::Filled { "tip" } else { "tip hollow" };
        let _ = writeln!(self.body, "<path class=\"{}\" d=\"M{} {}L{} {}L{} {}Z\"/>", class, n(last.x), n(last.y), n(left.x), n(left.y), n(right.x), n(right.y));
        self.close();
    }

    /// The element for a page that has the style already.
    pub fn element(&self, name: &str, about: &str) -> String {
        self.svg(name, about, "", "")
    }

    /// A file of its own.
    pub fn file(&self, name: &str, about: &str) -> String {
        let style = format!("<style>\n{}</style>\n", style::sheet(&[self.tones]));
        self.svg(name, about, " xmlns=\"http://www.w3.org/2000/svg\"", &style)
    }

    fn svg(&self, name: &str, about: &str, space: &str, style: &str) -> String {
        let (w, h) = (n(self.width), n(self.height));
        let head = format!("<svg{} class=\"picture\" width=\"{}\" height=\"{}\" viewBox=\"0 0 {} {}\" role=\"img\">\n", space, w, h, w, h);
        let told = format!("<title>{}</title>\n<desc>{}</desc>\n", escaped(name), escaped(about));
        let paper = format!("<rect class=\"paper\" width=\"{}\" height=\"{}\"/>\n", w, h);
        format!("{}{}{}{}{}</svg>\n", head, told, style, paper, self.body)
    }
}

const TIP: f64 = 9.0;
/// How far apart the lines of a hatch are, measured along a side.
const HATCH: f64 = 6.0;

/// The places of things of these widths side by side, and in a further line below where there is no room.
pub fn side_by_side(needs: &[f64], width: f64, line: f64) -> Vec<Point> {
    let mut next = at(0.0, 0.0);
    let places = needs.iter().map(|need| {
        if next.x > 0.0 && next.x + need > width {
            next = at(0.0, next.y + line);
        }
        let place = next;
        next.x += need + 22.0;
        place
    });
    places.collect()
}

fn sides(area: Area) -> String {
    format!("x=\"{}\" y=\"{}\" width=\"{}\" height=\"{}\"", n(area.left()), n(area.top()), n(area.width), n(area.height))
}

fn pointed(area: Area) -> String {
    let (l, r, t, b) = (area.left(), area.right(), area.top(), area.bottom());
    let points = [(l, area.middle.y), (l + POINT, t), (r - POINT, t), (r, area.middle.y), (r - POINT, b), (l + POINT, b)];
    let words: Vec<String> = points.iter().map(|(x, y)| format!("{} {}", n(*x), n(*y))).collect();
    format!("M{}Z", words.join("L"))
}

/// A route as a line that leaves and reaches each of its points upright; it ends a little before the last, where the tip begins.
fn curve(route: &[Point], end: Point) -> String {
    let mut d = format!("M{} {}", n(route[0].x), n(route[0].y));
    let mut from = route[0];
    for (k, point) in route.iter().enumerate().skip(1) {
        let to = if k + 1 == route.len() { end } else { *point };
        let half = (from.y + to.y) / 2.0;
        let _ = if (from.x - to.x).abs() < 0.05 {
            write!(d, "V{}", n(to.y))
        } else {
            write!(d, "C{} {} {} {} {} {}", n(from.x), n(half), n(to.x), n(half), n(to.x), n(to.y))
        };
        from = to;
    }
    d
}

/// A number with one digit after the point, or none where that is 0.
pub fn n(value: f64) -> String {
    let text = format!("{:.1}", value);
    text.strip_suffix(".0").map_or(text.clone(), |whole| if whole == "-0" { "0".to_string() } else { whole.to_string() })
}

fn attributes(told: Told) -> String {
    told.iter().map(|(name, value)| format!(" {}=\"{}\"", name, escaped(value))).collect()
}

pub fn escaped(text: &str) -> String {
    text.replace('&', "&amp;").replace('<', "&lt;").replace('>', "&gt;").replace('"', "&quot;")
}

#[cfg(test)]
mod tests {
    use super::*;

    #[test]
    fn numbers() {
        assert_eq!([n(0.0), n(-0.01), n(12.34), n(7.96), n(-3.5)], ["0", "0", "12.3", "8", "-3.5"]);
    }

    #[test]
    fn curves_end_where_the_tip_begins() {
        assert_eq!(curve(&[at(0.0, 0.0), at(0.0, 10.0), at(8.0, 30.0)], at(8.0, 21.0)), "M0 0V10C0 15.5 8 15.5 8 21");
    }

    #[test]
    fn a_file() {
        let mut picture = Picture::new(20.0, 10.0, &style::MAZE);
        picture.outline(Outline::Square, Area { middle: at(10.0, 5.0), width: 8.0, height: 4.0 }, &[("class", "a<b")]);
        let file = picture.file("A & B", "");
        assert!(file.contains("<title>A &amp; B</title>") && file.contains("<rect x=\"6\" y=\"3\" width=\"8\" height=\"4\" rx=\"1\" class=\"a&lt;b\"/>"));
        assert!(file.starts_with("<svg xmlns=") && !picture.element("", "").contains("xmlns"));
    }
}
