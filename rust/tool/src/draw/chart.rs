//! A tree as a chart of boxes within boxes: what comes one after the other stands one below the other, what runs at once side by side, and a frame goes round what it
//! holds. Every box lies within the one that it belongs to.

use super::text::Words;
use super::{at, n, Area, Picture};

/// How the parts of a box stand.
#[derive(Clone, Copy, PartialEq, Eq, Debug)]
pub enum Stands {
    /// It has none.
    Alone,
    /// One below the other, without a frame of their own.
    Below,
    /// Side by side, with two lines between neighbours and no frame of their own; in further rows where they would be too wide. Such a part of such a box stands with
    /// its own parts in these rows.
    Beside,
    /// Under its words, side by side, each under a word of its own.
    Branches,
    /// Under its words, within its frame.
    Within,
}

/// A box by its number, the words in it, what it is besides, and what is told who points at it.
pub struct Told {
    pub number: usize,
    pub words: String,
    pub class: String,
    pub title: String,
}

pub struct Frame {
    told: Told,
    stands: Stands,
    parts: Vec<Frame>,
    /// The parts whose own parts stand among these.
    within: Vec<Told>,
    /// The words over each part, of branches.
    over: &'static [&'static str],
    /// The least width and height that it can have, reckoned once.
    size: (f64, f64),
}

const LINE: f64 = 22.0;
const SIDE: f64 = 9.0;
/// How far a frame is from what it holds.
const INSET: f64 = 9.0;
/// The room of a sign that a box is active.
const SIGN: f64 = 15.0;
/// Between two that run at once.
const TWIN: f64 = 5.0;
/// No row of them is wider, where it has more than one.
const WIDEST: f64 = 1400.0;

impl Frame {
    pub fn new(told: Told, stands: Stands, parts: Vec<Frame>, over: &'static [&'static str]) -> Frame {
        let (mut all, mut within) = (Vec::new(), Vec::new());
        for part in parts {
            if stands == Stands::Beside && part.stands == Stands::Beside {
                within.push(part.told);
                within.extend(part.within);
                all.extend(part.parts);
            } else {
                all.push(part);
            }
        }
        let mut made = Frame { told, stands, parts: all, within, over, size: (0.0, 0.0) };
        made.size = made.least();
        made
    }

    pub fn size(&self) -> (f64, f64) {
        self.size
    }

    fn label(&self) -> Words {
        match self.stands {
            Stands::Alone => Words::new(self.told.words.as_str(), 12.0),
            _ => Words::bold(self.told.words.as_str(), 12.0),
        }
    }

    fn number_words(&self) -> Words {
        Words::new(self.told.number.to_string(), 9.0)
    }

    fn is_active(&self) -> bool {
        self.told.class.split(' ').any(|class| class == "active")
    }

    /// The width of its own words with its number, and its sign where it has one.
    fn head(&self) -> f64 {
        let sign = if self.is_active() { SIGN } else { 0.0 };
        SIDE + self.number_words().width() + 6.0 + sign + self.label().width() + SIDE
    }

    fn least(&self) -> (f64, f64) {
        let sizes: Vec<(f64, f64)> = self.parts.iter().map(Frame::size).collect();
        let sum = (fold(&sizes, |s| s.0, |a, b| a + b), fold(&sizes, |s| s.1, |a, b| a + b));
        let most = (fold(&sizes, |s| s.0, f64::max), fold(&sizes, |s| s.1, f64::max));
        match self.stands {
            Stands::Alone => (self.head(), LINE),
            Stands::Below => (most.0, sum.1),
            Stands::Beside => {
                let rows: Vec<(f64, f64)> = self.rows().iter().map(|row| beside(row)).collect();
                (fold(&rows, |s| s.0, f64::max), fold(&rows, |s| s.1, |a, b| a + b) + gaps(rows.len()))
            }
            Stands::Branches => (self.head().max(self.branch_widths().iter().sum()), 2.0 * LINE - 4.0 + most.1),
            Stands::Within => (self.head().max(most.0 + 2.0 * INSET), LINE + most.1 + INSET),
        }
    }

    /// Those that run at once, as many in a row as there is room for.
    fn rows(&self) -> Vec<&[Frame]> {
        let (mut rows, mut first, mut width) = (Vec::new(), 0, 0.0);
        for (k, part) in self.parts.iter().enumerate() {
            if k > first && width + TWIN + part.size.0 > WIDEST {
                rows.push(&self.parts[first..k]);
                first = k;
            }
            width = if k == first { part.size.0 } else { width + TWIN + part.size.0 };
        }
        rows.push(&self.parts[first..]);
        rows
    }

    /// The width of each branch, with room for the word over it.
    fn branch_widths(&self) -> Vec<f64> {
        self.parts.iter().zip(self.over).map(|(part, over)| part.size().0.max(Words::new(*over, 10.0).width() + 2.0 * SIDE)).collect()
    }

    pub fn draw(&self, area: Area, picture: &mut Picture) {
        self.told.open(picture);
        match self.stands {
            Stands::Alone => {
                picture.rect(area, &[("class", "box")]);
                self.draw_head(Area::of(area.left(), area.top(), area.width, LINE), picture);
            }
            Stands::Below => self.draw_below(area, picture),
            Stands::Beside => self.draw_rows(area, picture),
            Stands::Branches => self.draw_branches(area, picture),
            Stands::Within => self.draw_within(area, picture),
        }
        picture.close();
    }

    fn draw_head(&self, line: Area, picture: &mut Picture) {
        let foot = line.top() + 15.5;
        let number = self.number_words();
        picture.words_from(at(line.left() + SIDE - 4.0, foot - 0.5), &number, "faint number");
        let mut x = line.left() + SIDE + number.width() + 6.0 - 2.0;
        if self.is_active() {
            let (top, left) = (line.top() + 6.0, x);
            picture.line(&format!("M{} {}V{}L{} {}Z", n(left), n(top), n(top + 10.0), n(left + 9.0), n(top + 5.0)), &[("class", "sign")]);
            x += SIGN;
        }
        picture.words_from(at(x, foot), &self.label(), "words");
    }

    /// One below the other; the last takes what room is left.
    fn draw_below(&self, area: Area, picture: &mut Picture) {
        let mut y = area.top();
        for (k, part) in self.parts.iter().enumerate() {
            let height = if k + 1 == self.parts.len() { area.top() + area.height - y } else { part.size().1 };
            part.draw(Area::of(area.left(), y, area.width, height), picture);
            y += height;
        }
    }

    fn draw_rows(&self, area: Area, picture: &mut Picture) {
        for told in &self.within {
            told.open(picture);
            picture.close();
        }
        let rows = self.rows();
        let mut y = area.top();
        for (k, row) in rows.iter().enumerate() {
            let height = if k + 1 == rows.len() { area.top() + area.height - y } else { beside(row).1 };
            if k > 0 {
                let (left, right) = (n(area.left()), n(area.left() + area.width));
                picture.line(&format!("M{} {}H{}M{} {}H{}", left, n(y - TWIN + 1.0), right, left, n(y - 1.0), right), &[("class", "twin")]);
            }
            let widths: Vec<f64> = row.iter().map(|part| part.size.0).collect();
            draw_beside(row, &[], Area::of(area.left(), y, area.width, height), TWIN, &widths, picture);
            y += height + TWIN;
        }
    }

    fn draw_branches(&self, area: Area, picture: &mut Picture) {
        picture.rect(area, &[("class", "head")]);
        self.draw_head(Area::of(area.left(), area.top(), area.width, LINE), picture);
        let rest = Area::of(area.left(), area.top() + LINE, area.width, area.height - LINE);
        draw_beside(&self.parts, self.over, rest, 0.0, &self.branch_widths(), picture);
    }

    fn draw_within(&self, area: Area, picture: &mut Picture) {
        picture.rect(area, &[("class", "head")]);
        self.draw_head(Area::of(area.left(), area.top(), area.width, LINE), picture);
        if let Some(part) = self.parts.first() {
            part.draw(Area::of(area.left() + INSET, area.top() + LINE, area.width - 2.0 * INSET, area.height - LINE - INSET), picture);
        }
    }
}

impl Told {
    fn open(&self, picture: &mut Picture) {
        picture.open(&[("class", &self.class), ("data-statement", &self.number.to_string())]);
        picture.title(&self.title);
    }
}

/// Side by side, each under its word where there are words; what room is left is shared.
fn draw_beside(parts: &[Frame], over: &[&str], area: Area, apart: f64, widths: &[f64], picture: &mut Picture) {
    let count = parts.len() as f64;
    let more = (area.width - widths.iter().sum::<f64>() - apart * (count - 1.0)).max(0.0) / count.max(1.0);
    let down = if over.is_empty() { 0.0 } else { LINE - 4.0 };
    let mut x = area.left();
    for (k, (part, width)) in parts.iter().zip(widths).enumerate() {
        if k > 0 && apart > 0.0 {
            let (top, foot) = (n(area.top()), n(area.top() + area.height));
            picture.line(&format!("M{} {}V{}M{} {}V{}", n(x - apart + 1.0), top, foot, n(x - 1.0), top, foot), &[("class", "twin")]);
        }
        if let Some(over) = over.get(k) {
            picture.words(at(x + (width + more) / 2.0, area.top() + 13.0), &Words::new(*over, 10.0), "faint over");
        }
        part.draw(Area::of(x, area.top() + down, width + more, area.height - down), picture);
        x += width + more + apart;
    }
}

/// The least size of some that run at once, in one row.
fn beside(row: &[Frame]) -> (f64, f64) {
    let sizes: Vec<(f64, f64)> = row.iter().map(Frame::size).collect();
    (fold(&sizes, |s| s.0, |a, b| a + b) + gaps(row.len()), fold(&sizes, |s| s.1, f64::max))
}

fn gaps(count: usize) -> f64 {
    TWIN * count.saturating_sub(1) as f64
}

fn fold(sizes: &[(f64, f64)], of: fn(&(f64, f64)) -> f64, with: fn(f64, f64) -> f64) -> f64 {
    sizes.iter().map(of).fold(0.0, with)
}
