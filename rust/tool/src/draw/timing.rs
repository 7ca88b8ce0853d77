//! A timing diagram: rows of levels or words over columns of instants, in bands one below the other where there are many. What is not known is neither high
//! nor low but a hatched box.

use super::heads::{Lines, LEAST};
use super::style;
use super::text::{widest, Words};
use super::{at, n, side_by_side, Area, Picture, Point};
use crate::sets::UNKNOWN;
use crate::walk::grouped;

#[derive(Clone, Copy, PartialEq, Eq, Debug)]
pub enum Level {
    Present,
    Absent,
    /// Known of an instant that was refused, and not to be switched.
    ToldPresent,
    ToldAbsent,
    /// An input that is not heard.
    Unheard,
    /// An output of a refused instant.
    Unknown,
}

use Level::*;

impl Level {
    /// The class of what is drawn.
    pub fn class(self) -> &'static str {
        match self {
            Present => "level present",
            Absent => "level absent",
            ToldPresent => "level present told",
            ToldAbsent => "level absent told",
            Unheard => "level unheard",
            Unknown => "level unknown",
        }
    }

    fn word(self) -> &'static str {
        match self {
            Present => "present",
            Absent => "absent",
            ToldPresent => "known present, and not to be switched",
            ToldAbsent => "known absent",
            Unheard => "not heard",
            Unknown => "unknown",
        }
    }

    /// How far below the top of its row its line is; none where it is a box.
    fn height(self) -> Option<f64> {
        match self {
            Present | ToldPresent => Some(HIGH),
            Absent | ToldAbsent => Some(LOW),
            Unheard | Unknown => None,
        }
    }
}

#[derive(Clone, PartialEq, Eq, Debug)]
pub enum Cell {
    Level(Level),
    Words(String),
    /// The number of a refusal.
    Flag(String),
    Nothing,
}

/// A row, with as many cells as there are instants.
pub struct Row {
    pub name: String,
    pub cells: Vec<Cell>,
}

pub struct Group {
    pub title: String,
    /// What its rows are, for who reads the file: input, output, or of which block.
    pub class: &'static str,
    pub rows: Vec<Row>,
}

pub struct Timing {
    pub heading: String,
    /// The lines under the heading.
    pub about: Vec<String>,
    pub instants: Vec<u64>,
    pub groups: Vec<Group>,
    /// A column that is framed, and what is said of it.
    pub mark: Option<(usize, String)>,
    /// What else is said, under the diagram.
    pub notes: Vec<String>,
}

const MARGIN: f64 = 20.0;
const ROW: f64 = 24.0;
const TITLE: f64 = 22.0;
/// Room for the numbers of the instants.
const TOP: f64 = 22.0;
const HIGH: f64 = 4.0;
const LOW: f64 = 20.0;
/// Between the last row of a group and the line under it.
const GAP: f64 = 7.0;
/// Between two bands.
const APART: f64 = 22.0;
/// On a page there is so much room for the key at least.
const ON_PAGE: f64 = 640.0;
/// No band is wider where it can be parted.
const MOST: f64 = 1000.0;

/// The widths of a diagram: of its names and of a column, and how many columns stand side by side.
struct Sizes {
    left: f64,
    column: f64,
    side: usize,
}

impl Timing {
    /// A file of its own.
    pub fn file(&self) -> String {
        self.drawn(true).file(&self.heading, &self.in_a_line())
    }

    /// For a page that has the style, and the heading.
    pub fn element(&self) -> String {
        self.drawn(false).element(&self.heading, &self.in_a_line())
    }

    /// What is said over and under it, for who cannot see it.
    fn in_a_line(&self) -> String {
        self.about.iter().chain(&self.notes).map(String::as_str).collect::<Vec<_>>().join("; ")
    }

    fn cells(&self) -> impl Iterator<Item = &Cell> {
        self.groups.iter().flat_map(|group| &group.rows).flat_map(|row| &row.cells)
    }

    fn sizes(&self) -> Sizes {
        let names = self.groups.iter().flat_map(|group| &group.rows).map(|row| name(&row.name).width());
        let left = names.fold(60.0, f64::max) + 12.0;
        let words = self.cells().map(|cell| match cell {
            Cell::Words(text) => small(text).width(),
            Cell::Flag(text) => flag(text).width() + 8.0,
            _ => 0.0,
        });
        let column = words.chain(self.instants.iter().map(|number| small(&grouped(*number)).width())).fold(20.0, f64::max) + 8.0;
        let side = (((MOST - left) / column) as usize).max(1);
        Sizes { left, column, side }
    }

    fn band_height(&self) -> f64 {
        TOP + self.groups.iter().map(|group| TITLE + ROW * group.rows.len() as f64 + GAP).sum::<f64>()
    }

    fn drawn(&self, has_heads: bool) -> Picture {
        let sizes = self.sizes();
        let wide = sizes.left + sizes.column * sizes.side.min(self.instants.len()) as f64;
        let least = widest(&self.groups.iter().map(|group| title(&group.title)).collect::<Vec<_>>(), wide.max(LEAST));
        let heads = if has_heads { Lines::heading(&self.heading, &self.about, least) } else { Lines::default() };
        let mut notes = Lines::default();
        self.mark.iter().for_each(|(_, said)| notes.add(&Words::bold(said.as_str(), 12.0), "differs", least));
        self.notes.iter().for_each(|note| notes.add(&Words::new(note.as_str(), 12.0), "note", least));
        let inner = notes.width(heads.width(least));
        let top = MARGIN + heads.height(8.0);
        let bands = self.instants.chunks(sizes.side).count() as f64;
        let foot = top + bands * (self.band_height() + APART) - if bands > 0.0 { APART } else { 0.0 } + 16.0;
        let under = foot + notes.height(2.0);
        let inner = if has_heads { inner } else { inner.max(ON_PAGE) };
        let key = key(self, inner);
        let height = under + key.last().map_or(0.0, |item| item.at.y + 26.0) + MARGIN;
        let mut picture = Picture::new(inner + 2.0 * MARGIN, height, &style::TIMING);
        heads.draw(at(MARGIN, MARGIN), &mut picture);
        for band in 0..bands as usize {
            let corner = at(MARGIN, top + band as f64 * (self.band_height() + APART));
            self.band(band * sizes.side, &sizes, corner, &mut picture);
        }
        notes.draw(at(MARGIN, foot - 3.0), &mut picture);
        key.iter().for_each(|item| item.draw(at(MARGIN, under), &mut picture));
        picture
    }

    /// The columns from one on, as many as stand side by side.
    fn band(&self, first: usize, sizes: &Sizes, corner: Point, picture: &mut Picture) {
        let last = (first + sizes.side).min(self.instants.len());
        let left = |column: usize| corner.x + sizes.left + sizes.column * (column - first) as f64;
        picture.open(&[("class", "band")]);
        for column in first..last {
            let middle = left(column) + sizes.column / 2.0;
            picture.words(at(middle, corner.y + 13.0), &small(&grouped(self.instants[column])), "faint instant");
        }
        let mut y = corner.y + TOP;
        for group in &self.groups {
            picture.open(&[("class", group.class)]);
            picture.line(&format!("M{} {}H{}", n(corner.x), n(y), n(left(last))), &[("class", "rule")]);
            picture.words_from(at(corner.x, y + 15.0), &title(&group.title), "faint title");
            y += TITLE;
            let grid: String = (first..=last).map(|column| format!("M{} {}V{}", n(left(column)), n(y), n(y + ROW * group.rows.len() as f64))).collect();
            picture.line(&grid, &[("class", "grid")]);
            for row in &group.rows {
                self.row(row, first..last, sizes, at(corner.x, y), picture);
                y += ROW;
            }
            picture.close();
            y += GAP;
        }
        if let Some((column, _)) = self.mark.as_ref().filter(|(column, _)| (first..last).contains(column)) {
            picture.rect(Area::of(left(*column) - 1.0, corner.y - 2.0, sizes.column + 2.0, y - corner.y + 4.0), &[("class", "mark")]);
        }
        picture.close();
    }

    fn row(&self, row: &Row, columns: std::ops::Range<usize>, sizes: &Sizes, corner: Point, picture: &mut Picture) {
        picture.open(&[("class", "row"), ("data-row", &row.name)]);
        picture.title(&self.in_words(row));
        picture.words_to(at(corner.x + sizes.left - 10.0, corner.y + 16.0), &name(&row.name), "name");
        let mut before = None;
        for (k, column) in columns.enumerate() {
            let place = Area::of(corner.x + sizes.left + sizes.column * k as f64, corner.y, sizes.column, ROW);
            let instant = self.instants[column].to_string();
            before = cell(&row.cells[column], place, before, &instant, picture);
        }
        picture.close();
    }

    /// A row for who cannot see it: its levels in words, those in a row together.
    fn in_words(&self, row: &Row) -> String {
        let mut parts: Vec<(String, u64, u64)> = Vec::new();
        for (cell, instant) in row.cells.iter().zip(&self.instants) {
            let word = match cell {
                Cell::Level(level) => level.word().to_string(),
                Cell::Words(text) | Cell::Flag(text) => text.clone(),
                Cell::Nothing => continue,
            };
            match parts.last_mut() {
                Some((last, _, to)) if *last == word && *to + 1 == *instant => *to = *instant,
                _ => parts.push((word, *instant, *instant)),
            }
        }
        let told = parts.iter().map(|(word, from, to)| if from == to { format!("{} in {}", word, from) } else { format!("{} in {} to {}", word, from, to) });
        format!("{}: {}", row.name, told.collect::<Vec<_>>().join(", "))
    }
}

fn name(text: &str) -> Words {
    Words::new(text, 12.0)
}

fn title(text: &str) -> Words {
    Words::bold(text, 11.0)
}

fn small(text: &str) -> Words {
    Words::new(text, 11.0)
}

fn flag(text: &str) -> Words {
    Words::bold(text, 11.0)
}

/// Draws a cell of an instant, with the upright line from the level before it; says at which level it leaves off.
fn cell(cell: &Cell, place: Area, before: Option<f64>, instant: &str, picture: &mut Picture) -> Option<f64> {
    let foot = at(place.middle.x, place.top() + 16.0);
    // A sample of the key is of no instant.
    let told = |class: &'static str| [("class", class), ("data-instant", instant)].into_iter().filter(|(_, value)| !value.is_empty()).collect::<Vec<_>>();
    match cell {
        Cell::Level(level) => return drawn_level(*level, place, before, &told(level.class()), picture),
        Cell::Words(text) => picture.words(foot, &small(text), "value"),
        Cell::Flag(text) => {
            let inner = Area { width: flag(text).width() + 6.0, height: 14.0, ..place };
            let outer = Area { width: place.width - 3.0, height: ROW - 5.0, ..place };
            picture.rect(outer, &told("flag"));
            picture.hatch(outer);
            picture.rect(inner, &[("class", "plate")]);
            picture.words(foot, &flag(text), "refusal");
        }
        Cell::Nothing => {}
    }
    None
}

fn drawn_level(level: Level, place: Area, before: Option<f64>, told: &[(&str, &str)], picture: &mut Picture) -> Option<f64> {
    let (left, right, top) = (place.left(), place.left() + place.width, place.top());
    let height = match level.height() {
        Some(height) => height,
        None => {
            let area = Area::of(left + 0.5, top + HIGH, place.width - 1.0, LOW - HIGH);
            picture.rect(area, told);
            match level {
                Unheard => picture.words(at(place.middle.x, top + 16.0), &flag("?"), "value"),
                _ => picture.hatch(area),
            }
            return None;
        }
    };
    if level == Present {
        picture.rect(Area::of(left, top + HIGH, place.width, LOW - HIGH), &[("class", "under")]);
    }
    let edge = before.filter(|other| *other != height).map_or(String::new(), |other| format!("{}V", n(top + other)));
    picture.line(&format!("M{} {}{}H{}", n(left), edge, n(top + height), n(right)), told);
    Some(height)
}

/// An item of the key: a sample cell, and what it says.
struct Item {
    sample: Cell,
    words: Words,
    at: Point,
}

const SAMPLE: f64 = 40.0;
/// The row of the codes, and what its words say.
pub const CODE: &str = "code";
const SAYS: [(&str, &str); 3] = [("0", "code 0: ended"), ("1", "code 1: waits"), (UNKNOWN, "no outputs")];

/// What of these stands in the diagram is explained.
fn key(timing: &Timing, width: f64) -> Vec<Item> {
    let has = |level: Level| timing.cells().any(|cell| *cell == Cell::Level(level));
    let levels = [Present, Absent, ToldPresent, ToldAbsent, Unheard, Unknown].iter().copied().filter(|level| has(*level));
    let mut all: Vec<(Cell, Words)> = levels.map(|level| (Cell::Level(level), small(level.word()))).collect();
    if timing.cells().any(|cell| matches!(cell, Cell::Flag(_))) {
        all.push((Cell::Flag("n".to_string()), small("refused with number n: it has no outputs")));
    }
    // The words of a row are explained where they stand in it.
    let codes = timing.groups.iter().flat_map(|group| &group.rows).filter(|row| row.name == CODE).flat_map(|row| &row.cells);
    let codes: Vec<&Cell> = codes.collect();
    for (word, says) in SAYS {
        let cell = Cell::Words(word.to_string());
        if codes.contains(&&cell) {
            all.push((cell, small(says)));
        }
    }
    let needs: Vec<f64> = all.iter().map(|(_, words)| SAMPLE + words.width()).collect();
    all.into_iter().zip(side_by_side(&needs, width, 26.0)).map(|((sample, words), at)| Item { sample, words, at }).collect()
}

impl Item {
    fn draw(&self, corner: Point, picture: &mut Picture) {
        picture.open(&[("class", "key")]);
        let place = Area::of(corner.x + self.at.x, corner.y + self.at.y, SAMPLE - 8.0, ROW);
        cell(&self.sample, place, None, "", picture);
        picture.words_from(at(corner.x + self.at.x + SAMPLE, corner.y + self.at.y + 16.0), &self.words, "faint");
        picture.close();
    }
}

#[cfg(test)]
mod tests {
    use super::*;

    fn timing(count: u64, cell: Cell) -> Timing {
        let row = Row { name: "A".to_string(), cells: (0..count).map(|_| cell.clone()).collect() };
        let group = Group { title: "inputs".to_string(), class: "inputs", rows: vec![row] };
        Timing { heading: "H".to_string(), about: Vec::new(), instants: (1..=count).collect(), groups: vec![group], mark: None, notes: Vec::new() }
    }

    #[test]
    fn bands_hold_every_instant_once() {
        for count in [0, 1, 2, 33, 34, 100] {
            let file = timing(count, Cell::Level(Present)).file();
            let all: Vec<String> = (1..=count).map(|instant| format!("data-instant=\"{}\"", instant)).collect();
            assert!(all.iter().all(|word| file.matches(word.as_str()).count() == 1), "{}", count);
        }
    }

    #[test]
    fn unknown_is_never_low() {
        let file = timing(3, Cell::Level(Unknown)).file();
        assert!(file.contains("level unknown") && !file.contains("level absent") && !file.contains("level present"));
    }

    #[test]
    fn rows_in_words() {
        let mut t = timing(4, Cell::Level(Absent));
        t.groups[0].rows[0].cells[1] = Cell::Level(Present);
        t.groups[0].rows[0].cells[2] = Cell::Level(Present);
        assert_eq!(t.in_words(&t.groups[0].rows[0]), "A: absent in 1, present in 2 to 3, absent in 4");
    }
}
