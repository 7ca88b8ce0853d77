//! The maze as a picture: the rooms in layers with their corridors, a heading, and a key to what the outlines and the arrows say.

use super::board::{End, Place};
use super::words::size;
use super::Asked;
use crate::draw::layers::{lay, Laid};
use crate::draw::text::Words;
use crate::draw::{at, side_by_side, style, Area, Outline, Picture, Point, Tip, POINT};
use foldheron::Room;

const MARGIN: f64 = 20.0;
const LINE: f64 = 15.0;
/// No picture is narrower: the key has to have its place.
const LEAST: f64 = 460.0;

/// A file of its own.
pub fn file(asked: &Asked) -> String {
    drawn(asked, &[Words::bold(heading(asked), 15.0), Words::new(size(asked), 12.0)]).file(&heading(asked), &about(asked))
}

/// For a page that has the style, and the heading.
pub fn element(asked: &Asked) -> String {
    drawn(asked, &[]).element(&heading(asked), &about(asked))
}

pub fn heading(asked: &Asked) -> String {
    format!("The maze of {}, {}", asked.block.title(), asked.given())
}

fn about(asked: &Asked) -> String {
    format!("The two-player maze of the block's first instant: {}.", size(asked))
}

fn drawn(asked: &Asked, heads: &[Words]) -> Picture {
    let labels: Vec<Vec<Words>> = (0..asked.board.places.len()).map(|n| label(asked, n)).collect();
    let arrows: Vec<(usize, usize)> = asked.board.places.iter().enumerate().flat_map(|(from, place)| place.ways.iter().map(move |way| (from, way.to))).collect();
    let mut ends: Vec<usize> = asked.board.places.iter().map(|place| place.ways.len()).collect();
    arrows.iter().for_each(|(_, to)| ends[*to] += 1);
    let all = asked.board.places.iter().zip(&labels).zip(&ends);
    let sizes: Vec<(f64, f64)> = all.map(|((place, lines), ends)| (wide(place, lines, *ends), 12.0 + LINE * lines.len() as f64)).collect();
    let laid = lay(&sizes, &arrows, |n| matches!(asked.board.places[n].room, Room::Signal(_)));
    let inner = heads.iter().map(Words::width).fold(laid.width.max(LEAST), f64::max);
    let top = MARGIN + 26.0 * heads.len() as f64;
    let key = key(inner);
    let foot = top + laid.height + 30.0;
    let mut picture = Picture::new(inner + 2.0 * MARGIN, foot + key.last().map_or(0.0, |item| item.at.y + 34.0) + MARGIN, &style::MAZE);
    for (k, line) in heads.iter().enumerate() {
        picture.words(at(MARGIN + line.width() / 2.0, MARGIN + 14.0 + 20.0 * k as f64), line, if k == 0 { "head" } else { "faint" });
    }
    let corner = at(MARGIN + (inner - laid.width) / 2.0, top);
    corridors(asked, &laid, corner, &mut picture);
    rooms(asked, &laid, &labels, corner, &mut picture);
    key.iter().for_each(|item| item.draw(at(MARGIN, foot), &mut picture));
    picture
}

/// The lines in a room.
fn label(asked: &Asked, n: usize) -> Vec<Words> {
    let place = &asked.board.places[n];
    let (what, end) = (asked.what(place.room), place.end.word());
    let lost = if place.ways.is_empty() { ": no way out" } else { "" };
    match (place.room, asked.sees(place.room)) {
        (Room::Dungeon, _) => vec![Words::bold(what, 13.0), Words::new("no way out", 11.0)],
        (_, Some(signal)) => vec![Words::new(what, 12.0), Words::new(format!("for {}", signal), 11.0), Words::new(format!("{}{}", end, lost), 11.0)],
        _ => vec![Words::bold(what, 14.0), Words::new(format!("{}: {}", end, place.end.status()), 11.0)],
    }
}

/// Wide enough for its lines, and for the corridors that begin and end there.
fn wide(place: &Place, lines: &[Words], ends: usize) -> f64 {
    let side = match outline(place) {
        Outline::Pointed => POINT + 8.0,
        Outline::Barred => 28.0,
        _ => 12.0,
    };
    let least = 40.0 + 11.0 * (ends as f64).min(120.0);
    least.max(lines.iter().map(Words::width).fold(0.0, f64::max) + 2.0 * side)
}

fn outline(place: &Place) -> Outline {
    match (place.room, place.end) {
        (Room::Dungeon, _) => Outline::Barred,
        (_, End::Wins) => Outline::Round,
        (_, End::Loses) => Outline::Square,
        (_, End::Draws) => Outline::Pointed,
    }
}

fn class(place: &Place) -> String {
    let sort = match place.room {
        Room::Signal(_) => "room named",
        Room::Dungeon => "room dungeon",
        _ => "room",
    };
    format!("{} {}", sort, place.end.word())
}

fn rooms(asked: &Asked, laid: &Laid, labels: &[Vec<Words>], corner: Point, picture: &mut Picture) {
    for (n, place) in asked.board.places.iter().enumerate() {
        let area = Area { middle: at(corner.x + laid.areas[n].middle.x, corner.y + laid.areas[n].middle.y), ..laid.areas[n] };
        picture.open(&[("class", &class(place)), ("data-room", &asked.id(n))]);
        picture.title(&format!("{}: {}", asked.name(n), place.end.word()));
        picture.outline(outline(place), area, &[("class", "outline")]);
        for (k, line) in labels[n].iter().enumerate() {
            let foot = area.middle.y + LINE * (k as f64 - labels[n].len() as f64 / 2.0) + 11.0;
            let class = match k {
                0 => "name",
                _ if k + 1 == labels[n].len() && place.room != Room::Dungeon => "faint end",
                _ => "faint",
            };
            picture.words(at(area.middle.x, foot), line, class);
        }
        picture.close();
    }
}

fn corridors(asked: &Asked, laid: &Laid, corner: Point, picture: &mut Picture) {
    let mut routes = laid.routes.iter();
    for (from, place) in asked.board.places.iter().enumerate() {
        for (k, way) in place.ways.iter().enumerate() {
            let route: Vec<Point> = routes.next().map_or(Vec::new(), |route| route.iter().map(|p| at(corner.x + p.x, corner.y + p.y)).collect());
            let best = if asked.board.marked(from) == Some(k) { " best" } else { "" };
            let (sort, tip) = if way.visible { ("visible", Tip::Filled) } else { ("secret", Tip::Hollow) };
            let told = [("class", format!("corridor {}{}", sort, best)), ("data-from", asked.id(from)), ("data-to", asked.id(way.to))];
            picture.arrow(&route, tip, &[(told[0].0, &told[0].1), (told[1].0, &told[1].1), (told[2].0, &told[2].1)]);
        }
    }
}

/// An item of the key: a small room or a short corridor, and what it says.
struct Item {
    sample: Sample,
    words: Words,
    at: Point,
}

#[derive(Clone, Copy)]
enum Sample {
    Room(Outline, &'static str),
    Corridor(Tip, &'static str),
}

const KEY: [(Sample, &str); 7] = [
    (Sample::Room(Outline::Round, "wins"), "who is to move wins"),
    (Sample::Room(Outline::Square, "loses"), "who is to move loses"),
    (Sample::Room(Outline::Pointed, "draws"), "draw: neither can win"),
    (Sample::Room(Outline::Barred, "dungeon"), "no corridor: lost"),
    (Sample::Corridor(Tip::Filled, "visible"), "visible: the other is to move"),
    (Sample::Corridor(Tip::Hollow, "secret"), "secret: who took it moves on"),
    (Sample::Corridor(Tip::Filled, "visible best"), "the move to make: it wins, or alone keeps the draw"),
];

impl Sample {
    /// How far the words stand from its left side.
    fn room(self) -> f64 {
        match self {
            Sample::Room(..) => 52.0,
            Sample::Corridor(..) => 18.0,
        }
    }
}

/// The items side by side, and below each other where there is no room.
fn key(width: f64) -> Vec<Item> {
    let words: Vec<Words> = KEY.iter().map(|(_, text)| Words::new(*text, 11.0)).collect();
    let needs: Vec<f64> = KEY.iter().zip(&words).map(|((sample, _), words)| sample.room() + words.width()).collect();
    let places = side_by_side(&needs, width, 34.0);
    KEY.iter().zip(words).zip(places).map(|(((sample, _), words), at)| Item { sample: *sample, words, at }).collect()
}

impl Item {
    fn draw(&self, corner: Point, picture: &mut Picture) {
        let middle = at(corner.x + self.at.x + (self.sample.room() - 8.0) / 2.0, corner.y + self.at.y + 14.0);
        let class = match self.sample {
            Sample::Room(_, class) | Sample::Corridor(_, class) => format!("key {}", class),
        };
        match self.sample {
            Sample::Room(outline, _) => {
                picture.open(&[("class", &class)]);
                picture.outline(outline, Area { middle, width: 44.0, height: 20.0 }, &[("class", "outline")]);
                picture.close();
            }
            Sample::Corridor(tip, _) => picture.arrow(&[at(middle.x, middle.y - 14.0), at(middle.x, middle.y + 14.0)], tip, &[("class", &class)]),
        }
        picture.words(at(corner.x + self.at.x + self.sample.room() + self.words.width() / 2.0, middle.y + 4.0), &self.words, "faint");
    }
}

#[cfg(test)]
mod tests {
    use super::*;

    #[test]
    fn the_key_keeps_to_its_width() {
        for width in [LEAST, 700.0, 3000.0] {
            assert!(key(width).iter().all(|item| item.at.x + item.sample.room() + item.words.width() <= width), "{}", width);
        }
    }
}
