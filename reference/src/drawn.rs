//! A drawn maze, judged. `boards` makes blocks of the form with input sets; a program draws their mazes on pages, and `drawn` reads the pages: the rooms and corridors
//! that are told as data are those of the maze as it is built here, whoever is said to win does, and the picture shows every room and every corridor once, with no
//! two labels or rooms in one place and no corridor through a room.

use std::collections::BTreeMap;
use std::io::{self, BufRead};

use crate::block::{decode, encode};
use crate::chance::Chance;
use crate::fault::Fault;
use crate::generate::some_inputs;
use crate::maze::{maze, End, Maze};
use crate::mesh::Mesh;

/// Prints blocks of the form, in hex, each with an input set; none whose maze has over this many rooms.
pub fn print_boards(count: usize, seed: u64, most: usize) -> bool {
    let mut chance = Chance::new(seed);
    let mut made = 0;
    while made < count {
        let size = if made % 8 == 0 { 12 } else { 5 };
        let block = Mesh::some(&mut chance, size).block(&mut chance);
        let inputs = some_inputs(&block, &mut chance);
        if Maze::new(&block, inputs, Fault::None).rooms.len() <= most {
            made += 1;
            let bytes: String = encode(block.header, &block.root).iter().map(|byte| format!("{byte:02x}")).collect();
            println!("{bytes} {inputs:x}");
        }
    }
    true
}

/// Reads lines of a block, an input set and a page, all on one line; answers whether every page is true.
pub fn print_drawn() -> bool {
    let (mut pages, mut rooms, mut corridors, mut wrong) = (0, 0, 0, 0);
    for line in io::stdin().lock().lines().map_while(Result::ok) {
        pages += 1;
        match judged(&line) {
            Ok(told) => {
                rooms += told.len();
                corridors += told.iter().map(|room| room.corridors.len()).sum::<usize>();
            }
            Err(why) => {
                wrong += 1;
                println!("{why}: {}", line.chars().take(400).collect::<String>());
            }
        }
    }
    println!("note: {pages} mazes drawn with {rooms} rooms and {corridors} corridors, {wrong} wrongly");
    wrong == 0 && pages > 0
}

/// A room as it is told.
struct Told {
    id: String,
    end: String,
    moves: Option<usize>,
    best: Option<usize>,
    corridors: Vec<(bool, String)>,
}

fn between<'a>(text: &'a str, from: &str, to: &str) -> Option<&'a str> {
    text.split_once(from)?.1.split_once(to).map(|(part, _)| part)
}

fn parts<'a>(text: &'a str, begin: &'a str) -> impl Iterator<Item = &'a str> + 'a {
    text.split(begin).skip(1)
}

fn number(text: &str, key: &str) -> Option<usize> {
    text.split_once(&format!("\"{key}\":"))?.1.split(|c: char| !c.is_ascii_digit()).next()?.parse().ok()
}

fn room_of(part: &str) -> Option<Told> {
    let corridors = between(part, "\"corridors\":[", "]")?;
    Some(Told {
        id: part.split('"').next()?.to_string(),
        end: between(part, "\"end\":\"", "\"")?.to_string(),
        moves: number(part, "moves"),
        best: number(part, "best"),
        corridors: parts(corridors, "\"visible\":").map(|way| Some((way.starts_with("true"), between(way, "\"to\":\"", "\"")?.to_string()))).collect::<Option<_>>()?,
    })
}

fn judged(line: &str) -> Result<Vec<Told>, String> {
    let words: Vec<&str> = line.splitn(3, ' ').collect();
    let (digits, inputs, page) = match words[..] {
        [digits, inputs, page] => (digits, inputs, page),
        _ => return Err("no page".to_string()),
    };
    let bytes: Vec<u8> = (0..digits.len() / 2).filter_map(|n| u8::from_str_radix(&digits[2 * n..2 * n + 2], 16).ok()).collect();
    let inputs = u64::from_str_radix(inputs, 16).map_err(|_| "no set")?;
    let data = between(page, "id=\"maze\">", "</script>").ok_or("no data")?;
    let rooms: Vec<Told> = parts(data, "{\"room\":\"").map(room_of).collect::<Option<_>>().ok_or("a room that cannot be read")?;
    same_maze(&rooms, &bytes, inputs)?;
    same_ends(&rooms, &bytes, inputs, data)?;
    let picture = between(page, "<svg", "</svg>").ok_or("no picture")?;
    same_picture(&rooms, picture)?;
    Ok(rooms)
}

/// The rooms of the two mazes beside each other, from the signals' rooms on: each has one beside it, with corridors of the same sorts in the same order.
fn same_maze(rooms: &[Told], bytes: &[u8], inputs: u64) -> Result<(), String> {
    let block = decode(bytes, Fault::None).map_err(|_| "a block that is refused")?;
    let maze = Maze::new(&block, inputs, Fault::None);
    let place: BTreeMap<&str, usize> = rooms.iter().enumerate().map(|(n, room)| (room.id.as_str(), n)).collect();
    if place.len() != rooms.len() || rooms.len() != maze.rooms.len() {
        return Err(format!("{} rooms, {} by name, not {}", rooms.len(), place.len(), maze.rooms.len()));
    }
    let mut beside: Vec<Option<usize>> = vec![None; rooms.len()];
    let signals = block.header.inputs + block.header.outputs;
    let mut due: Vec<(usize, usize)> = Vec::new();
    for s in 0..signals {
        due.push((*place.get(format!("s{s}").as_str()).ok_or("a signal without a room")?, s as usize + 1));
    }
    while let Some((n, m)) = due.pop() {
        if beside[n].is_some() {
            if beside[n] != Some(m) {
                return Err(format!("{} stands for two rooms", rooms[n].id));
            }
            continue;
        }
        beside[n] = Some(m);
        if !rooms[n].corridors.iter().map(|way| way.0).eq(maze.rooms[m].iter().map(|way| way.0)) {
            return Err(format!("other corridors in {}", rooms[n].id));
        }
        for ((_, to), (_, other)) in rooms[n].corridors.iter().zip(&maze.rooms[m]) {
            due.push((*place.get(to.as_str()).ok_or("a corridor to no room")?, *other));
        }
    }
    let mut met: Vec<usize> = beside.iter().flatten().copied().collect();
    met.sort_unstable();
    met.dedup();
    if met.len() == rooms.len() { Ok(()) } else { Err("not every room is reached".to_string()) }
}

/// Solved backwards over the corridors that are told: who wins in each room, in how many moves, by which corridor; and the signals' words.
fn same_ends(rooms: &[Told], bytes: &[u8], inputs: u64, data: &str) -> Result<(), String> {
    let place: BTreeMap<&str, usize> = rooms.iter().enumerate().map(|(n, room)| (room.id.as_str(), n)).collect();
    let ways: Vec<Vec<(bool, usize)>> = rooms.iter().map(|room| room.corridors.iter().map(|(visible, to)| (*visible, place[to.as_str()])).collect()).collect();
    let ends = Maze::of(ways.clone()).solve();
    let moves = moves(&ways, &ends);
    for (n, room) in rooms.iter().enumerate() {
        let word = match ends[n] {
            End::Wins => "wins",
            End::Loses => "loses",
            End::Draws => "draws",
        };
        let wins = |(visible, to): (bool, usize)| ends[to] == if visible { End::Loses } else { End::Wins };
        let good = match (ends[n], room.best.and_then(|k| ways[n].get(k).copied())) {
            (End::Wins, Some(way)) => wins(way) && moves[way.1].map(|m| m + 1) == moves[n],
            (End::Loses, Some(way)) => moves[way.1].map(|m| m + 1) == moves[n],
            (End::Loses, None) => ways[n].is_empty(),
            (End::Draws, Some(way)) => ends[way.1] == End::Draws,
            _ => false,
        };
        if room.end != word || room.moves != moves[n] || !good {
            return Err(format!("{}: {} in {:?} by {:?}, not {word} in {:?}", room.id, room.end, room.moves, room.best, moves[n]));
        }
    }
    let (answer, words) = maze(bytes, inputs, Fault::None);
    let counts = ["winning", "losing", "drawn"].map(|key| between(data, &format!("\"{key}\":["), "]").map_or(0, |list| list.matches('"').count() as u32 / 2));
    if answer.number != 0 || counts != words.map(u64::count_ones) {
        return Err("other signals win".to_string());
    }
    Ok(())
}

/// In how many moves a decided room is decided: one more than the shortest win, or than the longest loss.
fn moves(ways: &[Vec<(bool, usize)>], ends: &[End]) -> Vec<Option<usize>> {
    let mut moves: Vec<Option<usize>> = vec![None; ways.len()];
    for _ in 0..=ways.len() {
        let next: Vec<Option<usize>> = (0..ways.len()).map(|n| match ends[n] {
            End::Draws => None,
            End::Wins => ways[n].iter().filter(|(visible, to)| ends[*to] == if *visible { End::Loses } else { End::Wins }).filter_map(|way| moves[way.1]).min().map(|m| m + 1),
            End::Loses => ways[n].iter().map(|way| moves[way.1]).try_fold(0, |most, m| m.map(|m| most.max(m + 1))),
        }).collect();
        if next == moves {
            break;
        }
        moves = next;
    }
    moves
}

/// A box by its sides.
#[derive(Clone, Copy, Debug)]
struct Box4 {
    left: f64,
    top: f64,
    right: f64,
    foot: f64,
}

impl Box4 {
    fn apart(&self, other: &Box4) -> bool {
        self.right <= other.left + 0.2 || other.right <= self.left + 0.2 || self.foot <= other.top + 0.2 || other.foot <= self.top + 0.2
    }

    fn holds(&self, x: f64, y: f64, more: f64) -> bool {
        self.left - more <= x && x <= self.right + more && self.top - more <= y && y <= self.foot + more
    }
}

fn attribute(element: &str, name: &str) -> Option<f64> {
    between(element, &format!(" {name}=\""), "\"")?.parse().ok()
}

fn label(element: &str) -> Option<Box4> {
    let (x, y, size, width) = (attribute(element, "x")?, attribute(element, "y")?, attribute(element, "font-size")?, attribute(element, "textLength")?);
    Some(Box4 { left: x - width / 2.0, top: y - 0.78 * size, right: x + width / 2.0, foot: y + 0.22 * size })
}

/// The points of a path, of a curve some of them.
fn points(path: &str) -> Vec<(f64, f64)> {
    let mut points: Vec<(f64, f64)> = Vec::new();
    let mut rest = path;
    while let Some(letter) = rest.chars().next() {
        let end = rest[1..].find(|c: char| c.is_ascii_alphabetic()).map_or(rest.len(), |at| at + 1);
        let numbers: Vec<f64> = rest[1..end].split(' ').filter_map(|word| word.parse().ok()).collect();
        let from = points.last().copied().unwrap_or((0.0, 0.0));
        match (letter, numbers.as_slice()) {
            ('M' | 'L', [x, y]) => points.push((*x, *y)),
            ('V', [y]) => points.push((from.0, *y)),
            ('C', [a, b, c, d, x, y]) => points.extend((1..=12).map(|k| bent([from, (*a, *b), (*c, *d), (*x, *y)], f64::from(k) / 12.0))),
            _ => {}
        }
        rest = &rest[end..];
    }
    points
}

/// A point of a curve with these ends and handles.
fn bent(p: [(f64, f64); 4], t: f64) -> (f64, f64) {
    let w = [(1.0 - t).powi(3), 3.0 * t * (1.0 - t).powi(2), 3.0 * t * t * (1.0 - t), t.powi(3)];
    (p.iter().zip(w).map(|(p, w)| p.0 * w).sum(), p.iter().zip(w).map(|(p, w)| p.1 * w).sum())
}

fn outline(group: &str) -> Option<Box4> {
    let element = group.split('<').find(|element| element.contains("class=\"outline\""))?;
    if let Some(left) = attribute(element, "x") {
        let top = attribute(element, "y")?;
        return Some(Box4 { left, top, right: left + attribute(element, "width")?, foot: top + attribute(element, "height")? });
    }
    let points = points(between(element, " d=\"", "\"")?);
    let over = |pick: fn(&(f64, f64)) -> f64, best: fn(f64, f64) -> f64, from: f64| points.iter().map(pick).fold(from, best);
    Some(Box4 { left: over(|p| p.0, f64::min, f64::MAX), top: over(|p| p.1, f64::min, f64::MAX), right: over(|p| p.0, f64::max, 0.0), foot: over(|p| p.1, f64::max, 0.0) })
}

/// Every room once with its outline and labels, every corridor once from its room to its room.
fn same_picture(rooms: &[Told], picture: &str) -> Result<(), String> {
    let mut outlines: BTreeMap<String, Box4> = BTreeMap::new();
    for group in parts(picture, "<g class=\"room") {
        let id = between(group, "data-room=\"", "\"").ok_or("a room without a name")?.to_string();
        let group = group.split("</g>").next().unwrap_or("");
        let room = rooms.iter().find(|room| room.id == id).ok_or("a room that is not there")?;
        let area = outline(group).ok_or("no outline")?;
        let classes = group.split('"').next().unwrap_or("");
        if !classes.split(' ').any(|word| word == room.end) {
            return Err(format!("{id} is drawn as another end"));
        }
        for text in parts(group, "<text") {
            let label = label(text).ok_or("no label")?;
            if !area.holds(label.left, label.top, 0.5) || !area.holds(label.right, label.foot, 0.5) {
                return Err(format!("a label of {id} is not within"));
            }
        }
        if outlines.insert(id.clone(), area).is_some() {
            return Err(format!("{id} is drawn twice"));
        }
    }
    if outlines.len() != rooms.len() {
        return Err(format!("{} rooms are drawn, not {}", outlines.len(), rooms.len()));
    }
    let areas: Vec<Box4> = outlines.values().copied().collect();
    let labels: Vec<Box4> = parts(picture, "<text").map(label).collect::<Option<_>>().ok_or("a text without a place")?;
    for boxes in [&areas, &labels] {
        if (0..boxes.len()).any(|n| boxes[..n].iter().any(|other| !boxes[n].apart(other))) {
            return Err("two rooms or two labels in one place".to_string());
        }
    }
    same_corridors(rooms, picture, &outlines)
}

fn same_corridors(rooms: &[Told], picture: &str, outlines: &BTreeMap<String, Box4>) -> Result<(), String> {
    let told: Vec<(bool, &str, &str)> = rooms.iter().flat_map(|room| room.corridors.iter().map(move |(visible, to)| (*visible, room.id.as_str(), to.as_str()))).collect();
    let mut drawn = Vec::new();
    for group in parts(picture, "<g class=\"corridor ") {
        let (from, to) = (between(group, "data-from=\"", "\"").ok_or("no room")?, between(group, "data-to=\"", "\"").ok_or("no room")?);
        drawn.push((group.starts_with("visible"), from, to));
        let ways: Vec<Vec<(f64, f64)>> = parts(group.split("</g>").next().unwrap_or(""), " d=\"").map(|path| points(path.split('"').next().unwrap_or(""))).collect();
        let (way, tip) = (ways.first().ok_or("no line")?, ways.get(1).and_then(|tip| tip.first()).ok_or("no tip")?);
        let (begin, end) = (outlines.get(from).ok_or("no room")?, outlines.get(to).ok_or("no room")?);
        if !begin.holds(way[0].0, way[0].1, 0.5) || !end.holds(tip.0, tip.1, 0.5) {
            return Err(format!("a corridor from {from} to {to} is drawn elsewhere"));
        }
        let through = |&(x, y): &(f64, f64)| outlines.values().any(|area| area.holds(x, y, -1.5));
        if way.iter().any(through) {
            return Err(format!("a corridor from {from} to {to} runs through a room"));
        }
    }
    if drawn == told { Ok(()) } else { Err("other corridors are drawn".to_string()) }
}
