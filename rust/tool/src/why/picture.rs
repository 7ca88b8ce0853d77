//! What a 13 waits for as a picture: the tests and emits of the way round to the named test, and of the chain to an input that is not heard.

use super::reach::Stands;
use super::route::{Arrow, Waiting};
use super::words::{inputs, title};
use super::Question;
use crate::draw::layers::{lay, Laid};
use crate::draw::heads::{Lines, LEAST};
use crate::draw::text::Words;
use crate::draw::{at, side_by_side, style, Area, Outline, Picture, Point, Tip, POINT};
use crate::output::Out;
use crate::status::Status;
use crate::trouble::{Outcome, Trouble};

const MARGIN: f64 = 20.0;
const LINE: f64 = 15.0;
const DOTTED: &str = "The box with a dotted line is a test of an input that is not heard.";
const PROVED: &str = "That the test with the thick line is undecided is proved; what it waits for is followed in the block, not proved.";

/// A test by its place in the list, or an emit by its statement.
#[derive(Clone, Copy, PartialEq, Eq)]
enum Node {
    Test(usize),
    Emit(usize),
}

/// How one waits for another.
#[derive(Clone, Copy, PartialEq, Eq)]
enum Link {
    /// The signal of a test for an emit.
    Signal,
    /// An emit for a test.
    Behind(Stands),
}

struct Drawing<'a> {
    question: &'a Question,
    waiting: &'a Waiting<'a>,
    nodes: Vec<Node>,
    links: Vec<(usize, usize, Link)>,
}

pub fn told(question: &Question, waiting: Option<&Waiting>, out: &mut Out) -> Outcome<Status> {
    let unfollowed = || Trouble::new(Status::Refused, "what it waits for could not be followed");
    let drawing = waiting.map(|waiting| Drawing::of(question, waiting)).ok_or_else(unfollowed)?;
    let heading = drawing.heading();
    out.text(&drawing.drawn(true).file(&heading, &drawing.about()))?;
    Ok(Status::Good)
}

/// For a page that has the style, and the heading.
pub fn element(question: &Question, waiting: &Waiting) -> String {
    let drawing = Drawing::of(question, waiting);
    drawing.drawn(false).element(&drawing.heading(), &drawing.about())
}

impl<'a> Drawing<'a> {
    fn of(question: &'a Question, waiting: &'a Waiting<'a>) -> Drawing<'a> {
        let mut drawing = Drawing { question, waiting, nodes: vec![Node::Test(waiting.named)], links: Vec::new() };
        let ways: Vec<Arrow> = waiting.cycle().into_iter().chain(waiting.chain()).flatten().collect();
        for arrow in ways {
            let [from, emit, to] = [Node::Test(arrow.from), Node::Emit(arrow.emit), Node::Test(arrow.to)].map(|node| drawing.node(node));
            for link in [(from, emit, Link::Signal), (emit, to, Link::Behind(arrow.stands))] {
                if !drawing.links.contains(&link) {
                    drawing.links.push(link);
                }
            }
        }
        drawing
    }

    /// The place of a node, which gets one where it has none.
    fn node(&mut self, node: Node) -> usize {
        let place = self.nodes.iter().position(|other| *other == node);
        place.unwrap_or_else(|| {
            self.nodes.push(node);
            self.nodes.len() - 1
        })
    }

    fn heading(&self) -> String {
        format!("Why instant {} of {} is refused with 13", self.question.number, self.question.block.title())
    }

    fn about(&self) -> String {
        let ways = [title(self.question, self.waiting, self.waiting.cycle().as_deref()), self.waiting.chain().map(|_| "it waits for an input that is not heard".to_string())];
        let said: Vec<String> = ways.iter().flatten().cloned().collect();
        format!("inputs {}: {}", inputs(self.question), said.join("; and "))
    }

    /// Whether this test is of an input that is not heard.
    fn is_input(&self, node: Node) -> bool {
        matches!(node, Node::Test(n) if self.waiting.is_input(self.waiting.signal(n)))
    }

    fn statement(&self, node: Node) -> usize {
        match node {
            Node::Test(n) => self.waiting.reach.tests[n].statement,
            Node::Emit(statement) => statement,
        }
    }

    fn label(&self, node: Node) -> Vec<Words> {
        let statement = self.statement(node);
        let said = match node {
            Node::Emit(_) => "may still come",
            _ if self.is_input(node) => "not heard",
            Node::Test(n) if self.waiting.reach.tests[n].is_reached => "undecided",
            Node::Test(_) => "undecided, not reached yet",
        };
        let kind = self.question.statements[statement].kind.name;
        vec![Words::bold(format!("{} {}", kind, self.question.signal(statement)), 13.0), Words::new(format!("statement {}: {}", statement, said), 11.0)]
    }

    fn class(&self, node: Node) -> &'static str {
        match node {
            Node::Emit(_) => "node emit",
            Node::Test(n) if n == self.waiting.named && self.is_input(node) => "node test input named",
            Node::Test(n) if n == self.waiting.named => "node test named",
            _ if self.is_input(node) => "node test input",
            Node::Test(_) => "node test",
        }
    }

    fn drawn(&self, has_heads: bool) -> Picture {
        let labels: Vec<Vec<Words>> = self.nodes.iter().map(|node| self.label(*node)).collect();
        let wide = |lines: &[Words]| lines.iter().map(Words::width).fold(60.0, f64::max) + 2.0 * (POINT + 8.0);
        let sizes: Vec<(f64, f64)> = labels.iter().map(|lines| (wide(lines), 14.0 + LINE * lines.len() as f64)).collect();
        let arrows: Vec<(usize, usize)> = self.links.iter().map(|(from, to, _)| (*from, *to)).collect();
        let laid = lay(&sizes, &arrows, |n| n == 0);
        let least = laid.width.max(LEAST);
        let heads = if has_heads { Lines::heading(&self.heading(), &[self.about()], least) } else { Lines::default() };
        let mut foot = Lines::default();
        if self.nodes.iter().any(|node| self.is_input(*node)) {
            foot.add(&Words::new(DOTTED, 11.0), "faint", least);
        }
        foot.add(&Words::new(PROVED, 11.0), "faint", least);
        let inner = foot.width(heads.width(least));
        let top = MARGIN + heads.height(12.0);
        let key = self.key(inner);
        let under = top + laid.height + 28.0;
        let last = key.last().map_or(0.0, |item| item.2.y + 34.0);
        let mut picture = Picture::new(inner + 2.0 * MARGIN, under + last + foot.height(0.0) - 6.0 + MARGIN, &style::WAITS);
        heads.draw(at(MARGIN, MARGIN), &mut picture);
        self.place(&laid, &labels, at(MARGIN + (inner - laid.width) / 2.0, top), &mut picture);
        for (link, words, place) in &key {
            let (x, y) = (MARGIN + place.x + 6.0, under + place.y);
            let (class, tip) = look(*link);
            picture.arrow(&[at(x, y), at(x, y + 26.0)], tip, &[("class", &format!("key {}", class))]);
            picture.words_from(at(MARGIN + place.x + 18.0, y + 17.0), words, "faint");
        }
        foot.draw(at(MARGIN, under + last - 3.0), &mut picture);
        picture
    }

    fn place(&self, laid: &Laid, labels: &[Vec<Words>], corner: Point, picture: &mut Picture) {
        for ((from, to, link), route) in self.links.iter().zip(&laid.routes) {
            let route: Vec<Point> = route.iter().map(|p| at(corner.x + p.x, corner.y + p.y)).collect();
            let (class, tip) = look(*link);
            let ends = [*from, *to].map(|n| self.statement(self.nodes[n]).to_string());
            picture.arrow(&route, tip, &[("class", &format!("link {}", class)), ("data-from", &ends[0]), ("data-to", &ends[1])]);
        }
        for (n, node) in self.nodes.iter().enumerate() {
            let area = Area { middle: at(corner.x + laid.areas[n].middle.x, corner.y + laid.areas[n].middle.y), ..laid.areas[n] };
            picture.open(&[("class", self.class(*node)), ("data-statement", &self.statement(*node).to_string())]);
            let outline = if matches!(node, Node::Emit(_)) { Outline::Round } else { Outline::Pointed };
            picture.outline(outline, area, &[("class", "outline")]);
            for (k, line) in labels[n].iter().enumerate() {
                let foot = area.middle.y + LINE * (k as f64 - labels[n].len() as f64 / 2.0) + 11.0;
                picture.words(at(area.middle.x, foot), line, if k == 0 { "name" } else { "faint" });
            }
            picture.close();
        }
    }

    /// The sorts of arrows that are there, each with what it says.
    fn key(&self, width: f64) -> Vec<(Link, Words, Point)> {
        let all = [Link::Signal, Link::Behind(Stands::Under), Link::Behind(Stands::After), Link::Behind(Stands::Again)];
        let there: Vec<Link> = all.iter().copied().filter(|sort| self.links.iter().any(|(_, _, link)| link == sort)).collect();
        let words: Vec<Words> = there.iter().map(|link| Words::new(says(*link), 11.0)).collect();
        let needs: Vec<f64> = words.iter().map(|words| 18.0 + words.width()).collect();
        let places = side_by_side(&needs, width, 34.0);
        there.into_iter().zip(words).zip(places).map(|((link, words), place)| (link, words, place)).collect()
    }
}

/// The class and the tip of an arrow.
fn look(link: Link) -> (&'static str, Tip) {
    match link {
        Link::Signal => ("signal", Tip::Filled),
        Link::Behind(Stands::Under) => ("beneath", Tip::Hollow),
        Link::Behind(Stands::After) => ("behind", Tip::Hollow),
        Link::Behind(Stands::Again) => ("again", Tip::Hollow),
    }
}

fn says(link: Link) -> &'static str {
    match link {
        Link::Signal => "the test's signal waits for the emit",
        Link::Behind(Stands::Under) => "the emit stands under the test",
        Link::Behind(Stands::After) => "the emit comes after the test",
        Link::Behind(Stands::Again) => "the emit comes in the loop's next turn",
    }
}
