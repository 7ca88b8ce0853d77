//! The lines over and under a picture, wrapped to its width: a heading does not make it wider.

use super::text::{widest, Words};
use super::{at, Picture, Point};

/// No picture is narrower than this, for its lines and its key.
pub const LEAST: f64 = 420.0;
const LINE: f64 = 20.0;

/// Lines one below the other, each with the class that it is drawn in.
#[derive(Default)]
pub struct Lines(Vec<(Words, &'static str)>);

impl Lines {
    /// A heading, and what is said of the picture.
    pub fn heading(heading: &str, about: &[String], width: f64) -> Lines {
        let mut lines = Lines::default();
        lines.add(&Words::bold(heading, 15.0), "heading", width);
        about.iter().for_each(|line| lines.add(&Words::new(line.as_str(), 12.0), "faint about", width));
        lines
    }

    pub fn add(&mut self, words: &Words, class: &'static str, width: f64) {
        self.0.extend(words.wrapped(width).into_iter().map(|line| (line, class)));
    }

    /// How wide they are, and no less than this.
    pub fn width(&self, least: f64) -> f64 {
        widest(self.0.iter().map(|(line, _)| line), least)
    }

    /// How high they are, with the room below them where there are any.
    pub fn height(&self, room: f64) -> f64 {
        LINE * self.0.len() as f64 + if self.0.is_empty() { 0.0 } else { room }
    }

    pub fn draw(&self, corner: Point, picture: &mut Picture) {
        for (k, (line, class)) in self.0.iter().enumerate() {
            picture.words_from(at(corner.x, corner.y + 13.0 + LINE * k as f64), line, class);
        }
    }
}
