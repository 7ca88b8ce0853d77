//! How wide words are: by the widths of Helvetica, which Arial and Liberation Sans share. A picture sets its texts to these widths in any font.

/// Words on one line.
#[derive(Clone, PartialEq, Debug)]
pub struct Words {
    pub text: String,
    pub size: f64,
    pub bold: bool,
}

impl Words {
    pub fn new(text: impl Into<String>, size: f64) -> Words {
        Words { text: text.into(), size, bold: false }
    }

    pub fn bold(text: impl Into<String>, size: f64) -> Words {
        Words { text: text.into(), size, bold: true }
    }

    pub fn width(&self) -> f64 {
        let widths = if self.bold { &BOLD } else { &PLAIN };
        let all: u32 = self.text.chars().map(|c| of(widths, c)).sum();
        f64::from(all) * self.size / 1000.0
    }

    /// The same on as many lines as they need, each no wider than this but where one word is.
    pub fn wrapped(&self, width: f64) -> Vec<Words> {
        let mut lines: Vec<Words> = Vec::new();
        for word in self.text.split(' ') {
            let longer = lines.last().map(|line| Words { text: format!("{} {}", line.text, word), ..*self }).filter(|line| line.width() <= width);
            match (longer, lines.last_mut()) {
                (Some(longer), Some(last)) => *last = longer,
                _ => lines.push(Words { text: word.to_string(), ..*self }),
            }
        }
        lines
    }
}

/// The widest of some lines, and no less than this.
pub fn widest<'a>(lines: impl IntoIterator<Item = &'a Words>, least: f64) -> f64 {
    lines.into_iter().map(Words::width).fold(least, f64::max)
}

/// In thousandths of the size; a letter that is not in the list counts as the widest capital.
fn of(widths: &[u16; 95], c: char) -> u32 {
    let place = (c as usize).checked_sub(32);
    place.and_then(|n| widths.get(n)).map_or(944, |width| u32::from(*width))
}

/// From space to tilde.
const PLAIN: [u16; 95] = [
    278, 278, 355, 556, 556, 889, 667, 191, 333, 333, 389, 584, 278, 333, 278, 278, 556, 556, 556, 556, 556, 556, 556, 556, 556, 556, 278, 278, 584, 584, 584, 556,
    1015, 667, 667, 722, 722, 667, 611, 778, 722, 278, 500, 667, 556, 833, 722, 778, 667, 778, 722, 667, 611, 722, 667, 944, 667, 667, 611, 278, 278, 278, 469, 556,
    333, 556, 556, 500, 556, 556, 278, 556, 556, 222, 222, 500, 222, 833, 556, 556, 556, 556, 333, 500, 278, 556, 500, 722, 500, 500, 500, 334, 260, 334, 584,
];

const BOLD: [u16; 95] = [
    278, 333, 474, 556, 556, 889, 722, 238, 333, 333, 389, 584, 278, 333, 278, 278, 556, 556, 556, 556, 556, 556, 556, 556, 556, 556, 333, 333, 584, 584, 584, 611,
    975, 722, 722, 722, 722, 667, 611, 778, 722, 278, 556, 722, 611, 833, 722, 778, 667, 778, 722, 667, 611, 722, 667, 944, 667, 667, 611, 333, 278, 333, 584, 556,
    333, 556, 611, 556, 611, 556, 333, 611, 611, 278, 278, 556, 278, 889, 611, 611, 611, 611, 389, 556, 333, 611, 556, 778, 556, 556, 500, 389, 280, 389, 584,
];

#[cfg(test)]
mod tests {
    use super::*;

    #[test]
    fn widths() {
        assert_eq!(Words::new("", 10.0).width(), 0.0);
        assert_eq!(Words::new("A ~", 10.0).width(), 6.67 + 2.78 + 5.84);
        assert!(Words::bold("RUN", 10.0).width() >= Words::new("RUN", 10.0).width());
        assert_eq!(Words::new("ä", 10.0).width(), 9.44);
    }

    #[test]
    fn lines_are_no_wider_and_lose_no_word() {
        let words = Words::new("a heading that is longer than its picture is wide", 10.0);
        let lines = words.wrapped(60.0);
        assert!(lines.len() > 2 && widest(&lines, 0.0) <= 60.0);
        assert_eq!(lines.iter().map(|line| line.text.as_str()).collect::<Vec<_>>().join(" "), words.text);
        assert_eq!([words.wrapped(1000.0).len(), Words::new("longest", 10.0).wrapped(1.0).len()], [1, 1]);
    }
}
