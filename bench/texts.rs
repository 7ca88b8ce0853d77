//! What reading a text and writing one takes: texts of a megabyte, and the ones that cost most for each byte.

use crate::clock::spent;
use crate::shapes;

/// The least of so many tries, or of one that took over a second.
const TRIES: usize = 5;
const LONG: f64 = 1e9;

/// More than any block has.
const ROOM: usize = 4096;

/// Names as a maker's are: a letter and a number.
fn names(letter: char, count: usize) -> String {
    let names: Vec<String> = (0..count).map(|n| format!("{}{}", letter, n)).collect();
    names.join(", ")
}

/// About so many bytes of statements in sequence, which test and emit ten signals by turns.
fn ten_names(bytes: usize) -> String {
    let mut text = format!("version 1;\ninput {};\noutput {};\n", names('I', 5), names('O', 5));
    let mut n = 0;
    while text.len() < bytes {
        text += &format!("present I{} then emit O{} else nothing end;\n", n % 5, n * 3 % 5);
        n += 1;
    }
    text + "nothing"
}

/// Ever more header names, each of which is looked for among all before it.
fn inputs(count: usize) -> String {
    format!("version 1;\ninput {};\nnothing", names('I', count))
}

fn in_sequence(marks: usize) -> String {
    format!("version 1;{}nothing", " nothing;".repeat(marks))
}

fn row(cells: [String; 5]) {
    let [name, bytes, time, each, gets] = cells;
    println!("{:<48} {:>9} {:>10} {:>8}  {}", name, bytes, time, each, gets);
}

/// The least processor time of a call, and what it gets: so many bytes, or a number.
fn timed(call: &mut dyn FnMut() -> Result<usize, u32>) -> (f64, String) {
    let mut least = f64::MAX;
    let mut gets = String::new();
    for _ in 0..TRIES {
        let from = spent();
        let got = call();
        least = least.min(spent() - from);
        gets = match got {
            Ok(bytes) => format!("{} bytes", bytes),
            Err(number) => format!("refused with {}", number),
        };
        if least > LONG {
            break;
        }
    }
    (least, gets)
}

fn line(name: &str, bytes: usize, call: &mut dyn FnMut() -> Result<usize, u32>) {
    let (time, gets) = timed(call);
    row([name.to_string(), bytes.to_string(), crate::told(time), format!("{:.1}", time / bytes as f64), gets]);
}

fn read(name: &str, text: &[u8]) {
    let mut block = [0; ROOM];
    line(name, text.len(), &mut || foldheron::read_text(text, &mut block).map(|b| b.len()).map_err(|r| u32::from(r.number)));
}

/// A block written as text, and that text read.
fn both(name: &str, block: &[u8]) {
    let mut room = vec![0; foldheron::TEXT_MOST];
    let text = match foldheron::write_text(block, &mut room) {
        Ok(text) => text.to_vec(),
        Err(refusal) => return println!("{}: refused with {}", name, refusal.number),
    };
    line(&format!("written: {}", name), text.len(), &mut || foldheron::write_text(block, &mut room).map(|t| t.len()).map_err(|r| u32::from(r.number)));
    read(&format!("read: {}", name), &text);
}

pub fn print() {
    println!("processor time, the least of {}; a text over a block's limits is read to its end", TRIES);
    row(["text", "bytes", "time", "ns each", "gets"].map(String::from));
    both("10 statements", &shapes::small(10).blocks[0]);
    both("500 statements, 3 nested locals", &shapes::mixed(500, 3).blocks[0]);
    read("1 MB of statements, 10 names", ten_names(1_000_000).as_bytes());
    read("2 MB of statements, 10 names", ten_names(2_000_000).as_bytes());
    read("16,384 inputs", inputs(16_384).as_bytes());
    read("65,537 inputs", inputs(65_537).as_bytes());
    read("100,000 semicolons", in_sequence(100_000).as_bytes());
    read("1,000,000 brackets", format!("version 1; {}nothing{}", "[".repeat(1_000_000), "]".repeat(1_000_000)).as_bytes());
}
