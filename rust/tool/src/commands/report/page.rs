//! The page of a report: sections one after the other, with the pictures in it and the style of them all. What stands in a list here is a section of the page.

use super::{Refused, Report};
use crate::block::counts;
use crate::commands::help;
use crate::commands::show;
use crate::draw::{escaped, style};
use crate::files;
use crate::hash::sha256;
use crate::output::Out;
use crate::refusal;
use crate::run::words::{ends, why};
use crate::sets::{changed_inputs, few};
use crate::trouble::Outcome;
use crate::walk::{counted, grouped};
use crate::why;

const STYLE: &str = include_str!("page.css");
/// What every such page begins with.
pub const BEGINS: &str = "<!DOCTYPE html>\n<html lang=\"en\">\n<head>\n<meta charset=\"utf-8\">\n<meta name=\"generator\" content=\"foldheron report\">\n";

pub fn told(report: &Report) -> Outcome<String> {
    let title = escaped(&format!("Report on {}", report.block.title()));
    let sections = [facts(report), run(report), refusals(report)?, block(report)?];
    let style = style::sheet(&[&style::TIMING, &style::CHART, &style::WAITS]);
    Ok(format!(
        "{}<meta name=\"viewport\" content=\"width=device-width,initial-scale=1\">\n<title>{}</title>\n<style>\n{}{}</style>\n</head>\n<body>\n<h1>{}</h1>\n{}</body>\n</html>\n",
        BEGINS,
        title,
        style,
        STYLE,
        title,
        sections.concat()
    ))
}

fn section(id: &str, title: &str, body: &str) -> String {
    format!("<section id=\"{}\">\n<h2>{}</h2>\n{}</section>\n", id, escaped(title), body)
}

fn paragraph(text: &str) -> String {
    format!("<p>{}</p>\n", escaped(text))
}

/// A picture that may be wider than the page.
fn figure(svg: &str) -> String {
    format!("<div class=\"wide\">\n{}</div>\n", svg)
}

/// A line that is longer is wrapped further in than it begins.
const LONG: usize = 96;

fn lines(text: &str) -> String {
    let lines: Vec<String> = text.split('\n').map(line).collect();
    format!("<pre>{}</pre>\n", lines.join("\n"))
}

fn line(text: &str) -> String {
    match text.chars().count() > LONG {
        true => format!("<span class=\"long\" style=\"--in:{}ch\">{}</span>", text.len() - text.trim_start().len() + 2, escaped(text)),
        false => escaped(text),
    }
}

fn folded(title: &str, body: &str) -> String {
    format!("<details open>\n<summary>{}</summary>\n{}</details>\n", escaped(title), body)
}

/// What was run, from where, by which program, and what it came to.
fn facts(report: &Report) -> String {
    let block = report.block;
    let mut rows = vec![
        ("block", files::shown(&block.path)),
        ("it has", counts(&block.summary, block.bytes.len())),
        ("its SHA-256", sha256(&block.bytes)),
        ("inputs", report.from.0.clone()),
        ("it began", report.from.1.clone()),
        ("instants", grouped(report.tally.instants)),
        ("answered", grouped(report.tally.instants - report.tally.refusals())),
    ];
    rows.extend(report.tally.refused.iter().map(|(number, times)| ("refused", format!("{} with {}", grouped(*times), refusal::title(*number)))));
    if report.tally.short > 0 {
        rows.push(("left over", format!("{}: the inputs end within a set", counted(report.tally.short as u64, "byte"))));
    }
    rows.push(("program", format!("foldheron {}; {}", foldheron::VERSION, help::library())));
    let rows: String = rows.iter().map(|(name, value)| format!("<tr><th scope=\"row\">{}</th><td>{}</td></tr>\n", name, escaped(value))).collect();
    section("facts", "What this is", &format!("{}<table>\n{}</table>\n", paragraph(&format!("{}.", ends(&report.tally))), rows))
}

fn run(report: &Report) -> String {
    let timing = report.picture.timing(&report.tally);
    // What the run came to stands above, once.
    let about = report.picture.part(&report.tally).map_or(String::new(), |part| paragraph(&format!("The diagram and the table have {}.", part)));
    section("run", "The run", &format!("{}{}{}", about, figure(&timing.element()), folded("The run as a table", &lines(&report.table))))
}

fn refusals(report: &Report) -> Outcome<String> {
    if report.refused.is_empty() {
        return Ok(section("refused", "Refused instants", &paragraph("None: every instant was answered.")));
    }
    let mut body = String::new();
    for refused in &report.refused {
        body.push_str(&explained(report, refused)?);
    }
    if report.more > 0 {
        body.push_str(&paragraph(&format!("{} more are not explained here.", counted(report.more, "refused instant"))));
    }
    Ok(section("refused", "Refused instants", &body))
}

/// Numbers in a heading, a few of them.
fn named(numbers: &[u64]) -> String {
    let words: Vec<String> = numbers.iter().map(|number| grouped(*number)).collect();
    format!("Instant{} {}", if words.len() == 1 { "" } else { "s" }, few(&words))
}

fn explained(report: &Report, refused: &Refused) -> Outcome<String> {
    let (labels, number) = (&report.block.labels, refused.answer.number());
    let title = format!("<h3>{}: refused with {}</h3>\n", escaped(&named(&refused.numbers)), escaped(&refusal::title(number)));
    let given = format!("inputs {}", changed_inputs(refused.given, None, |n| labels.input(n)));
    let mut body = paragraph(&format!("With {}: {}. It has no outputs, and the state stayed as it was.", given, why(labels, refused.given, &refused.answer)));
    let mut advice = refusal::advice(number);
    if number == 13 {
        let mut kept = Out::keeping();
        let explained = why::explained(report.block, &refused.state, refused.numbers[0], refused.given, &mut kept)?;
        body.push_str(&explained.picture.map_or(String::new(), |svg| figure(&svg)));
        body.push_str(&folded("In words", &lines(&kept.kept())));
        advice = explained.advice.unwrap_or(advice);
    }
    body.push_str(&paragraph(&format!("What to do: {}.", advice)));
    Ok(format!("<div class=\"refusal\">\n{}{}</div>\n", title, body))
}

/// The block, with what is active after the run.
fn block(report: &Report) -> Outcome<String> {
    let shown = report.shown();
    let mut kept = Out::keeping();
    show::told(&shown, &mut kept)?;
    let about = paragraph("Boxes within boxes; what is active after the run is marked.");
    let text = show::text_of(report.block);
    let note = show::names_replaced(report.block, &text).map_or(String::new(), |said| paragraph(&format!("Mind: {}.", said)));
    let text = lines(String::from_utf8_lossy(&text).trim_end()) + &note;
    let parts = [about, figure(&show::picture::element(&shown)), folded("The block as text", &text), folded("The block as a tree", &lines(&kept.kept()))];
    Ok(section("block", "The block", &parts.concat()))
}
