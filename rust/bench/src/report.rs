//! What was measured, as a table and as a picture.
use crate::measure::Pair;
use std::fmt::Write;
use std::io::{Error, Result};
use std::path::Path;

/// Above this the table says so.
const GOAL: f64 = 0.8;
const BEGIN: &str = "<!-- the table that `make bench` writes -->\n";
const END: &str = "<!-- the end of the table -->\n";

/// One shape, with what each round measured.
pub struct Line {
    name: String,
    rounds: Vec<Pair>,
}

/// Adds a round.
pub fn add(lines: &mut Vec<Line>, round: Vec<(String, Pair)>) {
    for (name, pair) in round {
        match lines.iter_mut().find(|line| line.name == name) {
            Some(line) => line.rounds.push(pair),
            None => lines.push(Line { name, rounds: vec![pair] }),
        }
    }
}

impl Line {
    fn sorted(&self, value: fn(&Pair) -> f64) -> Vec<f64> {
        let mut all: Vec<f64> = self.rounds.iter().map(value).collect();
        all.sort_by(f64::total_cmp);
        all
    }

    fn median(&self, value: fn(&Pair) -> f64) -> f64 {
        let all = self.sorted(value);
        all[all.len() / 2]
    }

    fn ratio(&self) -> f64 {
        self.median(|(ours, theirs)| ours / theirs)
    }

    /// The least and the greatest ratio.
    fn range(&self) -> (f64, f64) {
        let all = self.sorted(|(ours, theirs)| ours / theirs);
        (all[0], all[all.len() - 1])
    }
}

/// A ratio, in bold where it is above the goal.
fn ratio(value: f64) -> String {
    if value > GOAL {
        format!("**{value:.2}**")
    } else {
        format!("{value:.2}")
    }
}

/// The table in Markdown.
pub fn table(lines: &[Line]) -> String {
    let mut out = String::from("| shape | archive, ns | reference, ns | ratio | least to greatest ratio |\n|---|---|---|---|---|\n");
    for line in lines {
        let (ours, theirs) = (line.median(|pair| pair.0), line.median(|pair| pair.1));
        let (least, greatest) = line.range();
        let value = ratio(line.ratio());
        writeln!(out, "| {} | {ours:.1} | {theirs:.1} | {value} | {least:.2} to {greatest:.2} |", line.name).expect("a string takes all");
    }
    out
}

/// Puts the table into a page, between its two marks.
pub fn put(page: &Path, table: &str) -> Result<()> {
    let text = std::fs::read_to_string(page)?;
    let parts = text.split_once(BEGIN).and_then(|(before, rest)| Some((before, rest.split_once(END)?.1)));
    let (before, after) = parts.ok_or_else(|| Error::other(format!("{} has no marks for the table", page.display())))?;
    std::fs::write(page, [before, BEGIN, table, END, after].concat())
}

/// The height of a row, and where bars begin, in points.
const ROW: f64 = 18.0;
const LEFT: f64 = 400.0;
const TOP: f64 = 44.0;
/// Points for a ratio of 1, and the greatest ratio that is drawn whole.
const UNIT: f64 = 240.0;
const WIDEST: f64 = 2.2;

fn text(x: f64, y: f64, anchor: &str, what: &str) -> String {
    let what = what.replace('&', "&amp;").replace('<', "&lt;");
    format!("<text x=\"{x:.1}\" y=\"{y:.1}\" text-anchor=\"{anchor}\">{what}</text>\n")
}

fn line(from: (f64, f64), to: (f64, f64), stroke: &str) -> String {
    format!("<path d=\"M{:.1} {:.1}L{:.1} {:.1}\" stroke=\"{stroke}\"/>\n", from.0, from.1, to.0, to.1)
}

/// The ratios as bars, with the range of each, and lines at the goal and at 1.
pub fn picture(lines: &[Line]) -> String {
    let across = |value: f64| LEFT + UNIT * value.min(WIDEST);
    let bottom = TOP + ROW * lines.len() as f64;
    let mut out = format!(
        "<svg xmlns=\"http://www.w3.org/2000/svg\" width=\"{:.0}\" height=\"{:.0}\" font-family=\"sans-serif\" font-size=\"12\">\n\
         <rect width=\"100%\" height=\"100%\" fill=\"white\"/>\n",
        across(WIDEST) + 50.0,
        bottom + 10.0
    );
    out +=
        &text(10.0, 16.0, "start", "The archive's time over the reference's, by shape: median of five rounds, and their range; cut at 2.2");
    for (at, one) in lines.iter().enumerate() {
        let y = TOP + ROW * at as f64;
        let (ratio, (least, greatest)) = (one.ratio(), one.range());
        let fill = if ratio > GOAL { "#c0504d" } else { "#7ba7d0" };
        out += &text(LEFT - 6.0, y + 13.0, "end", &one.name);
        writeln!(out, "<rect x=\"{LEFT:.1}\" y=\"{:.1}\" width=\"{:.1}\" height=\"12\" fill=\"{fill}\"/>", y + 3.0, across(ratio) - LEFT)
            .expect("a string takes all");
        out += &line((across(least), y + 9.0), (across(greatest), y + 9.0), "black");
        out += &text(across(greatest) + 6.0, y + 13.0, "start", &format!("{ratio:.2}"));
    }
    for value in [GOAL, 1.0] {
        out += &text(across(value), TOP - 8.0, "middle", &format!("{value:.1}"));
        out += &line((across(value), TOP - 4.0), (across(value), bottom), "#808080");
    }
    out + "</svg>\n"
}
