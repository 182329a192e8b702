//! The ladder of a run as SVG, in the look of `tools/ladder`.

use crate::ladder::{title, Arrow, Ladder, Row};
use std::collections::BTreeMap;
use std::fmt::Write;

/// Pixels.
const SPAN: f64 = 400.0;
const TOP: f64 = 74.0;
const STEP: f64 = 24.0;
const MARGIN: f64 = 120.0;
const LOST: f64 = 0.62;
const LONGEST: usize = 60;
/// A picture shows no more rows.
const MOST_ROWS: usize = 1_500;

const STYLE: &str = "\
text { font: 12px Helvetica, Arial, 'Liberation Sans', 'DejaVu Sans', sans-serif; fill: #1a1a1a; }
.name { font-size: 14px; font-weight: bold; text-anchor: middle; }
.small { fill: #5a6672; font-size: 10.5px; }
.refused { fill: #b3261e; }
.end { text-anchor: end; }
.label { stroke: #fff; stroke-width: 4px; stroke-linejoin: round; paint-order: stroke; }
.head { fill: #f4f5f7; stroke: #1a1a1a; }
.life { stroke: #1a1a1a; stroke-width: 1.6; }
.arrow { stroke: #1a1a1a; stroke-width: 1.3; fill: none; }
.control { stroke: #7c8894; }
.repeat { stroke-dasharray: 5 4; }
.cross { stroke: #b3261e; stroke-width: 2; }
.mark { fill: #1a1a1a; }";

fn escaped(text: &str) -> String {
    text.replace('&', "&amp;").replace('<', "&lt;").replace('>', "&gt;")
}

fn clipped(text: &str) -> String {
    if text.chars().count() <= LONGEST {
        text.into()
    } else {
        text.chars().take(LONGEST - 1).chain(['…']).collect()
    }
}

struct Picture<'a> {
    ladder: &'a Ladder,
    /// How far down each moment stands.
    heights: BTreeMap<u64, f64>,
    out: String,
}

/// The picture of a ladder.
pub fn picture(ladder: &Ladder) -> String {
    let mut moments: Vec<u64> = Vec::new();
    for row in ladder.rows.iter().take(MOST_ROWS) {
        match row {
            Row::Mark(mark) => moments.push(mark.at),
            Row::Fault { at, .. } => moments.push(*at),
            Row::Arrow(arrow) => moments.extend([arrow.at].iter().chain(&arrow.arrivals)),
        }
    }
    moments.sort_unstable();
    moments.dedup();
    let heights: BTreeMap<u64, f64> = moments.iter().enumerate().map(|(place, at)| (*at, TOP + STEP * (place + 1) as f64)).collect();
    let mut picture = Picture { ladder, heights, out: String::new() };
    picture.draw();
    picture.out
}

impl Picture<'_> {
    fn put(&mut self, line: &str) {
        let _ = writeln!(self.out, "{line}");
    }

    fn x(&self, host: usize) -> f64 {
        MARGIN + SPAN * self.ladder.columns.iter().position(|it| *it == host).unwrap_or(0) as f64
    }

    fn y(&self, at: u64) -> f64 {
        self.heights.get(&at).copied().unwrap_or(TOP)
    }

    fn draw(&mut self) {
        let width = 2.0 * MARGIN + SPAN * self.ladder.columns.len() as f64;
        let height = TOP + STEP * (self.heights.len() + 2) as f64;
        self.put(&format!(
            "<svg xmlns=\"http://www.w3.org/2000/svg\" xml:space=\"preserve\" \
             width=\"{width}\" height=\"{height}\" viewBox=\"0 0 {width} {height}\" role=\"img\">"
        ));
        self.put(&format!("<style>\n{STYLE}\n</style>"));
        let tip = |name: &str, colour: &str| {
            format!(
                "<marker id=\"{name}\" viewBox=\"0 0 10 8\" refX=\"10\" refY=\"4\" markerWidth=\"10\" \
             markerHeight=\"8\" markerUnits=\"userSpaceOnUse\" \
             orient=\"auto\"><path d=\"M0 0L10 4L0 8Z\" fill=\"{colour}\"/></marker>"
            )
        };
        self.put(&format!("<defs>{}{}</defs>", tip("tip", "#1a1a1a"), tip("quiet", "#7c8894")));
        self.put(&format!("<rect width=\"{width}\" height=\"{height}\" fill=\"#fff\"/>"));
        let hosts = self.ladder.columns.iter().max().map_or(1, |host| host + 1);
        for &host in &self.ladder.columns {
            let x = self.x(host);
            self.put(&format!("<line x1=\"{x}\" y1=\"{TOP}\" x2=\"{x}\" y2=\"{}\" class=\"life\"/>", height - STEP));
            self.put(&format!("<rect x=\"{}\" y=\"20\" width=\"140\" height=\"44\" rx=\"3\" class=\"head\"/>", x - 70.0));
            self.put(&format!("<text x=\"{x}\" y=\"47\" class=\"name\">{}</text>", escaped(&title(host, hosts))));
        }
        let ladder = self.ladder;
        for row in ladder.rows.iter().take(MOST_ROWS) {
            match row {
                Row::Arrow(arrow) => self.arrow(arrow),
                Row::Mark(mark) => self.note(self.x(mark.host), mark.at, &mark.text, true),
                Row::Fault { at, text } => self.note(width - MARGIN - 20.0, *at, text, false),
            }
        }
        self.put("</svg>");
    }

    fn note(&mut self, x: f64, at: u64, text: &str, is_marked: bool) {
        let y = self.y(at);
        if is_marked {
            self.put(&format!("<circle cx=\"{x}\" cy=\"{y}\" r=\"2.5\" class=\"mark\"/>"));
        }
        let is_bad = !is_marked || text.starts_with("killed") || text.starts_with("the power");
        let class = if is_bad { "refused" } else { "small" };
        self.put(&format!("<text x=\"{}\" y=\"{}\" class=\"{class}\">{}</text>", x + 10.0, y + 4.0, escaped(&clipped(text))));
    }

    fn arrow(&mut self, arrow: &Arrow) {
        let (from, to, y) = (self.x(arrow.from), self.x(arrow.to), self.y(arrow.at));
        let is_control = ["STS", "SNS", "CLS", "LOS", "empty"].iter().any(|kind| arrow.text.starts_with(kind));
        let (tone, tip) = if is_control { (" control", "quiet") } else { ("", "tip") };
        for (place, &at) in arrow.arrivals.iter().enumerate() {
            let dashed = if place > 0 { " repeat" } else { "" };
            let end = self.y(at);
            self.put(&format!("<polyline points=\"{from},{y} {to},{end}\" class=\"arrow{tone}{dashed}\" marker-end=\"url(#{tip})\"/>"));
        }
        if arrow.arrivals.is_empty() {
            let (x, end) = (from + LOST * (to - from), y + LOST * STEP);
            self.put(&format!("<polyline points=\"{from},{y} {x},{end}\" class=\"arrow{tone}\"/>"));
            let cross =
                |a: f64| format!("<line x1=\"{}\" y1=\"{}\" x2=\"{}\" y2=\"{}\" class=\"cross\"/>", x - 5.0, end - a, x + 5.0, end + a);
            self.put(&cross(5.0));
            self.put(&cross(-5.0));
        }
        let away = if to > from { 10.0 } else { -10.0 };
        let class = if to > from { "label" } else { "label end" };
        let text = clipped(&format!("{}{}", arrow.text, crate::ladder::fate(arrow)));
        self.put(&format!("<text x=\"{}\" y=\"{}\" class=\"{class}\">{}</text>", from + away, y - 4.0, escaped(&text)));
    }
}
