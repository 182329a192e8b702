//! The ladder of a run: each machine is a line of life, each datagram an arrow between two of them, and beside the lines stands what
//! happened to the machines. The server is in the middle.

use crate::chance::FaultKind;
use crate::lines::address;
use crate::net::{host_of, Host, Sent};
use crate::packets::packets;
use crate::play::{Mark, Record};
use crate::scenario::Scenario;

/// What a ladder shows, in the order of time.
pub enum Row {
    Mark(Mark),
    Arrow(Arrow),
    Fault { at: u64, text: String },
}

/// A datagram.
pub struct Arrow {
    pub at: u64,
    pub from: Host,
    pub to: Host,
    pub text: String,
    pub arrivals: Vec<u64>,
    pub fate: Option<FaultKind>,
}

pub struct Ladder {
    /// The machines, from left to right.
    pub columns: Vec<Host>,
    pub rows: Vec<Row>,
}

impl Row {
    fn at(&self) -> u64 {
        match self {
            Row::Mark(mark) => mark.at,
            Row::Arrow(arrow) => arrow.at,
            Row::Fault { at, .. } => *at,
        }
    }
}

/// What stands above a machine's line of life.
pub fn title(host: Host, hosts: usize) -> String {
    let role = match host {
        0 => "server".to_string(),
        _ if host + 1 == hosts => "last get".into(),
        _ => format!("client {host}"),
    };
    format!("{:o}, {role}", address(host))
}

fn arrow_of(sent: &Sent) -> Arrow {
    let texts: Vec<String> = packets(&sent.bytes).into_iter().map(|packet| packet.text).collect();
    let (from, to) = (host_of(sent.from.0), host_of(sent.to.0));
    Arrow { at: sent.at, from, to, text: texts.join(" + "), arrivals: sent.arrivals.clone(), fate: sent.fate }
}

/// Whether a fault is seen at the arrow of its datagram, or at a mark.
fn is_seen(kind: FaultKind) -> bool {
    use FaultKind::*;
    matches!(kind, Loss | Repeat | Delay | Flip | Cut | SendFails | Kill | Power)
}

impl Ladder {
    /// The ladder of a run that was traced.
    pub fn of(scenario: &Scenario, record: &Record) -> Self {
        let mut rows: Vec<Row> = record.trace.iter().map(arrow_of).map(Row::Arrow).collect();
        rows.extend(record.marks.iter().cloned().map(Row::Mark));
        let others = record.happened.iter().filter(|fault| !is_seen(fault.kind));
        rows.extend(others.map(|fault| Row::Fault { at: fault.at, text: format!("{}:{}", fault.kind.name(), fault.index) }));
        rows.sort_by_key(Row::at);
        let is_used = |host: &Host| rows.iter().any(|row| matches!(row, Row::Mark(mark) if mark.host == *host));
        let mut columns: Vec<Host> = (1..scenario.hosts()).filter(is_used).collect();
        columns.insert(columns.len().div_ceil(2), 0);
        Ladder { columns, rows }
    }

    fn column(&self, host: Host) -> usize {
        self.columns.iter().position(|it| *it == host).unwrap_or(0)
    }

    /// The ladder as lines of text.
    pub fn text(&self) -> Vec<String> {
        let hosts = self.columns.iter().max().map_or(1, |host| host + 1);
        let mut heads = String::from("               ");
        for &host in &self.columns {
            heads.push_str(&format!("{:<width$}", title(host, hosts), width = self.width()));
        }
        let lines = self.rows.iter().map(|row| format!("{:>11.3} ms {}", row.at() as f64 / 1e6, self.line(row)));
        [heads.trim_end().to_string()].into_iter().chain(lines).collect()
    }

    /// The letters between two lines of life.
    fn width(&self) -> usize {
        if self.columns.len() <= 3 {
            52
        } else {
            34
        }
    }

    fn line(&self, row: &Row) -> String {
        let mut line = vec![' '; self.width() * self.columns.len()];
        for place in 0..self.columns.len() {
            line[place * self.width()] = '|';
        }
        match row {
            Row::Arrow(arrow) => self.draw(&mut line, arrow),
            Row::Mark(mark) => {
                let begin = self.column(mark.host) * self.width();
                let text: String = mark.text.chars().flat_map(char::escape_default).collect();
                line.truncate(begin);
                line.extend("* ".chars().chain(text.chars()));
            }
            Row::Fault { text, .. } => line.extend(format!(" {text}").chars()),
        }
        line.into_iter().collect::<String>().trim_end().to_string()
    }

    /// Draws an arrow, with its text upon it and what became of it behind the last line of life.
    fn draw(&self, line: &mut Vec<char>, arrow: &Arrow) {
        let (from, to) = (self.column(arrow.from) * self.width(), self.column(arrow.to) * self.width());
        let (first, last) = (from.min(to), from.max(to));
        for (place, letter) in line.iter_mut().enumerate().take(last).skip(first + 1) {
            *letter = if place % self.width() == 0 { '+' } else { '-' };
        }
        let room = last.saturating_sub(first + 6);
        let text: Vec<char> = format!(" {} ", arrow.text).chars().take(room).collect();
        line[first + 3..first + 3 + text.len()].copy_from_slice(&text);
        let (tip, end) = if from < to { ('>', last - 1) } else { ('<', first + 1) };
        line[end] = if arrow.arrivals.is_empty() { 'x' } else { tip };
        line.extend(fate(arrow).chars());
    }
}

/// What became of a datagram, where it isn't what is usual.
pub fn fate(arrow: &Arrow) -> String {
    let millis: Vec<String> = arrow.arrivals.iter().map(|at| format!("{:.3}", at.saturating_sub(arrow.at) as f64 / 1e6)).collect();
    match arrow.fate {
        None => String::new(),
        Some(kind) if arrow.arrivals.is_empty() => format!(" {}", kind.name()),
        Some(kind) => format!(" {}, arrives behind {} ms", kind.name(), millis.join(" and ")),
    }
}
