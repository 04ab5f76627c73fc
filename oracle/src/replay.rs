//! A session replayed on some decoder, as the listing's lines.

use crate::image::{u32_at, Image};
use crate::words::{Speed, Word};
use std::fmt::{Display, Formatter, Result as Printed, Write};

pub const RECORD: usize = 5;
pub const MOST_GROWN: i64 = 67_108_863;
/// The Rust stopped with a message that no refusal answers to.
pub const UNKNOWN: u8 = 0;

#[derive(Clone, Copy, Debug, PartialEq, Eq)]
pub enum Node {
    None,
    Virtual,
    Number(u32),
}

#[derive(Clone, Debug, PartialEq, Eq)]
pub struct Registers {
    pub speed: Speed,
    pub grown: i64,
    pub is_virtual: bool,
    pub defect: bool,
    pub node: Node,
    pub root: Node,
}

#[derive(Clone, Debug, PartialEq, Eq)]
pub enum Finding {
    NoLimit,
    Length(i64),
    Conflict { nodes: [Node; 2], touches: [Node; 2], vertices: [usize; 2] },
}

/// What a begun search answers.
pub struct Search {
    pub answer: Result<Finding, u8>,
    pub growth: i64,
    pub steps: u64,
    pub left: i64,
}

pub trait Decoder {
    fn instruction(&mut self, word: Word) -> Result<Finding, u8>;
    fn reset(&mut self);
    /// With a new maximum, or with what is left; or the refusal of a search that is not begun.
    fn search(&mut self, maximum: Option<i32>) -> Result<Search, u8>;
    fn pairs(&self) -> Vec<usize>;
    fn registers(&self) -> Vec<Registers>;
    /// The Rust asserted: what follows in this session is not compared.
    fn ended(&self) -> bool {
        false
    }
}

/// The listing of an image with its session records, and the decoder as they leave it.
pub fn replay<D: Decoder>(input: &[u8], open: impl FnOnce(&Image) -> D, registers: bool) -> (String, Option<D>) {
    let (image, session) = match Image::read(input) {
        Ok(read) => read,
        Err(number) => return (format!("bad {number}\n"), None),
    };
    let counts = [image.vertices.len(), image.edges.len(), image.units.len()];
    let mut out = format!("DCT 1 {} {} {}\n", counts[0], counts[1], counts[2]);
    let mut decoder = open(&image);
    for record in session.chunks(RECORD) {
        if record.len() < RECORD || record[0] > 3 {
            out += "r 18\n";
            break;
        }
        record_line(&mut out, &mut decoder, record[0], u32_at(record, 1));
        if registers {
            register_lines(&mut out, &decoder);
        }
        if decoder.ended() {
            break;
        }
    }
    (out, Some(decoder))
}

fn record_line<D: Decoder>(out: &mut String, decoder: &mut D, kind: u8, value: u32) {
    let line = match kind {
        0 => instruction_line(decoder, value),
        1 => search_line(decoder.search(Some(value as i32))),
        2 => search_line(decoder.search(None)),
        _ => decoder.pairs().iter().fold("p".to_string(), |line, edge| format!("{line} {edge}")),
    };
    out.push_str(&line);
    out.push('\n');
}

fn instruction_line<D: Decoder>(decoder: &mut D, word: u32) -> String {
    match Word::read(word) {
        None => refusal(12),
        Some(Word::Reset) => {
            decoder.reset();
            "z".to_string()
        }
        Some(word) => decoder.instruction(word).map_or_else(refusal, |finding| format!("i {finding}")),
    }
}

fn search_line(begun: Result<Search, u8>) -> String {
    let search = match begun {
        Ok(Search { answer: Err(UNKNOWN), .. }) => return refusal(UNKNOWN),
        Ok(search) => search,
        Err(number) => return refusal(number),
    };
    let answer = search.answer.map_or_else(refusal, |finding| format!("s {finding}"));
    format!("{answer} {} {} {}", search.growth, search.steps, search.left)
}

fn refusal(number: u8) -> String {
    match number {
        UNKNOWN => "?".to_string(),
        number => format!("r {number}"),
    }
}

fn register_lines<D: Decoder>(out: &mut String, decoder: &D) {
    for (index, r) in decoder.registers().iter().enumerate() {
        let flags = [r.is_virtual, r.defect].map(u8::from);
        let (speed, grown, node, root) = (r.speed as u8, r.grown, r.node, r.root);
        writeln!(out, "v {index} {speed} {grown} {} {} {node} {root}", flags[0], flags[1]).unwrap();
    }
}

impl Display for Finding {
    fn fmt(&self, f: &mut Formatter) -> Printed {
        match self {
            Self::NoLimit => write!(f, "g max"),
            Self::Length(length) => write!(f, "g {length}"),
            Self::Conflict { nodes, touches, vertices } => {
                let [n1, n2, t1, t2] = [nodes[0], nodes[1], touches[0], touches[1]].map(boundary);
                write!(f, "c {n1} {n2} {t1} {t2} {} {}", vertices[0], vertices[1])
            }
        }
    }
}

/// In a finding, absent and virtual are both the boundary.
fn boundary(node: Node) -> Node {
    match node {
        Node::Number(_) => node,
        Node::None | Node::Virtual => Node::None,
    }
}

impl Display for Node {
    fn fmt(&self, f: &mut Formatter) -> Printed {
        match self {
            Self::None => write!(f, "-"),
            Self::Virtual => write!(f, "v"),
            Self::Number(number) => write!(f, "{number}"),
        }
    }
}
