//! Sessions from a seed. A record is tried on the model first, so that sessions run long before
//! the Rust would assert and no search runs longer than it is worth.

use crate::faults::Fault;
use crate::image::{
    Edge, Image, Unit, Vertex, EDGE, HEADER, MOST_EDGES_AT_A_VERTEX, MOST_UNITS, MOST_WEIGHT, UNIT, VERTEX,
};
use crate::model::Model;
use crate::random::Random;
use crate::replay::{Decoder, Finding, Node, MOST_GROWN, UNKNOWN};
use crate::words::{Speed, Word};

pub mod decoding;

/// No search of a generated session takes more growth steps.
pub const PATIENCE: u64 = 400;

#[derive(Clone, Copy, PartialEq, Eq)]
pub enum Style {
    /// All sizes, damaged ones too.
    Any,
    /// At most 5 vertices and 30 records, not damaged.
    Small,
}

/// Session number `index` of that seed.
pub fn session(seed: u64, index: u64, style: Style) -> Vec<u8> {
    let mut random = Random::new(seed, index);
    let image = image(&mut random, style);
    let damage = style == Style::Any && random.percent(5);
    let mut bytes = if damage { damaged(&mut random, image.clone()) } else { image.write() };
    // damage may leave another image that is good
    let (image, used) = match Image::read(&bytes) {
        Ok((read, rest)) => (read, bytes.len() - rest.len()),
        Err(_) => (image, bytes.len()),
    };
    bytes.truncate(used);
    bytes.extend(Author::new(random, image, style).records());
    bytes
}

// Images.

fn image(random: &mut Random, style: Style) -> Image {
    let size = if style == Style::Small { 0 } else { random.weighted(&[50, 36, 12, 2]) };
    let most_vertices = [5, 14, 50, 256][size];
    let most_edges = [7, 24, 150, 1024][size];
    let flags = random.weighted(&[10, 15, 25, 50]);
    let mut image = Image { fusion: flags & 1 != 0, offloading: flags & 2 != 0, ..Image::default() };
    let layers = random.within(1, 4);
    let (virtual_chance, layer_chance) = (random.pick(&[0, 15, 30, 50]), random.pick(&[0, 30, 60]));
    let full = size == 3 && random.percent(30);
    let vertices = if full { most_vertices } else { random.within([1, 2, 10, 200][size], most_vertices) };
    for _ in 0..vertices {
        let default_virtual = random.percent(virtual_chance);
        let layer = random.percent(layer_chance).then(|| random.within(0, layers - 1) as u16);
        let layer = layer.map(|layer| if random.percent(2) { 32_767 } else { layer });
        image.vertices.push(Vertex { default_virtual, layer });
    }
    let edges = if full { most_edges } else { random.within(most_edges / 5, most_edges) };
    if vertices > 1 {
        add_edges(random, &mut image, edges);
    }
    add_units(random, &mut image);
    image
}

fn add_edges(random: &mut Random, image: &mut Image, count: usize) {
    let weights = random.weighted(&[50, 20, 12, 10, 8]);
    let line = random.percent(40);
    for index in 0..2 * count {
        let (left, right) = ends(random, image, line, index);
        let crowded = [left, right].iter().any(|&end| image.edges_at(end) >= MOST_EDGES_AT_A_VERTEX);
        if left == right || crowded || image.edges.len() == count {
            continue;
        }
        let weight = weight(random, weights);
        let layered: Vec<usize> =
            [left, right].into_iter().filter(|&end| image.vertices[end].layer.is_some()).collect();
        let condition = match random.within(1, 10) {
            1 => Some(random.pick(&[left, right])),
            2..=7 if !layered.is_empty() => Some(random.pick(&layered)),
            _ => None,
        };
        image.edges.push(Edge { left, right, weight, condition });
    }
}

fn ends(random: &mut Random, image: &Image, line: bool, index: usize) -> (usize, usize) {
    let last = image.vertices.len() - 1;
    if line && index < last {
        return if random.percent(50) { (index, index + 1) } else { (index + 1, index) };
    }
    if random.percent(12) && !image.edges.is_empty() {
        let twin = &image.edges[random.within(0, image.edges.len() - 1)];
        return (twin.left, twin.right);
    }
    let left = random.within(0, last);
    // near neighbours make larger graphs meet more often
    let right = if random.percent(60) { (left + random.within(1, 3)).min(last) } else { random.within(0, last) };
    if random.percent(50) {
        (left, right)
    } else {
        (right, left)
    }
}

fn weight(random: &mut Random, weights: usize) -> u32 {
    let weight = match weights {
        0 => 2 * random.within(0, 5),
        1 => random.pick(&[0, 2, 2, 4, 4, 8, 12, 3]),
        2 => random.within(0, 9),
        3 => 2 * random.within(0, 400),
        _ => random.pick(&[0, 2, 4, 100, 5000, MOST_WEIGHT as usize, MOST_WEIGHT as usize - 2, 999_999]),
    };
    weight as u32
}

fn add_units(random: &mut Random, image: &mut Image) {
    let chance = random.pick(&[0, 40, 80, 100]);
    for edge in 0..image.edges.len() {
        let ends = [image.edges[edge].left, image.edges[edge].right];
        let named: Vec<usize> = ends.into_iter().filter(|&end| image.vertices[end].default_virtual).collect();
        if image.units.len() >= MOST_UNITS - 1 || !random.percent(chance) {
            continue;
        }
        let mut unit = Unit::DefectMatch { edge };
        if !named.is_empty() && random.percent(85) {
            unit = Unit::VirtualMatch { edge, named: random.pick(&named) };
        } else if random.percent(12) {
            unit = Unit::VirtualMatch { edge, named: random.pick(&ends) };
        }
        let at = random.within(0, image.units.len());
        image.units.insert(at, unit);
        if random.percent(5) {
            image.units.push(Unit::DefectMatch { edge });
        }
    }
}

/// The image with one damage, as often for each refusal.
fn damaged(random: &mut Random, mut image: Image) -> Vec<u8> {
    let refusal = random.within(1, 11);
    if refusal == 10 {
        crowd(random, &mut image);
    }
    let mut bytes = image.write();
    let vertex = HEADER + VERTEX * random.within(0, image.vertices.len() - 1);
    let edge = HEADER + VERTEX * image.vertices.len() + EDGE * random.within(0, image.edges.len().max(1) - 1);
    let unit = bytes.len() - UNIT * random.within(1, image.units.len().max(1));
    let (at, damage) = match refusal {
        1 => (random.within(0, 5), vec![random.pick(&[0, 4, 7, 255])]),
        2 => (6, random.pick(&[[0, 0], [1, 1], [255, 255]]).to_vec()),
        3 => (8, random.pick(&[[1, 4], [255, 255]]).to_vec()),
        4 => (10, random.pick(&[[1, 4], [255, 255]]).to_vec()),
        5 => (random.within(6, 11), vec![random.pick(&[1, 3])]),
        6 => (vertex + random.within(0, 2), vec![random.pick(&[2, 128, 254])]),
        7 => (edge + random.pick(&[0, 2]), random.pick(&[[0, 0], [1, 0], [255, 0], [0, 1]]).to_vec()),
        8 => (edge + 4, (MOST_WEIGHT + random.pick(&[1, 2, 4_000_000_000])).to_le_bytes().to_vec()),
        9 => (edge + 8, random.pick(&[[0, 0], [3, 0], [254, 255], [255, 0]]).to_vec()),
        10 => (0, vec![]),
        _ => (unit + random.within(0, 4), vec![random.pick(&[0, 1, 2, 4, 255])]),
    };
    for (offset, byte) in damage.into_iter().enumerate() {
        if let Some(place) = bytes.get_mut(at + offset) {
            *place = byte;
        }
    }
    let cut = if random.percent(10) { random.within(0, bytes.len()) } else { 0 };
    bytes.truncate(bytes.len() - cut);
    bytes
}

/// More edges at the first two vertices than fit, or as many as do.
fn crowd(random: &mut Random, image: &mut Image) {
    if image.vertices.len() < 2 {
        return;
    }
    let most = MOST_EDGES_AT_A_VERTEX + usize::from(random.percent(70));
    while image.edges_at(0).max(image.edges_at(1)) < most {
        image.edges.push(Edge { left: 0, right: 1, weight: 2, condition: None });
    }
}

// Records.

struct Author {
    random: Random,
    image: Image,
    model: Model,
    style: Style,
    bytes: Vec<u8>,
    /// Chance in a hundred that a record is kept which the Rust answers by an assertion.
    assertion_chance: usize,
    /// Whether Grow may go near the greatest grown amount.
    high: bool,
    /// Whether it keeps to what a matching program would send: nothing grows past an obstacle.
    tame: bool,
    last: Finding,
    /// The last record was refused or a reset: did it do to the pair list what it should?
    pairs_in_doubt: bool,
}

impl Author {
    fn new(mut random: Random, image: Image, style: Style) -> Self {
        let model = Model::open(&image, Fault::None, PATIENCE);
        let assertion_chance = random.pick(&[0, 2, 10]);
        let high = random.percent(10);
        let tame = random.percent(65);
        let (last, pairs_in_doubt) = (Finding::NoLimit, false);
        Self { random, image, model, style, bytes: vec![], assertion_chance, high, tame, last, pairs_in_doubt }
    }

    fn records(mut self) -> Vec<u8> {
        let most = match self.style {
            Style::Small => 30,
            Style::Any => self.random.pick(&[30, 60, 120, 240]),
        };
        let count = self.random.within(10, most);
        if self.high {
            self.start_high();
        }
        let mut kept = 0;
        // a stuck state may refuse every proposal
        for _ in 0..4 * count {
            if kept < count {
                let (kind, value) = self.record();
                kept += usize::from(self.offer(kind, value));
            }
        }
        if self.style == Style::Any && self.random.percent(6) {
            self.damage();
        }
        self.bytes
    }

    /// A vertex on its own near the greatest amount, so that a search may take it too far at any step.
    fn start_high(&mut self) {
        let is_lone = |vertex: usize| self.image.edges_at(vertex) == 0 && self.image.vertices[vertex].layer.is_none();
        if let Some(vertex) = (0..self.image.vertices.len()).find(|&vertex| is_lone(vertex)) {
            let length = MOST_GROWN as u32 - self.random.within(1, 20) as u32;
            self.offer(0, Word::AddDefectVertex { vertex: vertex as u32, node: 900 }.pack());
            self.offer(0, Word::Grow { length }.pack());
        }
    }

    /// Adds the record unless the model advises against it.
    fn offer(&mut self, kind: u8, value: u32) -> bool {
        let mut model = self.model.clone();
        let word = Word::read(value).filter(|_| kind == 0);
        let answer = match (kind, word) {
            (0, Some(Word::Reset)) => {
                model.reset();
                Ok(Finding::NoLimit)
            }
            (0, Some(word)) => model.instruction(word),
            (1, _) => model.search(Some(value as i32)).and_then(|search| search.answer),
            (2, _) => model.search(None).and_then(|search| search.answer),
            _ => Ok(Finding::NoLimit),
        };
        let unwanted = match answer {
            Err(14 | 16 | 17) => !self.random.percent(self.assertion_chance),
            Err(number) => number == UNKNOWN,
            Ok(Finding::Length(length)) => length < 0 && self.tame && self.random.percent(95),
            Ok(_) => false,
        };
        if unwanted {
            return false;
        }
        self.pairs_in_doubt = answer.is_err() || word == Some(Word::Reset);
        self.last = answer.unwrap_or(Finding::NoLimit);
        self.model = model;
        self.put(kind, value);
        true
    }

    fn put(&mut self, kind: u8, value: u32) {
        self.bytes.push(kind);
        self.bytes.extend(value.to_le_bytes());
    }

    fn damage(&mut self) {
        if self.random.percent(50) {
            let cut = self.random.within(1, 4.min(self.bytes.len()));
            self.bytes.truncate(self.bytes.len() - cut);
        } else {
            let kind = self.random.pick(&[4, 5, 128, 255]);
            self.put(kind, 4);
            self.put(0, 4);
        }
    }

    fn record(&mut self) -> (u8, u32) {
        if let Some(record) = self.reply() {
            return record;
        }
        let load = if self.image.fusion { 8 } else { 1 };
        let [defect, search] = if self.tame { [14, 16] } else { [22, 8] };
        match self.random.weighted(&[defect, 13, 6, 12, 8, load, 1, search, search / 2, 7, 2]) {
            0 => (0, self.add_defect()),
            1 => (0, self.set_speed()),
            2 => (0, self.set_blossom()),
            3 => (0, self.grow()),
            4 => (0, self.spare(Word::FindObstacle, !0x3F)),
            5 => (0, self.load()),
            6 => (0, self.spare(Word::Reset, !0x3F)),
            7 => (1, self.maximum()),
            8 => (2, self.random.pick(&[0, u32::MAX])),
            9 => (3, self.random.pick(&[0, 7])),
            _ => (0, self.bad_word()),
        }
    }

    /// What answers the last finding, so that sessions do not get stuck at one.
    fn reply(&mut self) -> Option<(u8, u32)> {
        if self.pairs_in_doubt && self.random.percent(60) {
            return Some((3, 0));
        }
        if !self.tame || self.random.percent(45) {
            return None;
        }
        Some(match self.last {
            Finding::Conflict { nodes, .. } => (0, self.resolve(nodes)),
            Finding::Length(0) => (0, self.turn_shrinking()),
            Finding::NoLimit => (0, self.add_defect()),
            Finding::Length(_) => (1, self.maximum()),
        })
    }

    fn turn_shrinking(&mut self) -> u32 {
        let registers = self.model.registers();
        let shrinking: Vec<u32> = registers
            .iter()
            .filter(|vertex| vertex.speed == Speed::Shrink)
            .filter_map(|vertex| number(vertex.node))
            .collect();
        if shrinking.is_empty() {
            return Word::FindObstacle.pack();
        }
        let speed = self.random.pick(&[Speed::Grow, Speed::Grow, Speed::Stay]);
        Word::SetSpeed { node: self.random.pick(&shrinking), speed }.pack()
    }

    /// What a matching program does about a conflict of those nodes.
    fn resolve(&mut self, nodes: [Node; 2]) -> u32 {
        let nodes: Vec<u32> = nodes.into_iter().filter_map(number).collect();
        let node = if nodes.is_empty() { 0 } else { self.random.pick(&nodes) };
        let word = match self.random.within(1, 10) {
            1..=4 => Word::SetSpeed { node, speed: Speed::Stay },
            5..=7 => Word::SetSpeed { node, speed: Speed::Shrink },
            _ => Word::SetBlossom { node, blossom: self.random.within(300, 302) as u32 },
        };
        word.pack()
    }

    /// The word, now and then with some of its spare bits set.
    fn spare(&mut self, word: Word, bits: u32) -> u32 {
        let set = if self.random.percent(15) { self.random.bits() as u32 & bits } else { 0 };
        word.pack() | set
    }

    fn add_defect(&mut self) -> u32 {
        let most = self.image.vertices.len() as u32 - 1;
        let mut vertex = self.random.within(0, most as usize) as u32;
        if self.random.percent(4) {
            vertex = self.random.pick(&[most + 1, most + 2, 256, 32_767]);
        }
        let node = match self.random.within(1, 10) {
            1..=6 => vertex,
            7 => 0,
            8 => 32_767,
            _ => self.random.within(0, 9) as u32,
        };
        Word::AddDefectVertex { vertex, node }.pack()
    }

    /// A node that some vertex holds, mostly.
    fn node(&mut self) -> u32 {
        let registers = self.model.registers();
        let held: Vec<u32> =
            registers.iter().flat_map(|vertex| [vertex.node, vertex.root]).filter_map(number).collect();
        if held.is_empty() || self.random.percent(8) {
            return self.random.within(0, 9) as u32;
        }
        self.random.pick(&held)
    }

    fn set_speed(&mut self) -> u32 {
        let speed = self.random.pick(&[Speed::Stay, Speed::Grow, Speed::Shrink, Speed::Shrink]);
        let word = Word::SetSpeed { node: self.node(), speed };
        self.spare(word, 0x7FF8)
    }

    fn set_blossom(&mut self) -> u32 {
        let blossom = if self.random.percent(60) { self.random.within(300, 305) as u32 } else { self.node() };
        Word::SetBlossom { node: self.node(), blossom }.pack()
    }

    fn load(&mut self) -> u32 {
        let layers: Vec<u16> = self.image.vertices.iter().filter_map(|vertex| vertex.layer).collect();
        let mut layer = self.random.within(0, 4) as u32;
        if !layers.is_empty() && self.random.percent(80) {
            layer = self.random.pick(&layers).into();
        }
        self.spare(Word::LoadDefectsExternal { layer }, 0x1_FFC0)
    }

    /// Mostly a length that fits what is found now.
    fn grow(&mut self) -> u32 {
        let found = match self.model.clone().instruction(Word::FindObstacle) {
            Ok(Finding::Length(length)) if length > 0 => length,
            _ => 2,
        };
        let length = match self.random.within(1, 12) {
            1..=5 => found,
            6 | 7 => (found / 2).max(1),
            8 => 0,
            9 if !self.tame => found + 1,
            10 => self.random.within(0, 6) as i64,
            _ if self.high => MOST_GROWN - self.random.pick(&[0, 0, 1, 2, 4, 10]),
            _ => 1,
        };
        Word::Grow { length: length.min(MOST_GROWN) as u32 }.pack()
    }

    fn maximum(&mut self) -> u32 {
        match self.random.within(1, 20) {
            1 => 0,
            2 => 1,
            3 | 4 => 2_147_483_647,
            5 => self.random.pick(&[u32::MAX, 0x8000_0000, -5i32 as u32]),
            6 | 7 => self.random.within(2, 5) as u32,
            8..=11 => self.random.within(2, 40) as u32,
            12 => 2_147_483_646,
            _ => self.random.within(100, 4000) as u32,
        }
    }

    fn bad_word(&mut self) -> u32 {
        let bits = self.random.bits() as u32;
        match self.random.within(0, 3) {
            0 => bits | 3,
            1 => (bits & !7) | 3 << 15,
            _ => (bits & !0x3F) | self.random.pick(&[1, 2, 3, 7]) << 3 | 4,
        }
    }
}

fn number(node: Node) -> Option<u32> {
    match node {
        Node::Number(number) => Some(number),
        Node::None | Node::Virtual => None,
    }
}
