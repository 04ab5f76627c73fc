//! The DCT image, version 1: reading with refusals 1 to 11, and writing.

pub const HEADER: usize = 12;
pub const VERTEX: usize = 3;
pub const EDGE: usize = 10;
pub const UNIT: usize = 5;
const NONE: u16 = 65_535;
pub const MOST_WEIGHT: u32 = 1_000_000;
const MOST_VERTICES: usize = 256;
const MOST_EDGES: usize = 1024;
pub const MOST_UNITS: usize = 1024;
const MOST_LAYER: u16 = 32_767;
pub const MOST_EDGES_AT_A_VERTEX: usize = 16;

#[derive(Clone, Debug, Default)]
pub struct Image {
    pub fusion: bool,
    pub offloading: bool,
    pub vertices: Vec<Vertex>,
    pub edges: Vec<Edge>,
    pub units: Vec<Unit>,
}

#[derive(Clone, Debug)]
pub struct Vertex {
    pub default_virtual: bool,
    pub layer: Option<u16>,
}

#[derive(Clone, Debug)]
pub struct Edge {
    pub left: usize,
    pub right: usize,
    pub weight: u32,
    pub condition: Option<usize>,
}

#[derive(Clone, Debug)]
pub enum Unit {
    DefectMatch { edge: usize },
    VirtualMatch { edge: usize, named: usize },
}

impl Edge {
    pub fn has_end(&self, vertex: usize) -> bool {
        self.left == vertex || self.right == vertex
    }
    pub fn far_end(&self, vertex: usize) -> usize {
        if vertex == self.left {
            self.right
        } else {
            self.left
        }
    }
}

impl Image {
    /// The image and the bytes behind it, or the refusal's number.
    pub fn read(bytes: &[u8]) -> Result<(Self, &[u8]), u8> {
        if bytes.len() < HEADER || &bytes[..3] != b"DCT" || u16_at(bytes, 3) != 1 || bytes[5] > 3 {
            return Err(1);
        }
        let [v, e, u] = [6, 8, 10].map(|at| usize::from(u16_at(bytes, at)));
        for (no, wrong) in [(2, v == 0 || v > MOST_VERTICES), (3, e > MOST_EDGES), (4, u > MOST_UNITS)] {
            if wrong {
                return Err(no);
            }
        }
        let edges = HEADER + VERTEX * v;
        let units = edges + EDGE * e;
        let end = units + UNIT * u;
        if bytes.len() < end {
            return Err(5);
        }
        let mut image = Image { fusion: bytes[5] & 1 != 0, offloading: bytes[5] & 2 != 0, ..Image::default() };
        for record in bytes[HEADER..edges].chunks(VERTEX) {
            image.vertices.push(read_vertex(record)?);
        }
        for record in bytes[edges..units].chunks(EDGE) {
            let edge = image.read_edge(record)?;
            image.edges.push(edge);
        }
        for record in bytes[units..end].chunks(UNIT) {
            let unit = image.read_unit(record)?;
            image.units.push(unit);
        }
        Ok((image, &bytes[end..]))
    }

    fn read_edge(&self, record: &[u8]) -> Result<Edge, u8> {
        let [left, right, condition] = [0, 2, 8].map(|at| usize::from(u16_at(record, at)));
        let weight = u32_at(record, 4);
        let v = self.vertices.len();
        if left >= v || right >= v || left == right {
            return Err(7);
        }
        if weight > MOST_WEIGHT {
            return Err(8);
        }
        let condition = if condition == usize::from(NONE) { None } else { Some(condition) };
        let edge = Edge { left, right, weight, condition };
        if condition.is_some_and(|vertex| !edge.has_end(vertex)) {
            return Err(9);
        }
        if [left, right].iter().any(|&end| self.edges_at(end) >= MOST_EDGES_AT_A_VERTEX) {
            return Err(10);
        }
        Ok(edge)
    }

    fn read_unit(&self, record: &[u8]) -> Result<Unit, u8> {
        let edge = usize::from(u16_at(record, 1));
        let vertex = u16_at(record, 3);
        let named = usize::from(vertex);
        let Some(its_edge) = self.edges.get(edge) else {
            return Err(11);
        };
        match record[0] {
            0 if vertex == NONE => Ok(Unit::DefectMatch { edge }),
            1 if its_edge.has_end(named) => Ok(Unit::VirtualMatch { edge, named }),
            _ => Err(11),
        }
    }

    pub fn edges_at(&self, vertex: usize) -> usize {
        self.edges.iter().filter(|edge| edge.has_end(vertex)).count()
    }

    pub fn write(&self) -> Vec<u8> {
        let mut bytes = b"DCT\x01\x00".to_vec();
        bytes.push(u8::from(self.fusion) + 2 * u8::from(self.offloading));
        for count in [self.vertices.len(), self.edges.len(), self.units.len()] {
            put(&mut bytes, count);
        }
        for vertex in &self.vertices {
            bytes.push(u8::from(vertex.default_virtual));
            put(&mut bytes, usize::from(vertex.layer.unwrap_or(NONE)));
        }
        for edge in &self.edges {
            put(&mut bytes, edge.left);
            put(&mut bytes, edge.right);
            bytes.extend(edge.weight.to_le_bytes());
            put(&mut bytes, edge.condition.unwrap_or(usize::from(NONE)));
        }
        for unit in &self.units {
            let (kind, edge, named) = match *unit {
                Unit::DefectMatch { edge } => (0, edge, usize::from(NONE)),
                Unit::VirtualMatch { edge, named } => (1, edge, named),
            };
            bytes.push(kind);
            put(&mut bytes, edge);
            put(&mut bytes, named);
        }
        bytes
    }
}

fn read_vertex(record: &[u8]) -> Result<Vertex, u8> {
    let layer = match u16_at(record, 1) {
        NONE => None,
        layer if layer <= MOST_LAYER => Some(layer),
        _ => return Err(6),
    };
    if record[0] > 1 {
        return Err(6);
    }
    Ok(Vertex { default_virtual: record[0] == 1, layer })
}

fn put(bytes: &mut Vec<u8>, value: usize) {
    bytes.extend((value as u16).to_le_bytes());
}

fn u16_at(bytes: &[u8], at: usize) -> u16 {
    u16::from_le_bytes([bytes[at], bytes[at + 1]])
}

pub fn u32_at(bytes: &[u8], at: usize) -> u32 {
    u32::from_le_bytes([bytes[at], bytes[at + 1], bytes[at + 2], bytes[at + 3]])
}
