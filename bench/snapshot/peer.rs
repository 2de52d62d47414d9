//! The work of `crates/snapshot_bench` in plain Rust, over std's maps of the same shape: an ordered map
//! from each vertex to its label and an ordered map of its neighbours, with each edge at both its ends.
use std::collections::BTreeMap;
use std::collections::btree_map::Entry;
use std::hint::black_box;
use std::time::Instant;

#[derive(Clone, Copy)]
enum Shape {
    Power,
    Star,
}

#[derive(Clone, Copy)]
enum Ids {
    Scattered,
    Descending,
    Multiples,
}

#[derive(Clone, Copy)]
struct Stream {
    shape: Shape,
    ids: Ids,
    vertices: u32,
}

fn mix(number: u64) -> u64 {
    let a = number.wrapping_add(0x9e37_79b9_7f4a_7c15);
    let b = (a ^ (a >> 30)).wrapping_mul(0xbf58_476d_1ce4_e5b9);
    let c = (b ^ (b >> 27)).wrapping_mul(0x94d0_49bb_1331_11eb);
    c ^ (c >> 31)
}

fn below(number: u64, end: u32) -> u32 {
    (number % u64::from(end)) as u32
}

impl Stream {
    fn id(&self, place: u32) -> u32 {
        match self.ids {
            Ids::Scattered => place.wrapping_mul(2_654_435_761),
            Ids::Descending => self.vertices.wrapping_sub(place),
            Ids::Multiples => place.wrapping_mul(1 << 16).wrapping_add(place >> 16),
        }
    }

    fn draw(&self, number: u64) -> u32 {
        self.id(1 + below(mix(number), self.vertices.max(2) - 1))
    }

    fn ends(&self, number: u64) -> (u32, u32) {
        match self.shape {
            Shape::Power => {
                let part = mix(number.wrapping_mul(2)) % (1 << 20);
                let cube = part.wrapping_mul(part).wrapping_mul(part) / (1 << 40);
                let place = cube.wrapping_mul(u64::from(self.vertices)) / (1 << 20);
                let from = self.id(below(place, self.vertices.max(1)));
                (from, self.draw(number.wrapping_mul(2).wrapping_add(1)))
            }
            Shape::Star => {
                let place = number.wrapping_mul(2_654_435_761);
                (self.id(0), self.id(1 + below(place, self.vertices.max(2) - 1)))
            }
        }
    }
}

enum Update {
    AddVertex { id: u32, label: u32 },
    RemoveVertex { id: u32 },
    LabelVertex { id: u32, label: u32 },
    AddEdge { from: u32, to: u32, label: u32 },
    RemoveEdge { from: u32, to: u32 },
    LabelEdge { from: u32, to: u32, label: u32 },
}

#[derive(Default)]
struct Vertex {
    label: u32,
    near: BTreeMap<u32, u32>,
}

#[derive(Default)]
struct Snapshot {
    vertices: BTreeMap<u32, Vertex>,
}

impl Snapshot {
    fn label(&self, v: u32) -> Option<u32> {
        self.vertices.get(&v).map(|vertex| vertex.label)
    }

    fn edge_label(&self, a: u32, b: u32) -> Option<u32> {
        self.vertices.get(&a)?.near.get(&b).copied()
    }

    fn put_vertex(&mut self, v: u32, label: u32) {
        match self.vertices.entry(v) {
            Entry::Occupied(mut vertex) => vertex.get_mut().label = label,
            Entry::Vacant(place) => {
                place.insert(Vertex {
                    label,
                    near: BTreeMap::new(),
                });
            }
        }
    }

    fn put_half(&mut self, from: u32, to: u32, label: u32) {
        if let Some(vertex) = self.vertices.get_mut(&from) {
            vertex.near.insert(to, label);
        }
    }

    fn take_half(&mut self, from: u32, to: u32) {
        if let Some(vertex) = self.vertices.get_mut(&from) {
            vertex.near.remove(&to);
        }
    }

    fn put_edge(&mut self, a: u32, b: u32, label: u32) {
        self.put_half(a, b, label);
        self.put_half(b, a, label);
    }

    fn take_edge(&mut self, a: u32, b: u32) {
        self.take_half(a, b);
        self.take_half(b, a);
    }

    fn take_vertex(&mut self, v: u32) {
        if let Some(vertex) = self.vertices.remove(&v) {
            for to in vertex.near.keys() {
                self.take_half(*to, v);
            }
        }
    }

    fn near(&self, v: u32) -> Vec<u32> {
        match self.vertices.get(&v) {
            Some(vertex) => vertex.near.keys().copied().collect(),
            None => Vec::new(),
        }
    }

    /// The edge between two vertices that are there.
    fn joining(&self, from: u32, to: u32) -> Option<(u32, u32)> {
        if from == to {
            return None;
        }
        self.label(from)?;
        self.label(to)?;
        Some((from.min(to), from.max(to)))
    }

    /// Whether the update was accepted, with the look-ups that the rules of updates ask for.
    fn step(&mut self, update: &Update) -> Option<()> {
        match *update {
            Update::AddVertex { id, label } => {
                if self.label(id).is_some() {
                    return None;
                }
                self.put_vertex(id, label);
            }
            Update::RemoveVertex { id } => {
                self.label(id)?;
                self.take_vertex(id);
            }
            Update::LabelVertex { id, label } => {
                self.label(id)?;
                self.put_vertex(id, label);
            }
            Update::AddEdge { from, to, label } => {
                let (a, b) = self.joining(from, to)?;
                if self.edge_label(a, b).is_some() {
                    return None;
                }
                self.put_edge(a, b, label);
            }
            Update::RemoveEdge { from, to } => {
                let (a, b) = self.joining(from, to)?;
                self.edge_label(a, b)?;
                self.take_edge(a, b);
            }
            Update::LabelEdge { from, to, label } => {
                let (a, b) = self.joining(from, to)?;
                self.edge_label(a, b)?;
                self.put_edge(a, b, label);
            }
        }
        Some(())
    }
}

#[derive(Default)]
struct Tally {
    accepted: u64,
    refused: u64,
}

impl Tally {
    fn make(&mut self, graph: &mut Snapshot, update: &Update) {
        match graph.step(update) {
            Some(()) => self.accepted += 1,
            None => self.refused += 1,
        }
    }
}

fn build(graph: &mut Snapshot, stream: Stream, edges: u64) -> Tally {
    let mut tally = Tally::default();
    for place in 0..stream.vertices {
        let id = stream.id(place);
        let label = place % 5;
        tally.make(graph, &Update::AddVertex { id, label });
    }
    for number in 0..edges {
        let (from, to) = stream.ends(number);
        tally.make(graph, &Update::AddEdge { from, to, label: 1 });
    }
    tally
}

fn churn_step(stream: Stream, edges: u64, number: u64) -> Update {
    let label = 2;
    let (round, kind) = (number / 100, number % 100);
    match kind {
        96 => Update::LabelVertex {
            id: stream.draw(number),
            label,
        },
        97 => {
            let (from, to) = stream.ends(round.wrapping_mul(48).wrapping_add(edges / 2));
            Update::LabelEdge { from, to, label }
        }
        98 => Update::RemoveVertex {
            id: stream.draw(round),
        },
        99 => Update::AddVertex {
            id: stream.draw(round),
            label,
        },
        _ => {
            let oldest = round.wrapping_mul(48).wrapping_add(kind / 2);
            if kind % 2 == 0 {
                let (from, to) = stream.ends(oldest);
                Update::RemoveEdge { from, to }
            } else {
                let (from, to) = stream.ends(oldest.wrapping_add(edges));
                Update::AddEdge { from, to, label }
            }
        }
    }
}

fn churn(graph: &mut Snapshot, stream: Stream, edges: u64, steps: u64) -> Tally {
    let mut tally = Tally::default();
    for number in 0..steps {
        tally.make(graph, &churn_step(stream, edges, number));
    }
    tally
}

fn look(graph: &Snapshot, stream: Stream, steps: u64) -> u64 {
    let mut neighbours = 0;
    for number in 0..steps {
        neighbours += black_box(graph.near(stream.draw(number))).len() as u64;
    }
    neighbours
}

fn main() {
    let words: Vec<String> = std::env::args().skip(1).collect();
    let number = |i: usize| words[i].parse::<u64>().expect("a number");
    let shape = match words[0].as_str() {
        "power" => Shape::Power,
        "star" => Shape::Star,
        _ => panic!("no shape"),
    };
    let ids = match words[1].as_str() {
        "scattered" => Ids::Scattered,
        "descending" => Ids::Descending,
        "multiples" => Ids::Multiples,
        _ => panic!("no ids"),
    };
    let vertices = u32::try_from(number(2)).expect("32 bits");
    let stream = Stream {
        shape,
        ids,
        vertices,
    };
    let (edges, steps) = (number(3), number(4));
    let mut graph = Snapshot::default();
    let start = Instant::now();
    let built = build(&mut graph, stream, edges);
    let build_time = start.elapsed().as_nanos();
    let start = Instant::now();
    let changed = churn(&mut graph, stream, edges, steps);
    let churn_time = start.elapsed().as_nanos();
    let start = Instant::now();
    let neighbours = look(&graph, stream, steps);
    let look_time = start.elapsed().as_nanos();
    println!("built {} refused {}", built.accepted, built.refused);
    println!("changed {} refused {}", changed.accepted, changed.refused);
    println!("neighbours {neighbours}");
    eprintln!("build {build_time} churn {churn_time} near {look_time}");
}
