//! The work of `crates/store_bench` in plain Rust, over std's maps: a snapshot that judges, and a store of versions that
//! is an ordered map from each vertex to the versions of its label and an ordered map of those of its neighbours.
use std::collections::{BTreeMap, VecDeque};
use std::hint::black_box;
use std::ops::Range;

#[repr(C)]
#[derive(Default)]
struct Timespec {
    seconds: i64,
    nanos: i64,
}

unsafe extern "C" {
    fn clock_gettime(clock: i32, time: *mut Timespec) -> i32;
}

const CLOCK_PROCESS_CPUTIME_ID: i32 = 2;

/// The processor time that the program has used, in nanoseconds, which std doesn't tell.
fn cpu_nanos() -> u128 {
    let mut time = Timespec::default();
    // SAFETY: the call writes one time, of the layout that Linux has on 64 bits.
    let answer = unsafe { clock_gettime(CLOCK_PROCESS_CPUTIME_ID, &mut time) };
    assert_eq!(answer, 0, "no clock");
    time.seconds as u128 * 1_000_000_000 + time.nanos as u128
}

#[derive(Clone, Copy)]
enum Shape {
    Power,
    Star,
}

#[derive(Clone, Copy)]
enum Ids {
    Scattered,
    Descending,
    Multiples,
}

#[derive(Clone, Copy)]
struct Stream {
    shape: Shape,
    ids: Ids,
    vertices: u32,
}

fn mix(number: u64) -> u64 {
    let a = number.wrapping_add(0x9e37_79b9_7f4a_7c15);
    let b = (a ^ (a >> 30)).wrapping_mul(0xbf58_476d_1ce4_e5b9);
    let c = (b ^ (b >> 27)).wrapping_mul(0x94d0_49bb_1331_11eb);
    c ^ (c >> 31)
}

fn below(number: u64, end: u32) -> u32 {
    (number % u64::from(end)) as u32
}

impl Stream {
    fn id(&self, place: u32) -> u32 {
        match self.ids {
            Ids::Scattered => place.wrapping_mul(2_654_435_761),
            Ids::Descending => self.vertices.wrapping_sub(place),
            Ids::Multiples => place.wrapping_mul(1 << 16).wrapping_add(place >> 16),
        }
    }

    fn draw(&self, number: u64) -> u32 {
        self.id(1 + below(mix(number), self.vertices.max(2) - 1))
    }

    fn ends(&self, number: u64) -> (u32, u32) {
        match self.shape {
            Shape::Power => {
                let part = mix(number.wrapping_mul(2)) % (1 << 20);
                let cube = part.wrapping_mul(part).wrapping_mul(part) / (1 << 40);
                let place = cube.wrapping_mul(u64::from(self.vertices)) / (1 << 20);
                let from = self.id(below(place, self.vertices.max(1)));
                (from, self.draw(number.wrapping_mul(2).wrapping_add(1)))
            }
            Shape::Star => {
                let place = number.wrapping_mul(2_654_435_761);
                (self.id(0), self.id(1 + below(place, self.vertices.max(2) - 1)))
            }
        }
    }
}

enum Update {
    AddVertex { id: u32, label: u32 },
    RemoveVertex { id: u32 },
    LabelVertex { id: u32, label: u32 },
    AddEdge { from: u32, to: u32, label: u32 },
    RemoveEdge { from: u32, to: u32 },
    LabelEdge { from: u32, to: u32, label: u32 },
}

/// What an entry became: the label of a vertex, or of the edge from it to another.
#[derive(Clone, Copy)]
struct Change {
    vertex: u32,
    to: Option<u32>,
    label: Option<u32>,
}

fn both(a: u32, b: u32, label: Option<u32>) -> Vec<Change> {
    vec![half(a, b, label), half(b, a, label)]
}

fn half(vertex: u32, to: u32, label: Option<u32>) -> Change {
    Change {
        vertex,
        to: Some(to),
        label,
    }
}

#[derive(Default)]
struct Vertex {
    label: u32,
    near: BTreeMap<u32, u32>,
}

/// The latest graph, which judges updates.
#[derive(Default)]
struct Snapshot {
    vertices: BTreeMap<u32, Vertex>,
}

impl Snapshot {
    fn label(&self, v: u32) -> Option<u32> {
        self.vertices.get(&v).map(|vertex| vertex.label)
    }

    /// The label of the edge between two vertices that are there, if one is.
    fn edge(&self, from: u32, to: u32) -> Option<Option<u32>> {
        if from == to {
            return None;
        }
        self.label(to)?;
        Some(self.vertices.get(&from)?.near.get(&to).copied())
    }

    /// What the update changes, or `None` where it is refused.
    fn changes_by(&self, update: &Update) -> Option<Vec<Change>> {
        match *update {
            Update::AddVertex { id, label } => match self.label(id) {
                Some(_) => None,
                None => Some(vec![Change {
                    vertex: id,
                    to: None,
                    label: Some(label),
                }]),
            },
            Update::RemoveVertex { id } => Some(self.removal(id, self.vertices.get(&id)?)),
            Update::LabelVertex { id, label } => {
                let change = Change {
                    vertex: id,
                    to: None,
                    label: Some(label),
                };
                let same = self.label(id)? == label;
                Some(if same { Vec::new() } else { vec![change] })
            }
            Update::AddEdge { from, to, label } => match self.edge(from, to)? {
                Some(_) => None,
                None => Some(both(from, to, Some(label))),
            },
            Update::RemoveEdge { from, to } => {
                self.edge(from, to)??;
                Some(both(from, to, None))
            }
            Update::LabelEdge { from, to, label } => {
                let same = self.edge(from, to)?? == label;
                Some(if same { Vec::new() } else { both(from, to, Some(label)) })
            }
        }
    }

    fn removal(&self, id: u32, vertex: &Vertex) -> Vec<Change> {
        let mut changes = Vec::with_capacity(1 + 2 * vertex.near.len());
        changes.push(Change {
            vertex: id,
            to: None,
            label: None,
        });
        for to in vertex.near.keys() {
            changes.extend(both(id, *to, None));
        }
        changes
    }

    fn make(&mut self, change: &Change) {
        match (change.to, change.label) {
            (None, Some(label)) => self.vertices.entry(change.vertex).or_default().label = label,
            (None, None) => {
                self.vertices.remove(&change.vertex);
            }
            (Some(to), label) => {
                if let Some(vertex) = self.vertices.get_mut(&change.vertex) {
                    match label {
                        Some(label) => vertex.near.insert(to, label),
                        None => vertex.near.remove(&to),
                    };
                }
            }
        }
    }
}

/// What an accepted update changed, and which vertices and edges differ: of the edges those that end at none of the
/// vertices.
struct Group {
    changes: Vec<Change>,
    vertices: Vec<u32>,
    edges: Vec<(u32, u32)>,
}

impl Group {
    fn of(changes: Vec<Change>) -> Group {
        let vertices: Vec<u32> = changes
            .iter()
            .filter(|change| change.to.is_none())
            .map(|change| change.vertex)
            .collect();
        let mut edges = Vec::new();
        for change in &changes {
            if let Some(to) = change.to {
                let told = vertices.contains(&change.vertex) || vertices.contains(&to);
                if change.vertex < to && !told {
                    edges.push((change.vertex, to));
                }
            }
        }
        Group {
            changes,
            vertices,
            edges,
        }
    }
}

/// What stood at an entry at the floor, and what it became since.
#[derive(Default)]
struct Versions {
    at_floor: Option<u32>,
    later: Vec<(u64, Option<u32>)>,
}

impl Versions {
    fn after(&self, t: u64) -> Option<u32> {
        match self.later.iter().rev().find(|(at, _)| *at <= t) {
            Some((_, label)) => *label,
            None => self.at_floor,
        }
    }

    fn around(&self, t: u64) -> (Option<u32>, Option<u32>) {
        if self.later.is_empty() {
            (self.at_floor, self.at_floor)
        } else {
            (self.after(t - 1), self.after(t))
        }
    }

    fn fold(&mut self, t: u64) {
        let due = self.later.partition_point(|(at, _)| *at <= t);
        if due == self.later.len() {
            // An entry without changes keeps no room for them.
            if let Some((_, label)) = std::mem::take(&mut self.later).last() {
                self.at_floor = *label;
            }
        } else if let Some((_, label)) = self.later.drain(..due).last() {
            self.at_floor = label;
        }
    }

    fn is_nothing(&self) -> bool {
        self.at_floor.is_none() && self.later.is_empty()
    }
}

#[derive(Default)]
struct Cell {
    label: Versions,
    near: BTreeMap<u32, Versions>,
}

impl Cell {
    fn is_nothing(&self) -> bool {
        self.label.is_nothing() && self.near.is_empty()
    }
}

struct Near {
    #[allow(dead_code)]
    to: u32,
    before: Option<u32>,
    after: Option<u32>,
}

#[derive(Default)]
struct Pair {
    before: Option<u32>,
    after: Option<u32>,
    near: Vec<Near>,
}

/// A graph through time, and which entries changed since the floor, in the order of the timestamps.
#[derive(Default)]
struct Store {
    cells: BTreeMap<u32, Cell>,
    touched: VecDeque<(u64, u32, Option<u32>)>,
}

impl Store {
    fn apply(&mut self, changes: &[Change], at: u64) {
        for Change { vertex, to, label } in changes.iter().copied() {
            let cell = self.cells.entry(vertex).or_default();
            let versions = match to {
                None => &mut cell.label,
                Some(to) => cell.near.entry(to).or_default(),
            };
            versions.later.push((at, label));
            self.touched.push_back((at, vertex, to));
        }
    }

    /// What a vertex has before and after a timestamp.
    fn fetch(&self, v: u32, t: u64) -> Pair {
        let Some(cell) = self.cells.get(&v) else {
            return Pair::default();
        };
        let (before, after) = cell.label.around(t);
        let mut near = Vec::with_capacity(cell.near.len());
        for (to, versions) in &cell.near {
            let (before, after) = versions.around(t);
            if before.is_some() || after.is_some() {
                near.push(Near { to: *to, before, after });
            }
        }
        Pair { before, after, near }
    }

    fn prune(&mut self, floor: u64) {
        while let Some((at, vertex, to)) = self.touched.front().copied() {
            if floor < at {
                return;
            }
            self.touched.pop_front();
            self.fold(vertex, to, floor);
        }
    }

    fn fold(&mut self, vertex: u32, to: Option<u32>, floor: u64) {
        let Some(cell) = self.cells.get_mut(&vertex) else {
            return;
        };
        match to {
            None => cell.label.fold(floor),
            Some(to) => {
                if let Some(versions) = cell.near.get_mut(&to) {
                    versions.fold(floor);
                    if versions.is_nothing() {
                        cell.near.remove(&to);
                    }
                }
            }
        }
        if cell.is_nothing() {
            self.cells.remove(&vertex);
        }
    }
}

/// What was fetched.
#[derive(Default)]
struct Seen {
    fetched: u64,
    labels: u64,
    neighbours: u64,
}

impl Seen {
    fn add(&mut self, pair: &Pair) {
        self.fetched += 1;
        self.add_label(pair.before);
        self.add_label(pair.after);
        for near in &pair.near {
            self.neighbours += 1;
            self.add_label(near.before);
            self.add_label(near.after);
        }
    }

    fn add_label(&mut self, label: Option<u32>) {
        if let Some(label) = label {
            self.labels += u64::from(label) + 1;
        }
    }
}

#[derive(Default)]
struct Work {
    accepted: u64,
    refused: u64,
    seen: Seen,
    push: u128,
    apply: u128,
    fetch: u128,
    prune: u128,
}

/// The update with this number: first the vertices, then the edges, and then the churn.
fn update(stream: Stream, edges: u64, number: u64) -> Update {
    let vertices = u64::from(stream.vertices);
    if number < vertices {
        let place = number as u32;
        return Update::AddVertex {
            id: stream.id(place),
            label: place % 5,
        };
    }
    let number = number - vertices;
    if number < edges {
        let (from, to) = stream.ends(number);
        return Update::AddEdge { from, to, label: 1 };
    }
    churn_step(stream, edges, number - edges)
}

fn churn_step(stream: Stream, edges: u64, number: u64) -> Update {
    let label = 2;
    let (round, kind) = (number / 100, number % 100);
    match kind {
        96 => Update::LabelVertex {
            id: stream.draw(number),
            label,
        },
        97 => {
            let (from, to) = stream.ends(round.wrapping_mul(48).wrapping_add(edges / 2));
            Update::LabelEdge { from, to, label }
        }
        98 => Update::RemoveVertex { id: stream.draw(round) },
        99 => Update::AddVertex {
            id: stream.draw(round),
            label,
        },
        _ => {
            let oldest = round.wrapping_mul(48).wrapping_add(kind / 2);
            if kind % 2 == 0 {
                let (from, to) = stream.ends(oldest);
                Update::RemoveEdge { from, to }
            } else {
                let (from, to) = stream.ends(oldest.wrapping_add(edges));
                Update::AddEdge { from, to, label }
            }
        }
    }
}

struct Graph {
    snapshot: Snapshot,
    store: Store,
    at: u64,
}

const WINDOW: usize = 256;

impl Graph {
    /// Passes the updates with these numbers through the store, in windows.
    fn pass(&mut self, stream: Stream, edges: u64, numbers: Range<u64>, looks: bool) -> Work {
        let mut work = Work::default();
        let mut from = numbers.start;
        while from < numbers.end {
            let to = numbers.end.min(from + WINDOW as u64);
            self.pass_window(stream, edges, from..to, looks, &mut work);
            from = to;
        }
        work
    }

    fn pass_window(&mut self, stream: Stream, edges: u64, numbers: Range<u64>, looks: bool, work: &mut Work) {
        let start = cpu_nanos();
        let mut window: Vec<Group> = Vec::with_capacity(WINDOW);
        for number in numbers {
            match self.snapshot.changes_by(&update(stream, edges, number)) {
                Some(changes) => {
                    for change in &changes {
                        self.snapshot.make(change);
                    }
                    window.push(Group::of(changes));
                    work.accepted += 1;
                }
                None => work.refused += 1,
            }
        }
        work.push += cpu_nanos() - start;
        let start = cpu_nanos();
        for (at, group) in (self.at + 1..).zip(&window) {
            self.store.apply(&group.changes, at);
        }
        work.apply += cpu_nanos() - start;
        if looks {
            let start = cpu_nanos();
            for (at, group) in (self.at + 1..).zip(&window) {
                self.look(group, at, &mut work.seen);
            }
            work.fetch += cpu_nanos() - start;
        }
        let start = cpu_nanos();
        self.at += window.len() as u64;
        self.store.prune(self.at);
        work.prune += cpu_nanos() - start;
    }

    /// Fetches each vertex that a group changed, and both ends of each edge, as they were around it.
    fn look(&self, group: &Group, at: u64, seen: &mut Seen) {
        for vertex in &group.vertices {
            seen.add(&black_box(self.store.fetch(*vertex, at)));
        }
        for (a, b) in &group.edges {
            seen.add(&black_box(self.store.fetch(*a, at)));
            seen.add(&black_box(self.store.fetch(*b, at)));
        }
    }
}

fn main() {
    let words: Vec<String> = std::env::args().skip(1).collect();
    let number = |i: usize| u32::try_from(words[i].parse::<u64>().expect("a number")).expect("32 bits");
    let shape = match words[0].as_str() {
        "power" => Shape::Power,
        "star" => Shape::Star,
        _ => panic!("no shape"),
    };
    let ids = match words[1].as_str() {
        "scattered" => Ids::Scattered,
        "descending" => Ids::Descending,
        "multiples" => Ids::Multiples,
        _ => panic!("no ids"),
    };
    let stream = Stream {
        shape,
        ids,
        vertices: number(2),
    };
    let (edges, steps) = (u64::from(number(3)), u64::from(number(4)));
    let building = u64::from(stream.vertices) + edges;
    let mut graph = Graph {
        snapshot: Snapshot::default(),
        store: Store::default(),
        at: 0,
    };
    let start = cpu_nanos();
    let built = graph.pass(stream, edges, 0..building, false);
    let build = cpu_nanos() - start;
    println!("built {} refused {}", built.accepted, built.refused);
    let start = cpu_nanos();
    let work = graph.pass(stream, edges, building..building + steps, true);
    let churn = cpu_nanos() - start;
    println!("changed {} refused {}", work.accepted, work.refused);
    let Seen {
        fetched,
        labels,
        neighbours,
    } = work.seen;
    println!("fetched {fetched} labels {labels} neighbours {neighbours}");
    let Work {
        push,
        apply,
        fetch,
        prune,
        ..
    } = work;
    eprintln!("build {build} churn {churn} push {push} apply {apply} fetch {fetch} prune {prune}");
}
