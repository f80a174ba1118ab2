//! An implementation of its own, written from docs/ and from nothing else: it shares no text with the library.
use crate::library::{ANALYSE, Answer, Call, Judgement, MOVE, Outcome, Point, READ, SYNTHESISE, Slot, TAKE_BACK, Value};
use std::collections::HashMap;

pub type Refusal = (usize, usize);

pub fn done(value: usize) -> Outcome {
    Outcome { status: 0, row: 0, value }
}

pub fn refused((row, value): Refusal) -> Outcome {
    Outcome { status: 1, row, value }
}

#[derive(Clone, Default)]
pub struct Mesh {
    pub vertices: usize,
    pub edges: Vec<(usize, usize)>,
    /// of each corner of a face: its vertex, and the edge from it to the next corner
    pub faces: Vec<Vec<(usize, usize)>>,
    pub curve: Vec<bool>,
    pub dims: Vec<u8>,
}

fn key(a: usize, b: usize) -> (usize, usize) {
    (a.min(b), a.max(b))
}

/// FORMATS.md and REFUSALS.md: the records one by one, then the mesh as a whole.
pub fn read(bytes: &[u8]) -> Result<Mesh, Refusal> {
    let mut m = Mesh::default();
    let mut known: HashMap<(usize, usize), usize> = HashMap::new();
    let mut uses: Vec<usize> = vec![];
    let mut named: Vec<usize> = vec![];
    let mut at = 0;
    for record in 0.. {
        let kind = *bytes.get(at).ok_or((1, record))? as usize;
        if kind > 8 {
            return Err((2, record));
        }
        let body = match kind { 0 => 0, 1 => 1, 2 => 4, n => 2 * n };
        let body = bytes.get(at + 1..at + 1 + body).ok_or((1, record))?;
        at += 1 + body.len();
        let numbers: Vec<usize> = body.chunks(2).map(|c| c[0] as usize + 256 * c.get(1).map_or(0, |h| *h as usize)).collect();
        let strange = |numbers: &[usize]| numbers.iter().enumerate().any(|(i, v)| *v >= m.vertices || numbers[..i].contains(v));
        match kind {
            0 => {
                if m.faces.is_empty() {
                    return Err((7, record));
                }
                break;
            }
            1 => {
                if !m.faces.is_empty() || !named.is_empty() {
                    return Err((3, record));
                }
                if body[0] > 2 {
                    return Err((4, record));
                }
                if m.vertices == 256 {
                    return Err((7, record));
                }
                m.vertices += 1;
                m.dims.push(body[0]);
            }
            2 => {
                if strange(&numbers) {
                    return Err((4, record));
                }
                match known.get(&key(numbers[0], numbers[1])) {
                    Some(e) if !named.contains(e) => named.push(*e),
                    _ => return Err((5, record)),
                }
            }
            n => {
                if !named.is_empty() {
                    return Err((3, record));
                }
                if strange(&numbers) {
                    return Err((4, record));
                }
                let sides: Vec<(usize, usize)> = (0..n).map(|i| (numbers[i], numbers[(i + 1) % n])).collect();
                if sides.iter().any(|s| known.get(&key(s.0, s.1)).is_some_and(|e| uses[*e] >= 2)) {
                    return Err((6, record));
                }
                let fresh = sides.iter().filter(|s| !known.contains_key(&key(s.0, s.1))).count();
                if m.faces.len() == 256 || m.edges.len() + fresh > 512 {
                    return Err((7, record));
                }
                let mut face = vec![];
                for (a, b) in sides {
                    let e = *known.entry(key(a, b)).or_insert_with(|| {
                        m.edges.push((a, b));
                        uses.push(0);
                        m.edges.len() - 1
                    });
                    uses[e] += 1;
                    face.push((a, e));
                }
                m.faces.push(face);
            }
        }
    }
    if at < bytes.len() {
        return Err((8, at));
    }
    m.curve = (0..m.edges.len()).map(|e| named.contains(&e)).collect();
    if let Some(e) = (0..m.edges.len()).find(|e| uses[*e] == 1 && !m.curve[*e]) {
        return Err((9, e));
    }
    let at_vertex = |v: usize| m.edges.iter().filter(|e| e.0 == v || e.1 == v).count();
    if let Some(v) = (0..m.vertices).find(|v| at_vertex(*v) == 0 || at_vertex(*v) > 8) {
        return Err((10, v));
    }
    let curves_at = |v: usize| m.edges.iter().zip(&m.curve).filter(|(e, c)| **c && (e.0 == v || e.1 == v)).count();
    let misfit = |v: &usize| match m.dims[*v] {
        2 => curves_at(*v) != 0,
        1 => curves_at(*v) != 2,
        _ => false,
    };
    if let Some(v) = (0..m.vertices).find(misfit) {
        return Err((11, v));
    }
    Ok(m)
}

pub fn judgement(bytes: &[u8]) -> Judgement {
    match read(bytes) {
        Ok(m) => Judgement { outcome: done(0), vertices: m.vertices, edges: m.edges.len(), faces: m.faces.len() },
        Err(e) => Judgement { outcome: refused(e), vertices: 0, edges: 0, faces: 0 },
    }
}

pub fn curve(closed: bool, points: usize, levels: usize) -> Result<Mesh, Refusal> {
    if points > 1024 || points < if closed { 3 } else { 2 } {
        return Err((16, points));
    }
    if !(1..=5).contains(&levels) {
        return Err((12, levels));
    }
    let count = if closed { points } else { points - 1 };
    let mut dims = vec![1; points];
    if !closed {
        dims[0] = 0;
        dims[points - 1] = 0;
    }
    Ok(Mesh { vertices: points, edges: (0..count).map(|i| (i, (i + 1) % points)).collect(), faces: vec![], curve: vec![true; count], dims })
}

/// How many numbers a plan takes, and how many places there are.
pub fn sizes(m: &Mesh, levels: usize) -> Result<(usize, usize), Refusal> {
    if !(1..=5).contains(&levels) {
        return Err((12, levels));
    }
    let (mut v, mut e, mut f) = (m.vertices, m.edges.len(), m.faces.len());
    let mut c: usize = m.faces.iter().map(|f| f.len()).sum();
    let mut need = 0;
    for level in 0..=levels {
        if v > 65536 {
            return Err((13, level));
        }
        if level < levels {
            need += 16 * c;
            (v, e, f, c) = (v + e + f, 2 * e + c, c, 4 * c);
        }
    }
    Ok((need, v))
}

/// LEVELS.md, "One level of subdivision".
pub fn finer(m: &Mesh) -> Mesh {
    let (v, e) = (m.vertices, m.edges.len());
    let mut edges = vec![];
    let mut curve = vec![];
    for (i, (p, q)) in m.edges.iter().enumerate() {
        edges.extend([(*p, v + i), (v + i, *q)]);
        curve.extend([m.curve[i]; 2]);
    }
    let half = |side: usize, at: usize| 2 * side + usize::from(m.edges[side].0 != at);
    let mut faces = vec![];
    for (f, face) in m.faces.iter().enumerate() {
        let first = faces.len();
        for (i, (corner, side)) in face.iter().enumerate() {
            let before = (i + face.len() - 1) % face.len();
            edges.push((v + side, v + e + f));
            curve.push(false);
            let (c, b) = (first + i, first + before);
            faces.push(vec![(*corner, half(*side, *corner)), (v + side, 2 * e + c), (v + e + f, 2 * e + b), (v + face[before].1, half(face[before].1, *corner))]);
        }
    }
    let mut dims = m.dims.clone();
    dims.extend(m.curve.iter().map(|c| if *c { 1 } else { 2 }));
    dims.extend(m.faces.iter().map(|_| 2));
    Mesh { vertices: v + e + m.faces.len(), edges, faces, curve, dims }
}

/// A level with what lies at its vertices and edges.
pub struct Level {
    pub mesh: Mesh,
    edge_faces: Vec<Vec<usize>>,
    vertex_faces: Vec<Vec<usize>>,
    vertex_edges: Vec<Vec<usize>>,
}

fn level(mesh: Mesh) -> Level {
    let mut edge_faces = vec![vec![]; mesh.edges.len()];
    let mut vertex_faces = vec![vec![]; mesh.vertices];
    let mut vertex_edges = vec![vec![]; mesh.vertices];
    for (f, face) in mesh.faces.iter().enumerate() {
        for (v, e) in face {
            vertex_faces[*v].push(f);
            edge_faces[*e].push(f);
        }
    }
    for (e, (p, q)) in mesh.edges.iter().enumerate() {
        vertex_edges[*p].push(e);
        vertex_edges[*q].push(e);
    }
    Level { mesh, edge_faces, vertex_faces, vertex_edges }
}

pub struct Hierarchy {
    pub levels: Vec<Level>,
    pub places: usize,
}

impl Hierarchy {
    pub fn new(base: &Mesh, count: usize) -> Hierarchy {
        let mut levels = vec![];
        let mut mesh = base.clone();
        for _ in 0..count {
            let next = finer(&mesh);
            levels.push(level(mesh));
            mesh = next;
        }
        Hierarchy { levels, places: mesh.vertices }
    }

    fn uniform(&self) -> bool {
        self.levels.iter().all(|l| {
            let m = &l.mesh;
            (!m.curve.contains(&true) && m.dims.iter().all(|d| *d == 2)) || (m.faces.is_empty() && m.dims.iter().all(|d| *d == 1))
        })
    }
}

fn plus(a: Value, b: Value) -> Value {
    let p = Point { x: a.point.x.wrapping_add(b.point.x), y: a.point.y.wrapping_add(b.point.y), z: a.point.z.wrapping_add(b.point.z) };
    Value { point: p, marks: a.marks ^ b.marks }
}

fn opposite(a: Value) -> Value {
    let p = Point { x: a.point.x.wrapping_neg(), y: a.point.y.wrapping_neg(), z: a.point.z.wrapping_neg() };
    Value { point: p, marks: a.marks }
}

/// The factor of each step, in sixteenths.
pub fn factors(scheme: usize) -> [i128; 3] {
    if scheme == 2 { [-4, -16, 3] } else { [0, -8, 4] }
}

/// [sum of terms, each a factor (over 256) times the mean of some numbers]
fn rounded(terms: &[(i128, Vec<i32>)]) -> i32 {
    let mut over: i128 = 0;
    let mut under: i128 = 1;
    for (factor, numbers) in terms {
        if numbers.is_empty() {
            continue;
        }
        let sum: i128 = numbers.iter().map(|n| i128::from(*n)).sum();
        let below = 256 * numbers.len() as i128;
        over = over * below + factor * sum * under;
        under *= below;
    }
    (2 * over + under).div_euclid(2 * under) as i32
}

fn combined(terms: &[(i128, Vec<Value>)]) -> Point {
    let part = |take: fn(&Value) -> i32| rounded(&terms.iter().map(|(k, vs)| (*k, vs.iter().map(take).collect())).collect::<Vec<_>>());
    Point { x: part(|v| v.point.x), y: part(|v| v.point.y), z: part(|v| v.point.z) }
}

/// The amount of an s-lift or a w-lift, from a factor a in sixteenths: 4a² times the first mean and 4a times the second, or 2a times one.
fn two_means(a: i128, first: Vec<Value>, second: Vec<Value>) -> Point {
    combined(&[(4 * a * a, first), (64 * a, second)])
}

fn one_mean(a: i128, of: Vec<Value>) -> Point {
    combined(&[(32 * a, of)])
}

fn in_common(values: &[Value]) -> u32 {
    if values.is_empty() { 0 } else { values.iter().fold(u32::MAX, |all, v| all & v.marks) }
}

/// TRANSFORM.md: the half steps of one level, in the order of analysis; synthesis goes through them backwards.
#[derive(Clone, Copy)]
enum Half {
    Vertices(usize),
    Edges(usize),
    Faces,
    EdgesBetween,
}

const HALVES: [Half; 6] = [Half::Vertices(0), Half::Edges(0), Half::Faces, Half::EdgesBetween, Half::Vertices(2), Half::Edges(2)];

fn half_step(l: &Level, k: [i128; 3], half: Half, up: bool, values: &mut [Value]) {
    let (v, e) = (l.mesh.vertices, l.mesh.edges.len());
    let old = values.to_vec();
    let at = |from: usize, list: &[usize]| list.iter().map(|i| old[from + i]).collect::<Vec<_>>();
    let mut change = |place: usize, point: Point, marks: u32| {
        let amount = Value { point, marks };
        values[place] = plus(values[place], if up { opposite(amount) } else { amount });
    };
    match half {
        Half::Vertices(step) => {
            for i in 0..v {
                let edges = &l.vertex_edges[i];
                match l.mesh.dims[i] {
                    2 => change(i, two_means(k[step], at(v + e, &l.vertex_faces[i]), at(v, edges)), 0),
                    1 => {
                        let curves: Vec<usize> = edges.iter().copied().filter(|x| l.mesh.curve[*x]).collect();
                        change(i, one_mean(k[step], at(v, &curves)), 0);
                    }
                    _ => {}
                }
            }
        }
        Half::Edges(step) => {
            for i in (0..e).filter(|i| !l.mesh.curve[*i]) {
                change(v + i, one_mean(k[step], at(v + e, &l.edge_faces[i])), 0);
            }
        }
        Half::Faces => {
            for (f, face) in l.mesh.faces.iter().enumerate() {
                let corners: Vec<usize> = face.iter().map(|c| c.0).collect();
                let sides: Vec<usize> = face.iter().map(|c| c.1).collect();
                let corners = at(0, &corners);
                let common = in_common(&corners);
                change(v + e + f, two_means(k[1], corners, at(v, &sides)), common);
            }
        }
        Half::EdgesBetween => {
            for (i, (p, q)) in l.mesh.edges.iter().enumerate() {
                let ends = at(0, &[*p, *q]);
                let common = in_common(&ends);
                change(v + i, one_mean(k[1], ends), common);
            }
        }
    }
}

fn travel(h: &Hierarchy, k: [i128; 3], from: usize, to: usize, values: &mut [Value]) {
    for j in (to..from).rev() {
        for half in HALVES {
            half_step(&h.levels[j], k, half, false, values);
        }
    }
    for j in from..to {
        for half in HALVES.iter().rev() {
            half_step(&h.levels[j], k, *half, true, values);
        }
    }
}

/// FORM.md, "The plain history": no values are kept, they are made afresh.
pub struct History<'h> {
    h: &'h Hierarchy,
    k: [i128; 3],
    opened: Vec<Value>,
    opened_depth: usize,
    slots: usize,
    depth: usize,
    moves: Vec<Slot>,
}

impl History<'_> {
    pub fn values(&self) -> Vec<Value> {
        let mut values = self.opened.clone();
        let mut depth = self.opened_depth;
        for m in &self.moves {
            travel(self.h, self.k, depth, m.depth, &mut values);
            values[m.place] = plus(values[m.place], m.amount);
            depth = m.depth;
        }
        travel(self.h, self.k, depth, self.depth, &mut values);
        values
    }

    fn make(&mut self, call: &Call, slots: &mut [Slot]) -> Result<Answer, Refusal> {
        let places = self.h.places;
        if call.points < places {
            return Err((18, call.points));
        }
        if call.slots < self.slots {
            return Err((18, call.slots));
        }
        let number = |code: usize, number: usize| Ok(Answer { code, number, ..Answer::default() });
        match call.code {
            ANALYSE if self.depth == 0 => Err((19, 0)),
            ANALYSE => {
                self.depth -= 1;
                number(1, self.depth)
            }
            SYNTHESISE if self.depth == self.h.levels.len() => Err((19, self.depth)),
            SYNTHESISE => {
                self.depth += 1;
                number(1, self.depth)
            }
            MOVE | READ if call.place >= places => Err((20, call.place)),
            MOVE if self.moves.len() == self.slots => Err((21, self.slots)),
            MOVE => {
                let slot = Slot { place: call.place, depth: self.depth, amount: call.amount };
                slots[self.moves.len()] = slot;
                self.moves.push(slot);
                number(2, self.moves.len())
            }
            TAKE_BACK if self.moves.is_empty() => Err((22, 0)),
            TAKE_BACK => {
                self.moves.pop();
                number(2, self.moves.len())
            }
            _ => Ok(Answer { code: 3, row: 0, number: 0, value: self.values()[call.place] }),
        }
    }
}

pub struct Job<'a> {
    pub hierarchy: Result<&'a Hierarchy, Refusal>,
    pub scheme: usize,
    pub values: Vec<Value>,
    pub slots: Vec<Slot>,
    pub depth: usize,
    pub calls: Vec<Call>,
    pub answers: Vec<Answer>,
}

/// The whole job; `scheme` is asked for only where the kind has schemes to choose from.
pub fn perform(job: &mut Job, choice: bool) -> Outcome {
    if choice && !(1..=2).contains(&job.scheme) {
        return Outcome { status: 3, row: 0, value: job.scheme };
    }
    let h = match job.hierarchy {
        Ok(h) => h,
        Err(e) => return refused(e),
    };
    if let Some(i) = job.calls.iter().position(|c| !(1..=5).contains(&c.code)) {
        return Outcome { status: 4, row: 0, value: i };
    }
    if choice && job.scheme == 2 && !h.uniform() {
        return refused((17, 0));
    }
    if job.values.len() != h.places {
        return refused((18, job.values.len()));
    }
    if job.slots.len() > 4096 {
        return refused((18, job.slots.len()));
    }
    if job.depth > h.levels.len() {
        return refused((19, job.depth));
    }
    let mut history = History { h, k: factors(if choice { job.scheme } else { 1 }), opened: job.values.clone(), opened_depth: job.depth, slots: job.slots.len(), depth: job.depth, moves: vec![] };
    let count = job.calls.len().min(job.answers.len());
    for i in 0..count {
        job.answers[i] = match history.make(&job.calls[i], &mut job.slots) {
            Ok(a) => a,
            Err((row, number)) => Answer { code: 4, row, number, value: Value::default() },
        };
    }
    job.values = history.values();
    done(count)
}
