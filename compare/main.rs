//! Compares the static library with an independent implementation on random bases, curves, schemes, values and calls.
mod library;
mod model;

use library::{Answer, Call, Outcome, Point, Slot, Value};
use model::{Hierarchy, Job, Refusal};
use std::process::exit;

struct Random(u64);

impl Random {
    fn next(&mut self) -> u64 {
        self.0 = self.0.wrapping_add(0x9e3779b97f4a7c15);
        let z = (self.0 ^ (self.0 >> 30)).wrapping_mul(0xbf58476d1ce4e5b9);
        let z = (z ^ (z >> 27)).wrapping_mul(0x94d049bb133111eb);
        z ^ (z >> 31)
    }

    fn below(&mut self, n: usize) -> usize {
        (self.next() % n as u64) as usize
    }

    fn one_in(&mut self, n: usize) -> bool {
        self.below(n) == 0
    }

    /// Small, or anywhere in the 32 bits, or at their ends.
    fn number(&mut self) -> i32 {
        match self.below(4) {
            0 => self.below(41) as i32 - 20,
            1 => [i32::MIN, i32::MAX, i32::MIN + 1, -1, 0, 1][self.below(6)],
            _ => self.next() as i32,
        }
    }

    fn value(&mut self, kind: Kind) -> Value {
        let point = Point { x: self.number(), y: self.number(), z: self.number() };
        kind.seen(Value { point, marks: self.next() as u32 })
    }

    /// Anything, the parts that a kind has not too.
    fn rubbish(&mut self) -> Value {
        self.value(Kind::Pairs)
    }
}

#[derive(Clone, Copy, PartialEq)]
enum Kind {
    Points,
    Marks,
    Pairs,
}

impl Kind {
    fn seen(self, v: Value) -> Value {
        match self {
            Kind::Points => Value { marks: 0, ..v },
            Kind::Marks => Value { point: Point::default(), ..v },
            Kind::Pairs => v,
        }
    }
}

/// The faces of a mesh: a sheet, a closed surface, a fan, a single face, or several of these.
fn faces(r: &mut Random) -> Vec<Vec<usize>> {
    let panel = |rows: usize, columns: usize| {
        let at = move |i: usize, j: usize| i * (columns + 1) + j;
        (0..rows * columns).map(move |k| (k / columns, k % columns)).map(|(i, j)| vec![at(i, j), at(i, j + 1), at(i + 1, j + 1), at(i + 1, j)]).collect::<Vec<_>>()
    };
    let ring = |rows: usize, columns: usize| {
        let at = move |i: usize, j: usize| (i % rows) * columns + j % columns;
        (0..rows * columns).map(move |k| (k / columns, k % columns)).map(|(i, j)| vec![at(i, j), at(i, j + 1), at(i + 1, j + 1), at(i + 1, j)]).collect::<Vec<_>>()
    };
    let one = |r: &mut Random| match r.below(8) {
        0 => vec![vec![0, 1, 2], vec![0, 3, 1], vec![1, 3, 2], vec![0, 2, 3]],
        1 => vec![vec![0, 1, 2, 3], vec![7, 6, 5, 4], vec![0, 4, 5, 1], vec![1, 5, 6, 2], vec![2, 6, 7, 3], vec![3, 7, 4, 0]],
        2 => vec![(0..3 + r.below(6)).collect()],
        3 => {
            // nine triangles round a vertex are one too many
            let n = 3 + r.below(7);
            (0..n).map(|i| vec![i, (i + 1) % n, n]).collect()
        }
        4 => ring(3 + r.below(2), 3 + r.below(2)),
        _ => panel(1 + r.below(4), 1 + r.below(4)),
    };
    let mut all = one(r);
    while r.one_in(4) {
        let first = all.iter().flatten().max().unwrap() + 1;
        all.extend(one(r).iter().map(|f| f.iter().map(|v| v + first).collect()));
    }
    all
}

/// A base that keeps the rules, unless a fan is too wide, with more curves than it needs now and then.
fn good_base(r: &mut Random) -> Vec<u8> {
    let faces = if r.one_in(40) { (0..225).map(|k| (k / 15, k % 15)).map(|(i, j)| vec![i * 16 + j, i * 16 + j + 1, (i + 1) * 16 + j + 1, (i + 1) * 16 + j]).collect() } else { faces(r) };
    let vertices = faces.iter().flatten().max().unwrap() + 1;
    let mut edges: Vec<(usize, usize, usize)> = vec![];
    for f in &faces {
        for i in 0..f.len() {
            let (a, b) = (f[i], f[(i + 1) % f.len()]);
            match edges.iter_mut().find(|e| (e.0, e.1) == (a, b) || (e.1, e.0) == (a, b)) {
                Some(e) => e.2 += 1,
                None => edges.push((a, b, 1)),
            }
        }
    }
    let more = r.one_in(3);
    let mut curves: Vec<(usize, usize)> = edges.iter().filter(|e| e.2 == 1 || (more && r.one_in(6))).map(|e| (e.0, e.1)).collect();
    let all_smooth = r.one_in(2);
    let mut bytes = vec![];
    for v in 0..vertices {
        let at = curves.iter().filter(|c| c.0 == v || c.1 == v).count();
        let corner = !all_smooth && r.one_in(5);
        bytes.extend([1, match at { 0 if !corner => 2, 2 if !corner => 1, _ => 0 }]);
    }
    let two = |n: usize| [n as u8, (n >> 8) as u8];
    for f in &faces {
        bytes.push(f.len() as u8);
        bytes.extend(f.iter().flat_map(|v| two(*v)));
    }
    for i in (1..curves.len()).rev() {
        curves.swap(i, r.below(i + 1));
    }
    for (a, b) in curves {
        let (a, b) = if r.one_in(2) { (a, b) } else { (b, a) };
        bytes.push(2);
        bytes.extend(two(a).iter().chain(two(b).iter()));
    }
    bytes.push(0);
    bytes
}

fn damaged(r: &mut Random, bytes: &mut Vec<u8>) {
    for _ in 0..1 + r.below(2) {
        let at = r.below(bytes.len().max(1));
        match r.below(8) {
            0 => bytes.truncate(at),
            // the dimension of a vertex, if there is one there
            6 if at / 2 * 2 + 1 < bytes.len() && bytes[at / 2 * 2] == 1 => bytes[at / 2 * 2 + 1] = r.below(3) as u8,
            7 => drop(bytes.splice(0..0, [1, r.below(3) as u8])),
            1 => bytes.push(r.next() as u8),
            2 if at < bytes.len() => bytes[at] = r.next() as u8,
            3 if at < bytes.len() => bytes[at] = r.below(10) as u8,
            4 if at < bytes.len() => { bytes.remove(at); }
            _ => bytes.insert(at.min(bytes.len()), r.below(5) as u8),
        }
    }
}

/// Where a run takes place.
enum Ground {
    Base(Vec<u8>, usize),
    Curve(bool, usize, usize),
}

fn levels(r: &mut Random) -> usize {
    [1, 1, 1, 2, 2, 2, 3, 3, 4, 5, 0, 6, 1 << 40][if r.one_in(12) { r.below(13) } else { r.below(8) }]
}

fn ground(r: &mut Random) -> Ground {
    if r.one_in(3) {
        let points = match r.below(12) { 0 => r.below(4), 1 => 1022 + r.below(4), _ => 2 + r.below(12) };
        return Ground::Curve(r.one_in(2), points, levels(r));
    }
    let mut bytes = good_base(r);
    if r.one_in(5) {
        damaged(r, &mut bytes);
    }
    Ground::Base(bytes, levels(r))
}

fn calls(r: &mut Random, kind: Kind, places: usize, slots: usize) -> Vec<Call> {
    let count = if r.one_in(30) { 200 } else { r.below(30) };
    let mut calls = vec![];
    for _ in 0..count {
        let code = 1 + [0, 0, 1, 1, 2, 2, 3, 4, 4][r.below(9)];
        let place = if r.one_in(25) { places + r.below(3) } else { r.below(places.max(1)) };
        let amount = if r.one_in(3) { r.rubbish() } else { r.value(kind) };
        let mut call = Call { code, place, amount, points: places, slots };
        if r.one_in(25) {
            call.points = r.below(places + 9);
        }
        if r.one_in(25) {
            call.slots = r.below(slots + 3);
        }
        calls.push(call);
    }
    if r.one_in(40) && count > 0 {
        let i = r.below(count);
        calls[i].code = [0, 6, 77, usize::MAX][r.below(4)];
    }
    calls
}

#[derive(Default)]
struct Tally {
    bases: usize,
    curves: usize,
    runs: usize,
    done: usize,
    refused_runs: usize,
    calls: usize,
    refused_calls: usize,
    rows: [usize; 24],
}

fn differ(seed: u64, round: usize, what: &str, ours: String, theirs: String) -> ! {
    println!("seed {seed}, round {round}: {what} differ");
    println!("  library: {ours}");
    println!("  model:   {theirs}");
    exit(1);
}

macro_rules! same {
    ($seed:expr, $round:expr, $what:expr, $a:expr, $b:expr) => {
        if $a != $b {
            differ($seed, $round, $what, format!("{:?}", $a), format!("{:?}", $b));
        }
    };
}

/// The job on the library: the memory is that of the kind.
fn library_job(ground: &Ground, kind: Kind, scheme: usize, values: &mut [Value], slots: &mut [Slot], depth: usize, calls: &[Call], answers: &mut [Answer]) -> Outcome {
    macro_rules! call {
        ($f:ident, $memory:expr, $($arg:expr),*) => {
            unsafe { library::$f($($arg,)* $memory.as_mut_ptr(), $memory.len(), slots.as_mut_ptr(), slots.len(), depth, calls.as_ptr(), calls.len(), answers.as_mut_ptr(), answers.len()) }
        };
    }
    match kind {
        Kind::Points => {
            let mut points: Vec<Point> = values.iter().map(|v| v.point).collect();
            let outcome = match ground {
                Ground::Base(bytes, levels) => call!(shelfquail_points_on_base, points, bytes.as_ptr(), bytes.len(), *levels, scheme),
                Ground::Curve(closed, n, levels) => call!(shelfquail_points_on_curve, points, *closed, *n, *levels, scheme),
            };
            for (v, p) in values.iter_mut().zip(points) {
                v.point = p;
            }
            outcome
        }
        Kind::Marks => {
            let mut marks: Vec<u32> = values.iter().map(|v| v.marks).collect();
            let outcome = match ground {
                Ground::Base(bytes, levels) => call!(shelfquail_marks_on_base, marks, bytes.as_ptr(), bytes.len(), *levels),
                Ground::Curve(closed, n, levels) => call!(shelfquail_marks_on_curve, marks, *closed, *n, *levels),
            };
            for (v, m) in values.iter_mut().zip(marks) {
                v.marks = m;
            }
            outcome
        }
        Kind::Pairs => match ground {
            Ground::Base(bytes, levels) => call!(shelfquail_pairs_on_base, values, bytes.as_ptr(), bytes.len(), *levels, scheme),
            Ground::Curve(closed, n, levels) => call!(shelfquail_pairs_on_curve, values, *closed, *n, *levels, scheme),
        },
    }
}

fn run(r: &mut Random, seed: u64, round: usize, ground: &Ground, hierarchy: Result<&Hierarchy, Refusal>, tally: &mut Tally) {
    let kind = [Kind::Points, Kind::Points, Kind::Marks, Kind::Pairs][r.below(4)];
    let scheme = if r.one_in(30) { [0, 3, usize::MAX][r.below(3)] } else { 1 + r.below(2) };
    let places = match hierarchy { Ok(h) => h.places, Err(_) => r.below(20) };
    let given = if r.one_in(20) { r.below(places + 3) } else { places };
    let slot_count = match r.below(40) { 0 => 4096, 1 => 4097, _ => r.below(5) };
    let above = usize::from(r.one_in(10));
    let depth = match hierarchy { Ok(h) => r.below(h.levels.len() + 1 + above), Err(_) => r.below(3) };
    let mut values: Vec<Value> = (0..given).map(|_| r.value(kind)).collect();
    let mut slots: Vec<Slot> = (0..slot_count).map(|_| Slot { place: r.below(1000), depth: r.below(9), amount: r.rubbish() }).collect();
    let mut calls = calls(r, kind, places, slot_count);
    if places > 2000 {
        calls.truncate(12);
    }
    let room = if r.one_in(6) { r.below(calls.len() + 4) } else { calls.len() };
    let mut answers: Vec<Answer> = (0..room).map(|_| Answer { code: r.below(9), row: r.below(9), number: r.below(9), value: r.rubbish() }).collect();

    let inner: Vec<Call> = calls.iter().map(|c| Call { amount: kind.seen(c.amount), ..*c }).collect();
    let mut job = Job { hierarchy, scheme, values: values.clone(), slots: slots.clone(), depth, calls: inner, answers: answers.clone() };
    let wanted = model::perform(&mut job, kind != Kind::Marks);
    if wanted.status == 0 {
        for s in &mut job.slots {
            s.amount = kind.seen(s.amount);
        }
    }
    let got = library_job(ground, kind, scheme, &mut values, &mut slots, depth, &calls, &mut answers);
    same!(seed, round, "outcomes", got, wanted);
    for (i, (a, b)) in answers.iter().zip(&job.answers).enumerate() {
        same!(seed, round, &format!("answers to call {i}, {:?},", calls.get(i)), a, b);
    }
    for (i, (a, b)) in values.iter().zip(&job.values).enumerate() {
        same!(seed, round, &format!("values at place {i}"), a, b);
    }
    for (i, (a, b)) in slots.iter().zip(&job.slots).enumerate() {
        same!(seed, round, &format!("slots {i}"), a, b);
    }
    tally.runs += 1;
    if got.status == 0 {
        tally.done += 1;
        tally.calls += got.value;
        for a in &answers[..got.value] {
            if a.code == 4 {
                tally.refused_calls += 1;
                tally.rows[a.row] += 1;
            }
        }
    } else {
        tally.refused_runs += 1;
        tally.rows[got.row] += 1;
    }
}

fn main() {
    let words: Vec<u64> = std::env::args().skip(1).map(|w| w.parse().expect("two numbers: seed and calls")).collect();
    let seed = *words.first().unwrap_or(&1);
    let wanted = *words.get(1).unwrap_or(&200_000) as usize;
    let mut tally = Tally::default();
    let mut round = 0;
    while tally.calls < wanted {
        let mut r = Random(seed.wrapping_mul(0x2545f4914f6cdd1d).wrapping_add(round as u64));
        let ground = ground(&mut r);
        let mesh = match &ground {
            Ground::Base(bytes, levels) => {
                tally.bases += 1;
                same!(seed, round, "judgements", library::judge(bytes), model::judgement(bytes));
                let sizes = model::read(bytes).and_then(|m| model::sizes(&m, *levels));
                let told = |of: Result<usize, Refusal>| match of { Ok(n) => model::done(n), Err(e) => model::refused(e) };
                same!(seed, round, "needs", library::plan_needs(bytes, *levels), told(sizes.map(|s| s.0)));
                same!(seed, round, "places", library::base_places(bytes, *levels), told(sizes.map(|s| s.1)));
                model::read(bytes).and_then(|m| model::sizes(&m, *levels).map(|_| (m, *levels)))
            }
            Ground::Curve(closed, n, levels) => {
                tally.curves += 1;
                let mesh = model::curve(*closed, *n, *levels);
                let told = match &mesh { Ok(m) => model::done(model::sizes(m, *levels).unwrap().1), Err(e) => model::refused(*e) };
                same!(seed, round, "places of a curve", library::curve_places(*closed, *n, *levels), told);
                mesh.map(|m| (m, *levels))
            }
        };
        let hierarchy = mesh.map(|(m, levels)| Hierarchy::new(&m, levels));
        for _ in 0..3 {
            run(&mut r, seed, round, &ground, hierarchy.as_ref().map_err(|e| *e), &mut tally);
        }
        round += 1;
    }
    println!("seed {seed}: {} bases and {} curves; {} runs, {} done and {} not; {} calls, {} of them refused", tally.bases, tally.curves, tally.runs, tally.done, tally.refused_runs, tally.calls, tally.refused_calls);
    println!("refusals by row:");
    for (row, n) in tally.rows.iter().enumerate().skip(1).filter(|(_, n)| **n > 0) {
        println!("  row {row}: {n}");
    }
    println!("no difference");
}
