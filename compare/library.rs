//! The functions of the static library, as capi/shelfquail.h declares them.
#![allow(dead_code)]

#[repr(C)]
#[derive(Clone, Copy, PartialEq, Eq, Debug, Default)]
pub struct Point {
    pub x: i32,
    pub y: i32,
    pub z: i32,
}

#[repr(C)]
#[derive(Clone, Copy, PartialEq, Eq, Debug, Default)]
pub struct Value {
    pub point: Point,
    pub marks: u32,
}

#[repr(C)]
#[derive(Clone, Copy, PartialEq, Eq, Debug)]
pub struct Outcome {
    pub status: usize,
    pub row: usize,
    pub value: usize,
}

#[repr(C)]
#[derive(Clone, Copy, PartialEq, Eq, Debug)]
pub struct Judgement {
    pub outcome: Outcome,
    pub vertices: usize,
    pub edges: usize,
    pub faces: usize,
}

#[repr(C)]
#[derive(Clone, Copy, PartialEq, Eq, Debug, Default)]
pub struct Call {
    pub code: usize,
    pub place: usize,
    pub amount: Value,
    pub points: usize,
    pub slots: usize,
}

#[repr(C)]
#[derive(Clone, Copy, PartialEq, Eq, Debug, Default)]
pub struct Answer {
    pub code: usize,
    pub row: usize,
    pub number: usize,
    pub value: Value,
}

#[repr(C)]
#[derive(Clone, Copy, PartialEq, Eq, Debug, Default)]
pub struct Slot {
    pub place: usize,
    pub depth: usize,
    pub amount: Value,
}

pub const ANALYSE: usize = 1;
pub const SYNTHESISE: usize = 2;
pub const MOVE: usize = 3;
pub const TAKE_BACK: usize = 4;
pub const READ: usize = 5;

macro_rules! jobs {
    ($($name:ident ( $($arg:ident : $t:ty),* ; $v:ty );)*) => {
        unsafe extern "C" {
            $(pub fn $name($($arg: $t,)* points: *mut $v, points_length: usize, slots: *mut Slot, slots_length: usize, depth: usize,
                calls: *const Call, calls_length: usize, answers: *mut Answer, answers_length: usize) -> Outcome;)*
        }
    };
}

jobs! {
    shelfquail_points_on_base(bytes: *const u8, bytes_length: usize, levels: usize, scheme: usize; Point);
    shelfquail_marks_on_base(bytes: *const u8, bytes_length: usize, levels: usize; u32);
    shelfquail_pairs_on_base(bytes: *const u8, bytes_length: usize, levels: usize, scheme: usize; Value);
    shelfquail_points_on_curve(closed: bool, count: usize, levels: usize, scheme: usize; Point);
    shelfquail_marks_on_curve(closed: bool, count: usize, levels: usize; u32);
    shelfquail_pairs_on_curve(closed: bool, count: usize, levels: usize, scheme: usize; Value);
}

unsafe extern "C" {
    fn shelfquail_judge(bytes: *const u8, length: usize) -> Judgement;
    fn shelfquail_plan_needs(bytes: *const u8, length: usize, levels: usize) -> Outcome;
    fn shelfquail_base_places(bytes: *const u8, length: usize, levels: usize) -> Outcome;
    fn shelfquail_curve_places(closed: bool, points: usize, levels: usize) -> Outcome;
}

pub fn judge(bytes: &[u8]) -> Judgement {
    unsafe { shelfquail_judge(bytes.as_ptr(), bytes.len()) }
}

pub fn plan_needs(bytes: &[u8], levels: usize) -> Outcome {
    unsafe { shelfquail_plan_needs(bytes.as_ptr(), bytes.len(), levels) }
}

pub fn base_places(bytes: &[u8], levels: usize) -> Outcome {
    unsafe { shelfquail_base_places(bytes.as_ptr(), bytes.len(), levels) }
}

pub fn curve_places(closed: bool, points: usize, levels: usize) -> Outcome {
    unsafe { shelfquail_curve_places(closed, points, levels) }
}
