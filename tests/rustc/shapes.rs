//! A few small functions whose printed MIR has most of the grammar's forms.
pub struct Point {
    pub x: i32,
    pub y: i32,
}

pub enum Shape {
    Empty,
    Dot { at: Point },
    Line { from: Point, to: Point },
}

pub trait Area {
    fn area(&self) -> u64;
}

impl Area for Shape {
    fn area(&self) -> u64 {
        match self {
            Shape::Empty => 0,
            Shape::Dot { at } => at.x as u64,
            Shape::Line { from, to } => from.x.abs_diff(to.x) as u64 * from.y.abs_diff(to.y) as u64,
        }
    }
}

pub fn moved(point: Point, by: i32) -> Point {
    Point { x: point.x.wrapping_add(by), y: point.y }
}

pub fn total(shapes: &[&dyn Area]) -> u64 {
    let mut sum = 0;
    let mut at = 0;
    while at < shapes.len() {
        sum += shapes[at].area();
        at += 1;
    }
    sum
}

pub fn boxed(shape: Shape) -> Box<dyn Area> {
    Box::new(shape)
}

pub fn first_and_last(bytes: [u8; 4]) -> Option<(u8, u8)> {
    match bytes {
        [first, .., last] if first != last => Some((first, last)),
        _ => None,
    }
}

pub fn ends(bytes: &[u8]) -> u8 {
    match bytes {
        [] => 0,
        [one] => *one,
        [first, .., last] => first ^ last,
    }
}

pub fn grade(mark: char) -> u32 {
    match mark {
        'a' => 1,
        'b'..='f' => mark as u32,
        _ => u32::MAX,
    }
}

/// # Safety
/// `bytes` points to at least two bytes.
pub unsafe fn second(bytes: *const u8) -> u8 {
    unsafe { *bytes.add(1) }
}

pub fn halved(value: i128) -> i128 {
    assert!(value != i128::MIN, "too small");
    -value / 2
}

pub fn swapped<T: Copy>(pair: &mut (T, T)) {
    let first = pair.0;
    pair.0 = pair.1;
    pair.1 = first;
}
