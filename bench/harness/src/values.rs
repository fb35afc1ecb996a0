//! The same real values in plain Rust, with the entries that the proved crates make of them.
use crate::marks::bench_mark;
use crate::names::Names;
use crate::plain::collector::{Collector, Visitor};
use crate::plain::key::Key;
use crate::theirs::end;
use std::collections::HashMap;
use std::fmt::Write;
use std::mem;

/// What enters itself.
trait Shown {
    const NAME: &'static str;
    const NEEDS_DROP: bool;
    fn show(&self, visitor: &mut Visitor<'_>);
}

macro_rules! plain {
    ($($kind:ident)*) => { $(impl Shown for $kind {
        const NAME: &'static str = stringify!($kind);
        const NEEDS_DROP: bool = false;

        fn show(&self, visitor: &mut Visitor<'_>) {
            visitor.visit_simple(Key::new(Self::NAME), mem::size_of::<$kind>());
        }
    })* };
}

plain! { u16 u32 u64 bool }

fn field<T: Shown>(visitor: &mut Visitor<'_>, key: &'static str, value: &T) {
    value.show(&mut visitor.enter(Key::new(key), mem::size_of::<T>()));
}

impl Shown for String {
    const NAME: &'static str = "String";
    const NEEDS_DROP: bool = true;

    fn show(&self, visitor: &mut Visitor<'_>) {
        let mut whole = visitor.enter(Key::new(Self::NAME), 24);
        let mut pointer = whole.enter_unique(Key::new("ptr"), 8);
        let mut room = pointer.enter(Key::new("capacity"), self.capacity());
        room.visit_simple(Key::new("u8"), self.len());
        room.visit_simple(Key::new("unused_capacity"), self.capacity() - self.len());
    }
}

impl<T: Shown> Shown for Vec<T> {
    const NAME: &'static str = "Vec";
    const NEEDS_DROP: bool = true;

    fn show(&self, visitor: &mut Visitor<'_>) {
        let mut whole = visitor.enter(Key::new(Self::NAME), 24);
        if self.capacity() == 0 {
            return;
        }
        let mut pointer = whole.enter_unique(Key::new("ptr"), 8);
        let size = mem::size_of::<T>();
        if T::NEEDS_DROP {
            self.iter().for_each(|item| item.show(&mut pointer));
        } else {
            pointer.visit_simple(Key::new(T::NAME), size * self.len());
        }
        let unused = self.capacity() - self.len();
        pointer.visit_simple(Key::new("unused_capacity"), size * unused);
    }
}

impl<K: Shown, V: Shown> Shown for HashMap<K, V> {
    const NAME: &'static str = "HashMap";
    const NEEDS_DROP: bool = true;

    fn show(&self, visitor: &mut Visitor<'_>) {
        let mut whole = visitor.enter(Key::new(Self::NAME), 48);
        let mut data = whole.enter(Key::new("data"), 8);
        for (key, value) in self {
            field(&mut data, "key", key);
            field(&mut data, "value", value);
        }
    }
}

struct Row {
    id: u64,
    name: String,
    x: u32,
    y: u32,
    level: u16,
    is_on: bool,
}

impl Shown for Row {
    const NAME: &'static str = "Row";
    const NEEDS_DROP: bool = true;

    fn show(&self, visitor: &mut Visitor<'_>) {
        let mut whole = visitor.enter(Key::new(Self::NAME), 48);
        field(&mut whole, "id", &self.id);
        field(&mut whole, "name", &self.name);
        field(&mut whole, "x", &self.x);
        field(&mut whole, "y", &self.y);
        field(&mut whole, "level", &self.level);
        field(&mut whole, "is_on", &self.is_on);
    }
}

enum Tree {
    Leaf(u32),
    Fork(Box<Tree>, Box<Tree>),
}

// A field with a box in it.
fn boxed(visitor: &mut Visitor<'_>, key: &'static str, value: &Tree) {
    let mut side = visitor.enter(Key::new(key), 8);
    let mut whole = side.enter(Key::new("Box"), 8);
    value.show(&mut whole.enter_unique(Key::new("ptr"), 8));
}

impl Shown for Tree {
    const NAME: &'static str = "Tree";
    const NEEDS_DROP: bool = true;

    fn show(&self, visitor: &mut Visitor<'_>) {
        match self {
            Tree::Leaf(number) => {
                let mut whole = visitor.enter(Key::new("Leaf"), 4);
                field(&mut whole, "0", number);
            }
            Tree::Fork(left, right) => {
                let mut whole = visitor.enter(Key::new("Fork"), 16);
                boxed(&mut whole, "left", left);
                boxed(&mut whole, "right", right);
            }
        }
    }
}

fn name_of(number: usize) -> String {
    let mut name = String::with_capacity(16);
    write!(name, "name {number:08}").unwrap();
    name
}

fn record(number: usize) -> Row {
    Row {
        id: number as u64,
        name: name_of(number),
        x: 1,
        y: 2,
        level: 3,
        is_on: true,
    }
}

fn grow(levels: u32) -> Tree {
    match levels {
        0 => Tree::Leaf(7),
        _ => Tree::Fork(Box::new(grow(levels - 1)), Box::new(grow(levels - 1))),
    }
}

fn measure<T: Shown>(value: &T) -> u64 {
    bench_mark(0);
    let mut collector = Collector::new();
    let mut root = collector.root_visitor();
    value.show(&mut root);
    drop(root);
    end(collector)
}

pub fn records(_: &Names, count: usize, _is_counted: bool) -> u64 {
    measure(&(0..count).map(record).collect::<Vec<_>>())
}

pub fn map(_: &Names, count: usize, _is_counted: bool) -> u64 {
    let map: HashMap<_, _> = (0..count)
        .map(|number| (number as u64, name_of(number)))
        .collect();
    measure(&map)
}

pub fn lists(_: &Names, count: usize, _is_counted: bool) -> u64 {
    measure(&(0..count).map(|_| vec![5u32; 8]).collect::<Vec<_>>())
}

pub fn boxes(_: &Names) -> u64 {
    measure(&grow(15))
}
