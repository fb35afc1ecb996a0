"""Tests of whole runs over a crate in a folder of its own."""

import contextlib
import io
import os
import random
import re
import shutil
import subprocess
import tempfile
import unittest
from unittest import mock

from .. import command
from ..command import main, read

POINT = "#[derive(Drop)]\npub struct Point {\n    pub x: u32,\n}\n"
CASES = "#[derive(Drop)]\nenum E {\n    A,\n    B(u8),\n}\n"
ANSWERS = "proofs/a/shown/EAllocative/visit/Answers.antt"
TOP = os.path.realpath(os.path.join(os.path.dirname(__file__), "../../.."))
TYPES = os.path.join(TOP, "crates/test_generated_types/src")
SOURCES = [name for name in sorted(os.listdir(TYPES)) if name.endswith(".rt") and name != "lib.rt"]
PIECE = re.compile(r"\n// allocative: begin\n(?!// allocative: end).*?\n// allocative: end", re.DOTALL)
TOKEN = re.compile(r"\w+|\s+|[^\w\s]")
# What a run tells: its faults with their lines, or only of what is passed over or has no tally.
TOLD = {4: re.compile(r"(implement: [^\n]*\.rt:[0-9]+: [^\n]+\n)+")}
TOLD[0] = re.compile(r"(implement: (.+ is passed over and counts no bytes:|\w+ has no tally, as|[0-9]+ fields? (is|are) passed over:) [^\n]+\n)*")


def run(path: str, *words: str) -> tuple[int, str, str]:
    """Runs the command over a file: its status, and what it wrote to standard output and to standard error."""
    output, told = io.StringIO(), io.StringIO()
    with contextlib.redirect_stdout(output), contextlib.redirect_stderr(told):
        status = main([path, *words])
    return status, output.getvalue(), told.getvalue()


def layout(name: str, *fields: str) -> str:
    """The lines of a struct's layout in code."""
    chain = "".join(f".with({field})" for field in fields)
    return f'    fn layout() -> Layout {{\n        Layout::empty("{name}"){chain}.pad_to_align()\n    }}\n'


def spoilt(text: str, chance: random.Random) -> str:
    """A text in which one to three pieces of letters or tokens are removed, doubled, or exchanged."""
    for _ in range(chance.randint(1, 3)):
        parts = TOKEN.findall(text) if chance.random() < 0.7 else list(text)
        first, second = sorted(chance.randrange(len(parts) + 1) for _ in range(2))
        middle = min(second, first + chance.randint(1, 12))
        last = second + chance.randint(1, 12)
        one, between, two = parts[first:middle], parts[middle:second], parts[second:last]
        way = chance.choice(("cut", "double", "exchange"))
        one, two = ([], two) if way == "cut" else (one + one, two) if way == "double" else (two, one)
        text = "".join(parts[:first] + one + between + two + parts[last:])
    return text


class CommandTest(unittest.TestCase):
    def setUp(self) -> None:
        plain = mock.patch.object(command, "formatted", lambda texts: texts)
        plain.start()
        self.addCleanup(plain.stop)
        folder = tempfile.TemporaryDirectory()
        self.addCleanup(folder.cleanup)
        self.top = folder.name
        self.crate = os.path.join(self.top, "crates/page")
        os.makedirs(os.path.join(self.crate, "src"))

    def path(self, name: str) -> str:
        return os.path.join(self.crate, name)

    def put(self, name: str, text: str) -> str:
        os.makedirs(os.path.dirname(self.path(name)), exist_ok=True)
        with open(self.path(name), "w", encoding="utf-8") as file:
            file.write(text)
        return self.path(name)

    def get(self, name: str) -> str:
        return read(self.path(name))

    def run_it(self, text: str, *words: str) -> tuple[int, str, list[str]]:
        """Runs the command over a file of a text: the status, the output, and the lines that were told."""
        path = self.put("src/a.rt", text)
        status, output, told = run(path, *words)
        return status, output, [line.removeprefix(f"implement: {path}:") for line in told.splitlines()]

    def test_what_is_proved_is_what_is_written(self) -> None:
        for name in SOURCES:
            words = ["--counted"] * (name in ("received.rt", "types.rt"))
            self.assertEqual(run(os.path.join(TYPES, name), "--check", *words), (0, "", ""))
        command = [os.path.join(TOP, "bin/implement"), os.path.join(TYPES, "placed.rt"), "--check", "--in-place"]
        ran = subprocess.run(command, capture_output=True, text=True)
        self.assertEqual((ran.returncode, ran.stdout, ran.stderr), (0, "", ""))

    def test_spoilt_sources(self) -> None:
        """No traceback, no changed file but in place and with status 0, and a line for each fault."""
        chance, sources = random.Random(25), [read(os.path.join(TYPES, name)) for name in SOURCES]
        for number in range(500):
            text, words = spoilt(sources[number % len(sources)], chance), ["--counted"] * (number % 2)
            path = self.put("src/a.rt", text)
            status, output, told = run(path, *words)
            self.assertTrue(TOLD[status].fullmatch(told) and read(path) == text and (status == 0 or not output))
            status, output, told = run(path, "--in-place", *words)
            once = read(path)
            self.assertTrue(TOLD[status].fullmatch(told) and not output and (status == 0 or once == text))
            self.assertEqual((run(path, "--in-place", *words)[:2], read(path)), ((status, ""), once))

    def test_what_is_passed_over_counts(self) -> None:
        head = "use std::collections::HashMap;\nuse std::rc::Rc;\nuse std::sync::*;\n#[derive(Drop)]\nstruct A<T> {\n"
        kinds = "Vec<Condvar>, HashMap<u8,Condvar>, Mutex<Rc<str>>, Option<Rc<str>>, *const u8, [B;3], (u8,f32), T, Vec<T>, &'static str".split(", ")
        fields = "".join(f"    // allocative: skip\n    f{number}: {kind},\n" for number, kind in enumerate(kinds))
        own = "#[derive(Drop)]\nenum B {\n    C,\n    D(u8, u32),\n}\n"
        status, output, told = self.run_it(f"{head}{fields}}}\n{own}")
        self.assertEqual((status, told), (0, ["implement: 10 fields are passed over: 176 bytes, and 2 of a size that only the checker knows"]))
        bytes = "24, 8, true", "48, 8, true", "24, 8, true", "24, 8, true", "8, 8, false", "", "8, 4, false", "", "24, 8, true", "16, 8, false"
        fields = [f'Layout::new("f{at}", {numbers})' if numbers else kind for at, (numbers, kind) in enumerate(zip(bytes, kinds))]
        fields[5], fields[7] = "<[B; 3]>::layout()", "T::layout()"
        self.assertIn(layout("A", *fields), output)
        self.assertIn("impl<T: Described + Drop> Described for A<T>", output)

    def test_flags(self) -> None:
        two = "#[cycle(x)]\n#[derive(Drop)]\nstruct A {\n    b: Vec<B>,\n    o: OnceBox<u8>,\n}\n"
        two += "#[cycle(x)]\n#[derive(Drop)]\nstruct B {\n    a: Vec<A>,\n}\n"
        rest = "#[derive(Drop)]\nstruct C(B);\n#[derive(Drop)]\nstruct D(Slab<String>, Value);\n#[derive(Drop)]\nstruct E(Mutex<u8>);\n"
        output = self.run_it(f"use once_cell::race::OnceBox;\nuse serde_json::Value;\nuse slab::Slab;\nuse std::sync::Mutex;\n{two}{rest}")[1]
        flags = ["⟦<B as Allocative>⟧.is_strict", "true", "⟦<Mutex<u8> as Allocative>⟧.is_strict"]
        self.assertEqual(re.findall(r"ghost is_strict = \{ (.*) \};", output), flags)

    def test_hashers(self) -> None:
        head = "use lru::LruCache;\nuse std::collections::HashMap;\nuse std::hash::RandomState;\n#[derive(Drop)]\nstruct Own;\n#[derive(Drop)]\nstruct A {\n"
        text = head + "    a: HashMap<u8, String, RandomState>,\n    b: LruCache<u8, String>,\n}\n"
        status, output, _ = self.run_it(text, "--counted")
        self.assertEqual(status, 0)
        self.assertIn(layout("A", "<HashMap<u8, String, RandomState>>::layout()", "<LruCache<u8, String>>::layout()"), output)
        self.assertIn("    ghost is_strict = { true };\n\n    fn visit(&self, visitor: &mut Visitor<'_>) -> Result<(), Refusal> {\n        let a", output)
        told = self.run_it(head + "    a: HashMap<u8, u8, Own>,\n}\n")[2]
        self.assertIn("A.a: `Own` makes hashers, and is no type that is described", told[0])

    def test_lists_boxes_and_services(self) -> None:
        head = "use allocative::FlameGraph;\nuse allocative_service::{cache::*, history::History, ledger::{Account, Ledger}, store::Store};\nuse std::boxed::*;\nuse std::collections::*;\nuse std::hash::RandomState;\n#[derive(Drop)]\nstruct A {\n"
        counted = "BoxedSlice<BoxedStr>", "LinkedList<String>", "BinaryHeap<u8>"
        for kind, skipped in (
            *zip(counted, ("16 bytes", "24 bytes", "24 bytes")),
            ("FlameGraph", "40 bytes"),
            ("History", "40 bytes"),
            ("Ledger", "48 bytes"),
            ("Account", "64 bytes"),
            ("Store<String, u8>", "48 bytes"),
            ("(u8, u8, u8, u8, u8, u8, u8, u32)", "12 bytes"),
            ("BoundedCache<u8, u8, RandomState>", "0 bytes, and 1 of a size that only the checker knows"),
        ):
            with self.subTest(kind):
                status, output, told = self.run_it(f"{head}    a: {kind},\n}}\n", "--counted")
                want = [] if kind in counted else [f"implement: A has no tally, as the field a holds `{kind}`"]
                self.assertEqual((status, told), (0, want))
                self.assertIn(layout("A", f"{kind if kind.isalpha() else f'<{kind}>'}::layout()"), output)
                self.assertIn("    ghost is_strict = { true };\n", output)
                told = self.run_it(f"{head}    // allocative: skip\n    a: {kind},\n}}\n")[2]
                self.assertEqual(told, [f"implement: 1 field is passed over: {skipped}"])
        for kind, what in (
            ("(u8, u8, u8, u8, u8, u8, u8, u8, u8)", "has more than eight parts"),
            ("BinaryHeap<f64>", "`BinaryHeap<f64>` asks `f64: Ord`"),
            ("Box<[u8]>", "write `BoxedSlice<u8>` of `std::boxed`, or write above it `// allocative: size 16`"),
            ("Box<str>", "write `BoxedStr` of `std::boxed`"),
        ):
            self.assertIn(what, self.run_it(f"{head}    a: {kind},\n}}\n")[2][0])

    def test_all_faults_at_once(self) -> None:
        text = "use std::sync::Condvar;\nuse std::rc::Rc;\nstruct A {\n    a: Rc<u8>,\n    b: Condvar,\n    c: u8,\n    d: Vec<Rc<u8>>,\n}\n#[derive(Drop)]\nenum B {\n    C(str),\n    D(\n    // allocative: skip\n    Option<Condvar>),\n}\n"
        status, output, told = self.run_it(text)
        self.assertEqual((status, output), (4, ""))
        self.assertEqual([line.split(":")[0] for line in told], ["3", "4", "5", "7", "11", "14"])
        self.assertIn("A.a: `Rc` of `std` has no implementation: write `IdRc<u8>` of `allocative`, or write above it `// allocative: size 8`", told[1])
        self.assertIn("size 4`", told[2])
        self.assertIn("B::C.0", told[4])
        self.assertIn("B::D.0: its size is not known: write above it `// allocative: size N`, where N is what `size_of::<Option<Condvar>>()`", told[5])

    def test_unknown_fields_are_passed_over_where_asked(self) -> None:
        status, output, _ = self.run_it("#[derive(Drop)]\nstruct A {\n    a: *const u8,\n    b: u8,\n}\n", "--skip-unknown")
        self.assertEqual(status, 0)
        self.assertIn("// `a` is passed over: `*const u8` is no type that is read.\n", output)
        self.assertNotIn('Field("a"', output)
        text = "use tokio::sync::Notify;\n#[derive(Drop)]\nstruct A {\n    a: u8,\n    b: Notify,\n    // allocative: skip\n    c: Option<Notify>,\n}\n"
        self.assertEqual([line.split(":")[0] for line in self.run_it(text)[2]], ["5", "7"])
        status, output, told = self.run_it(text, "--skip-unknown")
        self.assertIn(layout("A", "u8::layout()"), output)
        advice = "is passed over and counts no bytes: write above it `// allocative: size N`, where N is what `size_of"
        what = [f"implement: A.{field} {advice}::<{kind}>()`" for field, kind in (("b", "Notify"), ("c", "Option<Notify>"))]
        self.assertEqual((status, [line.split(" gives")[0] for line in told]), (0, what))

    def test_sizes_in_rust(self) -> None:
        """The sizes are those of rustc 1.95 on x86-64."""
        head = "use std::sync::*;\nuse std::cell::*;\nuse std::rc::Rc;\nuse std::fs::File;\nuse std::net::*;\nuse std::path::PathBuf;\nuse std::collections::HashMap;\n"
        for kind, size in (
            ("std::sync::Mutex<File>", 12),
            ("std::sync::Mutex<[SocketAddrV4; 3]>", 24),
            ("std::sync::Mutex<(u8, Rc<u8>, u16)>", 24),
            ("std::sync::RwLock<SocketAddrV4>", 16),
            ("std::sync::RwLock<HashMap<Rc<str>, u64>>", 64),
            ("std::sync::OnceLock<File>", 8),
            ("std::cell::RefCell<PathBuf>", 32),
            ("std::cell::RefCell<(u8, File, u8)>", 16),
            ("std::cell::RefCell<Rc<str>>", 24),
            ("std::cell::Cell<SocketAddr>", 32),
            ("File", 4),
            ("std::sync::Mutex<SocketAddr>", 40),
            ("std::borrow::CowSlice<'a, u8>", 24),
            ("parking_lot::Mutex<u16>", 4),
        ):
            with self.subTest(kind):
                told = self.run_it(f"{head}#[derive(Drop)]\nstruct A<'a> {{\n    a: {kind},\n}}\n")[2]
                self.assertIn(f"write above it `// allocative: size {size}`,", told[0])
        for kind in ("Mutex<(Own, File)>", "Mutex<Option<(u8, File)>>", "Mutex<[File; N]>", "parking_lot::Mutex<HashMap<u8, u8, Own>>"):
            told = self.run_it(f"{head}#[derive(Drop)]\nstruct A {{\n    a: {kind},\n}}\n#[derive(Drop)]\nstruct Own;\n")[2]
            self.assertIn("// allocative: size N`, where N is what `size_of::<", told[0])

    def test_references(self) -> None:
        for kind, shown in (
            ("&'a [u8]", 'shows.Inside (codes "a") 16 shows.Nothing'),
            ("&'a str", 'shows.Inside (codes "a") 16 shows.Nothing'),
            ("&'a mut (u8, u8)", 'shows.Inside (codes "a") 8 shows.Nothing'),
            ("&'static str", "(⟦<&'static str as Allocative>⟧.may_show x.a)"),
        ):
            status, output, told = self.run_it(f"#[derive(Drop)]\nstruct A<'a> {{\n    a: {kind},\n}}\n")
            self.assertEqual((status, told, shown in output), (0, [], True))

    def test_what_the_checker_refuses_is_refused_first(self) -> None:
        head = "use std::cell::*;\nuse std::collections::*;\ntype Call = fn(u8) -> u8;\n#[derive(Drop)]\nstruct K(u8);\n#[derive(Drop)]\nstruct A<T, U: Ord + Clone> "
        for kind, what in (
            ("Option<Call>", "A.a: `fn(u8) -> u8`: the checker states no type"),
            ("Vec<Box<dyn Fn(u8) -> u8>>", "A.a: `dyn Fn(u8) -> u8`: the checker states no type"),
            ("HashMap<T, u8>", "A.a: `HashMap<T, u8>` asks `T: Eq + Hash`"),
            ("Vec<BTreeMap<(T, u8), u8>>", "asks `T: Ord`"),
            ("HashSet<f64>", "asks `f64: Eq + Hash`"),
            ("BTreeSet<Vec<K>>", "asks `K: Ord`"),
            ("Cell<(u8, String)>", "asks `String: Copy`"),
            ("Cell<K>", "asks `K: Copy`"),
            ("Option<SmallVec<T, 2>>", "does not bound the size of `SmallVec<T, 2>`"),
        ):
            for above in ("", "    // allocative: size 8\n"):
                status, output, told = self.run_it(f"{head}{{\n{above}    a: {kind},\n    b: T,\n    c: BTreeSet<U>,\n}}\n")
                self.assertEqual((status, output, len(told)), (4, "", 1))
                self.assertIn(what, told[0])
        self.assertEqual(self.run_it("#[derive(Drop)]\nstruct SmallVec(u8);\n#[derive(Drop)]\nstruct A<T>(SmallVec, T);\n")[0], 0)
        self.put("src/b.rt", "struct Held {\n    call: Option<Box<dyn Fn(u8)>>,\n}\n")
        told = self.run_it("use crate::b::Held;\n#[derive(Drop)]\nstruct A {\n    // allocative: skip\n    a: Vec<Held>,\n}\n")[2]
        self.assertIn("A.a: `dyn Fn(u8)`: the checker states no type", told[0])
        told = self.run_it("#[derive(Drop)]\nstruct A(Vec<B>);\n#[derive(Drop)]\nstruct B(fn(u8) -> u8);\n")[2]
        self.assertEqual([line.split(":")[1].strip() for line in told], ["B.0"])
        empty, sized = "enum A {}", "struct A<T: ?Sized>(Box<T>);"
        for text, what in ((sized, "`?Sized`"), ("struct A { deriving: u8 }", "reserves")):
            self.assertIn(what, self.run_it(f"#[derive(Drop)]\n{text}\n")[2][0])
        self.assertIn("no variants", self.run_it(f"#[derive(Drop)]\n{empty}\n", "A")[2][0])
        self.assertEqual(self.run_it(f"{POINT}#[derive(Drop)]\n{empty}\n")[0], 0)

    def test_types_of_other_files(self) -> None:
        self.put("src/b.rt", POINT)
        text = "use crate::b::Point;\n#[derive(Drop)]\nstruct A {\n    a: Point,\n}\n"
        self.assertIn("`Point` of src/b.rt has no implementation yet", self.run_it(text)[2][0])
        self.put("src/b/shown.rt", "impl Described for Point {}\nimpl Allocative for Point {}\n")
        self.assertEqual(self.run_it(text)[0], 0)
        self.put("src/c.rt", "use crate::a::A;\nstruct C(Option<Box<A>>);\nstruct D(Vec<C>);\n")
        told = self.run_it("use crate::c::{C, D};\n#[derive(Drop)]\nstruct A(C, Vec<D>);\n")[2]
        self.assertIn("A.0: `C` of another file holds `A` in turn: put types that hold each other into one file", told[0])
        self.assertIn("A.1: `D` of another file holds `A` in turn", told[1])
        self.put("../other/src/lib.rt", POINT)
        text = text.replace("crate::b", "other")
        self.assertIn("A.a: `Point` of `other` has no implementation: write above it", self.run_it(text)[2][0])
        self.put("../other/src/shown.rt", "impl Described for Point {}\nimpl Allocative for Point {}\n")
        self.assertEqual(self.run_it(text)[0], 0)

    def test_types_of_other_crates(self) -> None:
        """A size, or a size and a length, without a comment above the field."""
        head = "use arrayvec::ArrayVec;\nuse bytes::{Bytes, BytesMut};\nuse jiff::{Timestamp, civil::Date as Day};\nuse std::ops::{Range, RangeInclusive};\nuse std::path::PathBuf;\nuse url::Url;\nuse uuid::Uuid;\n"
        for kind, size, counted, shown in (
            ("jiff::Zoned<'static>", 40, "40, 8, true", 'shows.Inside (codes "Zoned") 40 shows.Nothing'),
            ("Option<Timestamp>", 24, "24, 8, false", 'shows.Inside (codes "Option") 24 shows.Nothing'),
            ("Day", 4, "4, 2, false", 'shows.Inside (codes "Date") 4 shows.Nothing'),
            ("std::net::SocketAddrV4", 6, "6, 2, false", 'shows.Inside (codes "SocketAddrV4") 6 shows.Nothing'),
            ("Range<u32>", 8, "8, 4, false", 'shows.Inside (codes "Range") 8 shows.Nothing'),
            ("RangeInclusive<u64>", 24, "24, 8, false", 'shows.Inside (codes "RangeInclusive") 24 shows.Nothing'),
            ("ArrayVec<u16, 3>", 12, "12, 4, false", 'shows.Inside (codes "ArrayVec") 12 shows.Nothing'),
            ("Option<ArrayVec<u64, 3>>", 40, "40, 8, false", 'shows.Inside (codes "Option") 40 shows.Nothing'),
            ("BytesMut", 32, "32, 8, true", '(shows.Inside (codes "u8") (length x.a.items) shows.Nothing)'),
        ):
            with self.subTest(kind):
                status, output, told = self.run_it(f"{head}#[derive(Drop)]\nstruct A {{\n    a: {kind},\n}}\n")
                self.assertEqual((status, told), (0, []))
                self.assertIn(layout("A", f'Layout::new("a", {counted})'), output)
                self.assertIn(shown, output)
                self.assertIn(f'let a = Inside("a", {size}, ', output)
        steps = "#[derive(Drop)]\nenum Step {\n    Fetch(Url, Uuid),\n    Again { url: Url, id: Uuid },\n}\n#[derive(Drop)]\nstruct ShownUrl(Url);\n"
        _, output, _ = self.run_it(head + steps)
        self.assertEqual(output.count("struct ShownUrlOf<'a>(&'a url::Url);"), 1)
        for line in ("Step::Fetch(a, _) => {", 'let a = Inside("0", 88, ShownUrlOf(a));', "Step::Again { url, .. } => {", 'ShownUrlOf(&self.0)'):
            self.assertIn(line, output)
        for kind, what in (
            ("Vec<Uuid>", "`Uuid` of `uuid` has no implementation: put the `Uuid` into a struct of your own, or write above it"),
            ("ArrayVec<String, 2>", "`ArrayVec` of `arrayvec` has no implementation: write above it `// allocative: size N`"),
            ("Option<Url>", "put the `Url` into a struct of your own, or write above it `// allocative: size 96`"),
            ("std::sync::Arc<u8>", "write `IdArc<u8>` of `allocative`, or write above it `// allocative: size 8`"),
            ("std::sync::Arc<str>", "`Arc` of `std` has no implementation: write above it `// allocative: size 16`"),
        ):
            told = self.run_it(f"{head}#[derive(Drop)]\nstruct A {{\n    a: {kind},\n}}\n")[2]
            self.assertIn(what, told[0])

    def test_layouts_of_enums(self) -> None:
        four = "u16::layout().or(u32::layout()).or(Layout::empty(\"F\").with(u8::layout()).with(u64::layout()))"
        for variants, fields in (("A, B", []), ("A(u16), B, C(u16), D(u32), F(u8, u64)", [four])):
            output = self.run_it(f"#[derive(Drop)]\nenum E {{ {variants} }}\n")[1]
            self.assertIn(layout("E", "u8::layout()", *fields), output)
        self.assertIn("or (empty (codes \"F\") with ⟦<u8 as Described>⟧.layout with ⟦<u64 as Described>⟧.layout)", re.sub(r"\s+", " ", output))

    def test_recursive_types_and_cycles(self) -> None:
        two = "#[derive(Drop)]\nstruct A {\n    b: Vec<B>,\n}\n#[derive(Drop)]\nstruct B {\n    a: Vec<A>,\n}\n"
        self.assertIn("#[cycle(NAME)]", self.run_it(two)[2][0])
        for count, own, status in ((22, "A<T>", 0), (23, "A<T>", 4), (42, "A", 0), (43, "A", 4)):
            held = "".join(f"#[derive(Drop)]\nstruct B{each}({', '.join(['u8'] * 9)});\n" for each in range(count))
            names = ", ".join(f"B{each}" for each in range(count))
            types = f"{held}#[derive(Drop)]\nstruct {own}(Vec<{own}>, {names});\n"
            self.assertEqual(self.run_it(types)[0], status)
        self.assertIn("A: it holds itself, and the 44 types that it reaches have too many fields", self.run_it(types)[2][0])
        three = "#[derive(Drop)]\nenum C {\n    D,\n    E(Vec<A>),\n}\n"
        both = "#[cycle(m)]\n" + two.replace("a: Vec<A>,", "a: Vec<A>,\n    b: Vec<B>,\n    c: Box<C>,").replace("}\n#", "}\n#[cycle(m)]\n#")
        self.assertIn("A, B, C hold each other: write `#[cycle(NAME)]`", self.run_it(both + three)[2][0])
        self.assertEqual(self.run_it(f"{both}#[cycle(n)]\n{three}")[0], 4)
        alone = three.replace("    D,\n", "")
        self.assertIn("C: an enum of one variant that has parameters or holds others", self.run_it(f"{both}#[cycle(m)]\n{alone}")[2][0])
        self.run_it(f"{both}#[cycle(m)]\n{three}", "--output", self.crate)
        output = self.get("src/a/shown.rt")
        self.assertEqual(output.count("vec_in ⟦<B as Described>⟧.layout.size (λ y. child (second (first y))) (out-B x).b"), 3)
        self.assertIn("ghost use Rattle.page.specs.declared.a.C.{C-F, out-C};\n", output)
        answers = self.get("proofs/a/shown/+m/Answers.antt")
        goals = re.findall(r"^pub (\S+) :", answers, re.M)
        self.assertEqual(goals, [f"{name}Allocative::visit-returns{arm}" for name, arm in (("A", ""), ("B", ""), ("C", "-in-D"), ("C", "-in-E"))])
        twin = "#[cycle(m)]\n#[derive(Drop)]\nenum {} {{\n    N,\n    D(Box<{}>),\n}}\n"
        twins = twin.format("A", "B") + twin.format("B", "A")
        self.assertIn("      | B-F.B::D a ↦ field (codes \"D\") ", self.run_it(twins)[1])
        same = both.replace("A {", "A<T> {").replace("Vec<A>", "Vec<A<T>>")
        self.assertIn("A: a type with parameters that holds others which hold it", self.run_it(f"{same}#[cycle(m)]\n{three}")[2][0])
        queue = "use std::collections::*;\n#[derive(Drop)]\nstruct A {\n    a: VecDeque<A>,\n}\n"
        self.assertIn("holds the type itself in a way", self.run_it(queue)[2][0])

    def test_recursive_types_with_parameters(self) -> None:
        tree = "#[derive(Drop)]\nstruct A<T> {\n    a: T,\n    b: Vec<A<T>>,\n}\n"
        chain = "#[derive(Drop)]\nenum B<T> {\n    End,\n    Link(T, Box<B<T>>),\n    Many(Vec<B<T>>),\n}\n"
        status, _, told = self.run_it(tree + chain, "--output", self.crate)
        self.assertEqual((status, told), (0, []))
        output, answers = self.get("src/a/shown.rt"), self.get("proofs/a/shown/BAllocative/+visit/Answers.antt")
        self.assertEqual(output.count("    ghost is_strict = { T.is_strict };\n"), 2)
        self.assertIn("(vec_in ⟦<A<T> as Described>⟧.layout.size child (out-A T x).b)", output)
        self.assertIn('opened (out-B T) (λ x. field (codes "B") ⟦<B<T> as Described>⟧.layout.size (elim x [', output)
        self.assertIn('let b = Declared("b", Some(24), Declared("Vec", Some(24), allocative::Buffer {', output)
        self.assertIn("e : out-B _ c.args.self.now ≡ B-F.End = ap (out-B _) c.in-End.is", answers)
        self.assertIn("(means_buffer (search rules) (c.len.ensures ∙ c.in-Many.a.ok.0) c.capacity.ensures means_same)", answers)
        keyed = tree.replace("a: T", "a: BTreeMap<T, Box<A<T>>>")
        self.assertIn("Each", self.run_it(f"use std::collections::BTreeMap;\n{keyed.replace('A<T> {', 'A<T: Ord> {')}")[1])
        for kind, what in (
            ("Vec<A<u8>>", "`A<u8>` holds the type itself in a way that is not written"),
            ("Option<Vec<A<T>>>", "make it a field `Vec<A<T>>`"),
            ("Vec<Option<A<T>>>", "make it a field `Vec<A<T>>`"),
        ):
            self.assertIn(what, self.run_it(tree.replace("Vec<A<T>>", kind))[2][0])
        for text, what in (
            (tree.replace("A<T> {", "A<'a, T> {"), "A: a type with a lifetime or a const parameter that holds itself"),
            (chain.replace("    End,\n", "").replace("    Many(Vec<B<T>>),\n", ""), "B: an enum of one variant that has parameters"),
        ):
            self.assertIn(what, self.run_it(text)[2][0])

    def test_paths_of_the_module_itself(self) -> None:
        text = POINT + "#[derive(Drop)]\nstruct A {\n    a: Vec<self::Point>,\n    // allocative: size 8\n    b: super::B,\n}\n"
        self.assertIn(layout("A", "<Vec<Point>>::layout()", 'Layout::new("b", 8, 8, true)'), self.run_it(text)[1])
        self.run_it("#[derive(Drop)]\nstruct A {\n    a: Vec<self::A>,\n}\n", "--in-place")
        self.assertIn("Layout::empty(\"A\").with(<Vec<self::A>>::layout())", self.get("src/a.rt"))

    def files(self) -> dict[str, str]:
        """The text of each file, by its path."""
        paths = [os.path.join(folder, name) for folder, _, names in os.walk(self.top) for name in names]
        return {os.path.relpath(path, self.top): read(path) for path in paths}

    def test_a_preview_changes_nothing(self) -> None:
        self.put("../../crates.txt", "page:\n")
        path = self.put("src/a.rt", CASES)
        before = self.files()
        output = run(path, "--add-lines")[1]
        self.assertEqual((self.files(), "impl Allocative for E" in output), (before, True))
        for words in ([], ["--in-place"], ["--check"], ["--add-lines", "--output", self.crate]):
            self.assertEqual((run(path, "F", *words)[0], self.files()), (4, before))
        self.put(f"{ANSWERS}.new", "mine")
        before = self.files()
        self.assertEqual((run(path, "--output", self.crate)[0], self.files()), (3, before))

    def test_a_folder_for_what_is_written(self) -> None:
        path = self.put("src/a.rt", CASES)
        before, output = self.files(), run(path)[1]
        other = os.path.join(self.top, "other")
        self.assertEqual(run(path, "--output", other), (0, "", ""))
        new = {name: text for name, text in self.files().items() if name not in before}
        self.assertEqual(sorted(new), [f"other/{ANSWERS}", "other/src/a/shown.rt"])
        self.assertEqual((new["other/src/a/shown.rt"], run(path, "--output", other, "--check")[0]), (output, 0))
        self.put("proofs/a/shown/GoneAllocative/visit/Answers.antt", "-- Written by bin/implement.\n")
        self.put("proofs/a/shown/MineAllocative/visit/Answers.antt", "-- Mine.\n")
        self.assertEqual((run(path, "--output", self.crate)[1], self.get("src/a/shown.rt")), ("", output))
        self.assertEqual(sorted(os.listdir(self.path("proofs/a/shown"))), ["EAllocative", "MineAllocative"])
        self.assertEqual((self.get(ANSWERS), run(path, "--check")[0]), (new[f"other/{ANSWERS}"], 0))
        self.assertEqual((run(path, "--in-place", "--output", other)[0], self.get("src/a.rt")), (0, CASES))
        self.assertIn("\n// allocative: begin\n", self.get("../../other/src/a.rt"))

    def test_a_repository_of_ones_own(self) -> None:
        self.put("src/a.rt", f"//! A page.\n\nuse std::fmt;\n\n{CASES}")
        self.put("../../crates.txt", "page: thiserror\nother: page\n")
        script = os.path.join(TOP, "bin/implement")
        os.symlink(script, self.path("linked"))
        for name in (script, "./linked"):
            ran = subprocess.run([name, "--output", ".", "--add-lines", "src/a.rt"], cwd=self.crate, capture_output=True, text=True)
            self.assertEqual((ran.returncode, ran.stdout, ran.stderr), (0, "", ""))
        self.assertEqual((os.path.exists(self.path(ANSWERS)), self.get("src/a.rt").splitlines()[2]), (True, "mod shown;"))
        self.assertEqual(self.get("../../crates.txt"), "page: thiserror allocative\nother: page\n")
        self.put("../../crates.txt", "other: page\n")
        self.assertEqual(run(self.path("src/a.rt"), "--counted", "--output", self.crate, "--add-lines"), (0, "", ""))
        self.assertEqual(self.get("../../crates.txt"), "other: page\npage: allocative allocative_tally\n")
        shutil.copy(script, self.path("copied"))
        ran = subprocess.run(["./copied", "src/a.rt"], cwd=self.crate, capture_output=True, text=True)
        self.assertEqual((ran.returncode, ran.stderr.startswith("implement: run bin/implement by its path")), (3, True))

    def test_in_place_and_check(self) -> None:
        placed = read(os.path.join(TYPES, "placed.rt"))
        bare, written = PIECE.sub("", placed), placed.replace("test_generated_types", "page")
        path = self.put("src/placed.rt", bare)
        self.assertEqual((run(path, "--check")[0], read(path)), (1, bare))
        os.chmod(path, 0o640)
        for _ in range(2):
            self.assertEqual((run(path, "--in-place")[:2], read(path)), ((0, ""), written))
        self.assertEqual((run(path, "--check"), os.stat(path).st_mode & 0o777), ((0, "", ""), 0o640))
        self.assertEqual(run(self.put("src/placed.rt", written.replace("u64", "u32", 1)), "--check")[0], 1)
        nowhere = f"{written}\n#[derive(Copy2)]\npub struct Nowhere;\n"
        told = run(self.put("src/placed.rt", nowhere), "--in-place")[2]
        self.assertIn(f"placed.rt:{nowhere.count(chr(10))}: Nowhere: it is not `Drop`", told)
        self.assertEqual(run(self.put("src/placed.rt", nowhere.replace("Copy2", "Drop")), "--in-place")[0], 0)
        self.assertTrue(self.get("src/placed.rt").endswith("        Whole(self, ()).enter(visitor)\n    }\n}\n// allocative: end\n"))
        self.assertEqual(self.get("src/placed.rt").count("use allocative::{"), 2)

    def test_what_is_left_alone(self) -> None:
        text = POINT + 'const TEXT: &str = "\n// allocative: begin\n";\nstruct B;\nimpl Allocative for B {}\n'
        self.assertEqual((self.run_it(text, "--in-place")[0], self.get("src/a.rt").count("for B {")), (0, 1))
        unions, two = "pub union Both {\n    pub a: u8,\n}\n", "#[derive(Drop)]\npub struct A; pub struct B;\n"
        for text in ("{\n", "// allocative: begin\n", unions, two):
            path = self.put("src/a.rt", POINT + text)
            status, output, told = run(path, "--in-place")
            self.assertEqual((status, output, read(path)), (4, "", POINT + text))
            self.assertTrue(TOLD[4].fullmatch(told))
        self.put("src/a.rt.new", "mine")
        self.assertEqual((self.run_it(POINT, "--in-place")[0], self.get("src/a.rt")), (3, POINT))
        self.assertEqual(self.get("src/a.rt.new"), "mine")

    def test_types_without_a_tally(self) -> None:
        for text, why in (
            ("struct A(Vec<A>);", "it holds itself"),
            ("struct A<'a>(\n    // allocative: skip\n    &'a u8,\n);", "it has a lifetime"),
            ("enum A {\n    B,\n    C(PathBuf),\n}", "the field C.0 holds a lone `PathBuf`"),
            ("struct A(u8, Vec<IdRc<u64>>, OnceBox<u8>);", "the field 1 holds `IdRc<u64>`, and the field 2 holds `OnceBox<u8>`"),
            ("enum A<T> {\n    B(u64, T),\n    C,\n}", "it has parameters, and a variant of several fields"),
            ("struct A<const N: usize> {\n    a: [u64; N],\n    b: u64,\n}", "it has a const parameter"),
            ("struct A<T>(T, u8, u8, u8, u8, u8, u8, u8);", "its size depends on a name, and it has more than seven fields"),
            ("struct A {" + "".join(f"\n    a{at}: String," for at in range(33)) + "\n}", "it has too many fields for the checker"),
        ):
            uses = "use allocative::IdRc;\nuse once_cell::race::OnceBox;\nuse std::path::PathBuf;\n"
            text = f"{uses}#[derive(Drop)]\n{text}\n"
            status, output, told = self.run_it(text, "--counted")
            self.assertEqual((status, told[0]), (0, f"implement: A has no tally, as {why}"))
            self.assertNotIn("Tally", output)

    def test_how_a_tally_finds_room(self) -> None:
        """Sizes that are numbers are added; those of parameters are searched, the deeper the more fields there are."""
        for fields, room in (("u8, u8, u8", "(holds_bytes (omega arith))"), ("T, u8", "(search (rules, holding))"), ("T, u8, u8", "(search holding_tuples depth 12)")):
            text = f"#[derive(Drop)]\nstruct A{'<T>' * ('T' in fields)}({fields});\n"
            self.assertEqual(self.run_it(text, "--counted", "--output", self.crate)[::2], (0, []))
            self.assertIn(f"whole_counts _ c.in_ok-declared.ensures {room}\n", self.get("proofs/a/shown/ATallied/tally/Answers.antt"))

    def test_the_sizes_of_variants_of_an_enum_with_parameters(self) -> None:
        """A layout that names a parameter is searched; any other is that of a type, whose size is a call with a name."""
        text = "#[derive(Drop)]\nenum E<T> {\n    A(T, u8),\n    B(u8, u16),\n}\n"
        self.assertEqual(self.run_it(text, "--output", self.crate)[::2], (0, []))
        self.assertEqual(re.findall(r"struct (\w+);", self.get("src/a/shown.rt")), ["EBFields"])
        sizes = re.findall(r"refl \(means_field refl (\S+|\(.+?\)) means_same", self.get(ANSWERS))
        self.assertEqual(sizes, ["(search rules)", "c.size-in-B.ensures"])

    def test_fields_in_fields(self) -> None:
        """Doubled ten times, a text is too many fields; behind a pointer it is one."""
        for held, told in (("A{0}, A{0}", "A12: it has too many fields for the checker"), ("Box<A{0}>, Vec<A{0}>", "")):
            types = [f"#[derive(Drop)]\nstruct A{at + 1}({held.format(at)});\n" for at in range(12)]
            found = self.run_it("#[derive(Drop)]\nstruct A0(String);\n" + "".join(types))[2]
            self.assertIn(told, found[-1] if told else "")
            self.assertEqual(len(found), 3 if told else 0)

    def test_a_nested_module(self) -> None:
        text = "mod inner {\n    #[derive(Drop)]\n    pub struct Point {\n        pub x: u32,\n    }\n}\n"
        status, output, _ = self.run_it(text, "--module", "inner")
        self.assertEqual((status, "What the types of `inner` show" in output), (0, True))
        with self.assertRaises(SystemExit), contextlib.redirect_stderr(io.StringIO()):
            self.run_it(text, "--in-place", "--module", "inner")
        self.assertEqual(self.run_it(text, "--module", "outer")[0], 4)

    def test_faults_of_the_arguments_and_the_file(self) -> None:
        self.assertEqual(self.run_it(POINT, "Line")[0], 4)
        with open(self.put("src/a.rt", ""), "wb") as file:
            file.write(b"\n\xff")
        status, _, told = run(self.path("src/a.rt"))
        self.assertEqual((status, "a.rt:2: the text is not UTF-8" in told), (4, True))
        self.assertEqual([run(path)[0] for path in (self.path("src/none.rt"), self.top)], [3, 3])
