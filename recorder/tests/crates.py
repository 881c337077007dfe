"""Crates of Rust with unsafe code, as Debian's packages have their sources."""

import glob
import os
import re
import shutil
from typing import List, NamedTuple, Tuple

from debian import Archive

REGISTRY = "usr/share/cargo/registry"


class Crate(NamedTuple):
    """Which of its tests are run, and a test with a bug, whose last line is where that is reported."""

    name: str
    words: str = ""
    planted: str = ""
    report: str = ""
    needs: Tuple[str, ...] = ()


FREED = "load 1 heap-use-after-free"

CRATES = [
    Crate("bytes", planted="""
use bytes::Bytes;
#[test] fn planted() {
    let bytes = Bytes::from(vec![1u8, 2, 3]);
    let kept = std::hint::black_box(bytes.as_ptr());
    drop(bytes);
    assert!(unsafe { *kept } < 255) }
""", report=FREED),
    Crate("slab", planted="""
use slab::Slab;
#[test] fn planted() {
    let mut slab = Slab::new();
    let key = slab.insert(vec![1u8]);
    let kept = std::hint::black_box(slab[key].as_ptr());
    slab.remove(key);
    assert!(unsafe { *kept } < 255) }
""", report=FREED),
    Crate("smallvec", planted="""
use smallvec::SmallVec;
#[test] fn planted() {
    let mut row: SmallVec<[u8; 4]> = SmallVec::from_slice(&[1, 2, 3, 4, 5]);
    row.shrink_to_fit();
    assert!(unsafe { *std::hint::black_box(row.as_ptr()).add(5) } < 255) }
""", report="load 1 heap-buffer-overflow"),
    Crate("bumpalo", planted="""
use bumpalo::Bump;
#[test] fn planted() {
    let bump = Bump::new();
    let kept = std::hint::black_box(bump.alloc(7u8) as *const u8);
    drop(bump);
    assert!(unsafe { *kept } < 255) }
""", report=FREED),
    # With procedural macros, and of what its other tests need Debian has other versions.
    Crate("thiserror", " ".join(f"--test test_{it}" for it in ("display", "source", "generics", "lints")), """
#[derive(thiserror::Error, Debug)]
#[error("{}", self.0[0])]
struct Wrong(Box<[u8]>);
#[test] fn planted() {
    let wrong = Wrong(vec![1u8].into_boxed_slice());
    let kept = std::hint::black_box(wrong.0.as_ptr());
    assert_eq!(wrong.to_string(), "1");
    assert!(unsafe { *kept.add(1) } < 255) }
""", "load 1 heap-buffer-overflow", ("thiserror-impl", "syn", "quote", "proc-macro2", "unicode-ident")),
    # With a part in C++.
    Crate("link-cplusplus", planted="""
#[test] fn planted() {
    let bytes = vec![1u8].into_boxed_slice();
    assert!(unsafe { *std::hint::black_box(bytes.as_ptr()).add(1) } < 255) }
""", report="load 1 heap-buffer-overflow", needs=("cc",)),
]


def without(manifest: str) -> str:
    """Returns a manifest without what tests, benches and features need beside the crate."""
    text = re.sub(r"(?ms)^\[(?:target\.[^\]]*\.)?dev-dependencies[^\]]*\].*?(?=^\[|\Z)", "", manifest)
    text = re.sub(r"(?ms)^\[\[bench\]\].*?(?=^\[|\Z)", "", text)
    optional: List[str] = []

    def cut(found: "re.Match[str]") -> str:
        if "optional = true" not in found[0]:
            return found[0]
        optional.append(re.escape(found[1]))
        return ""

    text = re.sub(r"(?ms)^\[dependencies\.([^\]]*)\].*?(?=^\[|\Z)", cut, text)
    for name in optional:
        text = re.sub(rf'(?ms)^\w+ = \[[^\]]*"(?:dep:)?{name}[/"][^\]]*\]\n', "", text)
    return text


def fetch(archive: Archive, crate: Crate, to: str) -> None:
    """Unpacks a crate and what it needs; cargo finds that in `registry` beside the sources of all."""
    partial = f"{to}.partial"
    shutil.rmtree(partial, ignore_errors=True)
    for name in (crate.name, *crate.needs):
        archive.unpack(f"librust-{name}-dev", partial)
    registry = f"{partial}/{REGISTRY}"
    (source,) = (it for it in glob.glob(f"{registry}/{crate.name}-*") if it[len(f"{registry}/{crate.name}-")].isdigit())
    with open(f"{source}/Cargo.toml", encoding="utf-8") as file:
        text = without(file.read())
    with open(f"{source}/Cargo.toml", "w", encoding="utf-8") as file:
        file.write(text)
    for name in (".cargo-checksum.json", "Cargo.lock"):
        if os.path.exists(f"{source}/{name}"):
            os.unlink(f"{source}/{name}")
    shutil.rmtree(f"{source}/benches", ignore_errors=True)
    os.makedirs(f"{source}/.cargo")
    os.rename(source, f"{partial}/crate")
    needed = f"{partial}/crate/registry"
    os.rename(registry, needed)
    with open(f"{partial}/crate/.cargo/config.toml", "w", encoding="utf-8") as file:
        file.write('[source.crates-io]\nreplace-with = "here"\n[source.here]\ndirectory = "registry"\n')
    os.rename(f"{partial}/crate", to)
    shutil.rmtree(partial)


def report_of(crate: Crate) -> str:
    """The report of the planted bug, as real.py writes it: at its last line."""
    return f"{crate.report} at planted.rs:{len(crate.planted.strip().splitlines())}"
