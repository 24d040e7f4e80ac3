#!/usr/bin/env python3
"""Programs that must not compile, each judged by the error that the compiler names, and that it names no other one:
those of the crate's pages, whose errors rustdoc compares in a nightly alone, and those below. Without their last
lines these compile.

Usage: tests/c/must_fail.py"""
import re
import subprocess
import sys
import tempfile
from pathlib import Path

TOP = Path(__file__).resolve().parent.parent.parent

RUST = """use ferretgold::{Cache, Config, Image, Key, ObjectConfig, Objects, Priority};
pub fn program() {
    let (config, key) = (Config::default(), Key { w0: 7, w1: 1 });
    let mut image = Image::new().unwrap();
    let _ = image.add(key, b"", 1, 1);
    let cache = Cache::open(&config).unwrap();
    let client = cache.client().unwrap();
    let (_, handle) = client.insert_pinned(key, b"", 1, Priority::Low).unwrap();
    let other = Cache::open(&config).unwrap();
    let config_of_objects = ObjectConfig::default();
    let objects = Objects::<u8>::open(&config_of_objects).unwrap();
    let mut held = objects.get(&[7; 16]).unwrap();
    %s
    let _ = (&mut held, &handle, &other, &image);
}
"""
# What is wrong, and the error.
RUST_LINES = [
    ("drop(client);", r"E0505\].*`client` because it is borrowed"),
    ("drop(cache);", r"E0505\].*`cache` because it is borrowed"),
    ("std::thread::scope(|it| it.spawn(|| handle.len()));", r"E0277\].*`NonNull<.*Client>` cannot be shared"),
    ("let mine = cache.client(); std::thread::spawn(move || drop(mine));", r"E0597\].*`cache` does not live"),
    ("let _ = Cache::reopen(&config, image);", r"E0382\].*`image`"),
    ("let left = other.close_keeping(); std::thread::spawn(|| left.is_ok());", r"E0277\].*`NonNull<.*Closed>`"),
    ("*held = 8;", r"E0594\].*dereference of `Pinned<u8>`"),
    ("held.release(true, false);", r"E0382\].*`held`"),
    ("let _ = Objects::<std::rc::Rc<u8>>::open(&config_of_objects);", r"E0599\].*trait bounds were not satisfied"),
    ("let _ = image.clone();", r"E0599\].*no method named `clone`"),
]

CPP = """#include "ferretgold_object.hpp"
void program(ferretgold_status &why) {
    ferretgold::cache cache(FERRETGOLD_CONFIG, why);
    ferretgold::client client = cache.open_client(why);
    ferretgold::handle handle = client.lookup({7, 1}, why);
    ferretgold::closed closed;
    ferretgold::image image;
    ferretgold::lease lease(cache);
    ferretgold::object_cache<int> objects(FERRETGOLD_OBJECT_CONFIG, why);
    ferretgold::pinned<int> held = objects.lookup({7, 1}, why);
    std::unique_ptr<int> object;
    (void)(handle && closed && lease.get() && held && object);
    %s
}
"""
# What is wrong, and words of the error.
COPIED = r"deleted (?:function|constructor|copy constructor).*%s"
CPP_LINES = [
    ("auto again = cache;", COPIED % "cache"),
    ("auto again = client;", COPIED % "client"),
    ("auto again = handle;", COPIED % "handle"),
    ("auto again = closed;", COPIED % "closed"),
    ("auto again = image;", COPIED % "image"),
    ("auto again = std::move(lease);", COPIED % "lease"),
    ("auto again = objects;", COPIED % "object_cache"),
    ("auto again = held;", COPIED % "pinned"),
    ("handle = client.lookup({8, 1}, why), client = nullptr;", "no match for .operator=.|no viable overloaded"),
    ("objects.insert({7, 1}, object, 1);", "cannot bind rvalue reference|no matching member function"),
    ("ferretgold::object_cache<int[2]> arrays;", "ferretgold: an object of one type"),
    ("ferretgold::object_cache<int &> references;", "ferretgold: an object of one type"),
]

C = """#include "ferretgold_closed.h"
#include "ferretgold_object.h"
void program(ferretgold_client *client);
void program(ferretgold_client *client) {
    (void)client;
}
"""
# Words of the compiler by which layouts differ from the library's, and words of the errors.
C_WORDS = [("-fshort-enums", "ferretgold: ferretgold_(?:status|priority|inserted) has another size here"),
           ("-fpack-struct=1", "ferretgold: (?:ferretgold_fit|ferretgold_(?:held_)?entry|it) has another size here")]


def said(words, text):
    """The errors of a compiler, line by line; none where it compiles."""
    ran = subprocess.run(words, input=text, capture_output=True, text=True, check=False)
    errors = [it for it in ran.stderr.splitlines() if re.search(r"\berror(?:\[E\d+\])?:", it)]
    errors = [it for it in errors if not re.search("aborting due to|could not compile", it)]
    return errors or ([ran.stderr] if ran.returncode else [])


def pages():
    """Each program of the crate's pages that must not compile, with its error's code."""
    for file in sorted((TOP / "rust/src").glob("*.rs")):
        text = "\n".join(re.findall(r"^ *//[/!] ?(.*)$", file.read_text(encoding="utf-8"), re.M))
        for code, block in re.findall(r"^```compile_fail,(E\d+)\n(.*?)^```$", text, re.M | re.S):
            block = re.sub(r"^# ?", "", block, flags=re.M)
            yield f"{file.name}: {code}", f"fn main() {{\n{block}\n}}\n", re.escape(f"error[{code}]")


def programs(folder):
    """Each program, its name, how it is compiled, and what each error has in it; none where it compiles."""
    rustc = ["rustc", "--edition", "2021", "--crate-type", "lib", "--emit", "metadata", "--out-dir", folder, "-"]
    mine = [*rustc[:-1], "--crate-name", "ferretgold", TOP / "rust/src/lib.rs"]
    subprocess.run(mine, check=True)
    rustc[-1:-1] = ["--extern", f"ferretgold={folder}/libferretgold.rmeta"]
    yield from ((name, rustc, text, error) for name, text, error in pages())
    yield "Rust", rustc, RUST % "", None
    yield from ((it, rustc, RUST % it, error) for it, error in RUST_LINES)
    cpp = ["c++", "-std=c++17", f"-I{TOP}/include", "-fsyntax-only", "-x", "c++", "-"]
    yield "C++", cpp, CPP % "", None
    yield from ((it, cpp, CPP % it, error) for it, error in CPP_LINES)
    cc = ["cc", "-std=c11", f"-I{TOP}/include", "-fsyntax-only", "-x", "c", "-"]
    yield "C", cc, C, None
    yield from ((f"C {it}", [*cc, it], C, error) for it, error in C_WORDS)


def main():
    count, faults = 0, 0
    with tempfile.TemporaryDirectory() as folder:
        for name, words, text, error in programs(folder):
            errors = said(words, text)
            is_so = not errors if error is None else errors and all(re.search(error, it) for it in errors)
            count += error is not None
            faults += not is_so
            if not is_so:
                print(f"{name}\n    has to be refused by {error}, and is by\n    " + "\n    ".join(errors))
    print(f"must_fail: {count} programs, {faults} faults")
    return faults != 0


sys.exit(main())
