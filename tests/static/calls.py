"""Checks of who calls what: no call of a running cache waits or allocates, a step makes one atomic
operation, and no public function is there for nobody. They go by names, so a call stands for all that it
may mean; a function that is handed on by its name, and not called there, they don't see.

A function of Rattle that may wait has to be given that right by its caller, through a bound `Wait` of
its own signature, its impl, its type or a trait: so where no code names it, no public signature does.
That a function allocates doesn't show in its signature: a list has its allocator with it. Nor does a
contract say that a step loads no more words than its log has: a load changes nothing."""
import contextlib
import os
import re
import shutil
import tempfile

from crates import crates
from functions import CALL, Code, code_of, functions_of
from texts import read

# What users call: these crates and all below them are looked at.
TOPS = ("hcc_cache", "hcc_block", "hcc_c")
# The right to wait, and the runtime that has it; types whose calls wait; calls that wait or try in turn.
WAITS = re.compile(
    r"\b(Wait\w*|HostRuntime|Mutex\w*|RwLock\w*|Condvar|Barrier|Once|OnceLock|LazyLock|Parker"
    r"|mpsc|SyncSender|Sender|Receiver|forever|lock|try_lock|wait\w*|park\w*|sleep|yield_now|spin_loop)\b"
)
# What makes an allocator, hands one on or asks one for memory. The contract of push_reserved wants the
# room to be there.
ALLOCATES = re.compile(
    r"\b(?:alloc\w*|Global)\b|\b(?:Box|Arc|Rc|String)::\w+|\bVec::(?!len\b)\w+|\b(?:vec|format)!"
    r"|\.(?:push(?!_reserved\()\w*|reserve\w*|extend\w*|append|resize\w*|to_vec|to_owned|to_string|collect\w*|with_capacity)\("
    r"|\b(?:handles|alone|seats|shards)\.(?:insert|vacant_entry)\("
    # The protocol's machine, of which running code has types and constants only.
    r"|\b(?:Machine|World)\b"
)
# Public functions that may allocate, since no cache runs in them; and one that says that it does.
MAY_ALLOCATE = {
    "hcc_cache": "Cache::new Cache::reopen Closed::image Cache::close ObjectCache::new ObjectCache::close ClosingRoom::none"
    " Cache::insert_pinned_copy",
    "hcc_block": "",
    "hcc_c": "ferretgold_raw_open ferretgold_raw_reopen ferretgold_raw_close ferretgold_raw_close_keeping"
    " ferretgold_raw_closed_open ferretgold_raw_closed_free ferretgold_raw_image_open"
    " ferretgold_raw_image_add ferretgold_raw_image_free ferretgold_raw_insert_pinned"
    " ferretgold_raw_object_open ferretgold_raw_object_close ferretgold_raw_objects_open"
    " ferretgold_raw_objects_end",
}
# Methods that allocate, of a type that only one of these functions makes; and how it makes one.
MADE_THERE = {"LentStanding": (re.compile(r"\bLent \{"), "Cache::insert_pinned_copy")}
# Public functions that nothing above their crate calls, by the reason why they are there.
CALLED_BY_NOBODY = {
    "the sentence of an error, for whoever shows it": "hcc_core::CoreError::text hcc_shard::ReopenError::text"
    " hcc_cache::NewError::text hcc_cache::LookupError::text hcc_cache::InsertError::text hcc_cache::CloseError::text"
    " hcc_cache::CopyError::text hcc_cache::ObjectNewError::text hcc_cache::ObjectError::text hcc_cache::ObjectCloseError::text"
    " hcc_block::ReadError::text hcc_player::TextFault::text",
    "for whoever reads through the cache: a source for tests, and the key of a block that is to be erased":
    "hcc_block::FailingSource::new hcc_block::key_of",
    "for programs of Rattle, of which each client has a thread": "hcc_cache::Cache::witness"
    " hcc_cache::Cache::follow hcc_cache::ObjectCache::witness hcc_cache::ObjectCache::follow",
    "a part of a layer's promises that tests call by itself": "hcc_word::acquired hcc_word::acquires"
    " hcc_rule::Key::from_bytes hcc_table::free_taken hcc_charge::evict",
}

# The file of hcc_rule that alone reaches a shard's words; what each of its functions calls, and nothing else.
REACHES = "src/words.rt"
OPERATIONS = {
    "new": "of_words", "close": "close_with", "split": "split_seat", "join": "join_seat",
    "witness": "split_seat", "hear": "join_seat",
    **{it: it for it in "load store fetch_add fetch_sub fetch_and fetch_or compare_exchange".split()},
}
REACHING = re.compile(r"\bshared\b|\bpeek\b|\bTable\b")
REPEATS = re.compile(r"\b(?:for|while|loop)\b|\|")

# Plants: a name, then for each change a file, what stands there, and what comes in its place, where @
# is what stood there.
LOOKUP = ("hcc_cache/src/lookups.rt", r"pub fn lookup\(\s*&self,", "pub fn lookup<R: Wait>(&self, rt: &R,")
FIELD = ("hcc_shard/src/shard.rt", r"pub struct Shard<[^{]*\{", "@\n    alone: Mutex<()>,")
LOCKS = {
    "a lock a shard, with the right in a public signature": [FIELD, LOOKUP],
    "the right in a public signature": [LOOKUP],
    "a lock a shard": [FIELD],
    "the right in an impl": [("hcc_cache/src/lookups.rt", "\nimpl<", "@R: std::sync::Wait, ")],
    "the right by another name": [("hcc_cache/src/lookups.rt", "\nuse ", "\nuse std::sync::Wait as Calm;@")],
    "the right by a trait": [("hcc_table/src/search.rt", "\nuse ", "\npub trait Calm: std::sync::Wait {}@")],
    "the right behind a text, before a comment": [
        ("hcc_word/src/lib.rt", "\nmod ", '\nconst A: &str = "\\"//"; fn b(rt: &impl Wait) {} // c@')
    ],
}
BODY = r"(pub(?:\(crate\))? fn %s\b.*?\n    \{\n)"
ALLOCATIONS = {
    "a push in a look-up": [("hcc_cache/src/lookups.rt", BODY % "lookup", "@        client.seats.push(seat);\n")],
    "a box in a probe": [("hcc_table/src/acquire.rt", r"(fn reach\b.*?\n\{\n)", "@    let kept = Box::new(Global, 0);\n")],
    "a copy in an erasure": [("hcc_cache/src/erasing.rt", BODY % "erase", "@        let kept = shards.to_vec(alloc);\n")],
}
LOADS = {
    "a load in no log, in a step": [
        ("hcc_rule/src/steps/looks.rt", BODY % "look_at", "@        self.words.table.shared.peek(0);\n")
    ],
    "a load more in an operation": [
        ("hcc_rule/src/words.rt", BODY % "load", "@        self.words.table.shared.peek(address);\n")
    ],
    "an operation in a loop": [
        ("hcc_rule/src/words.rt", BODY % "store", "@        for _ in 0..self.geometry.slots\n")
    ],
}
# What names locks and is none.
HARMLESS = ("hcc_word/src/lib.rt", "\nmod ", '\n/// No Wait.\nconst A: &str = "Mutex // \\" lock"; /* Wait */@')


def below(listed, tops=TOPS):
    """These crates and those that they stand on, lowest first."""
    return [name for name in listed if name in tops or any(name in listed[top].below for top in tops)]


def sources(listed):
    """The files of code of the crates that users call and of those below, without their tests."""
    return [f"crates/{name}/{path}" for name in below(listed) for path in listed[name].files(".rt")]


def no_lock():
    """Code that names the right to wait, a lock, a channel or a call that waits."""
    for file in sources(crates()):
        for number, line in enumerate(code_of(read(file)).split("\n"), 1):
            yield from (f"{file}:{number}: {it[0]}" for it in WAITS.finditer(line))


def no_allocation():
    """Functions that allocate and that a call of a running cache may reach."""
    listed = crates()
    code = Code(listed, [it for it in below(listed) if it != "hcc_core"])
    may = {it for it in code.public if it.label in MAY_ALLOCATE.get(it.crate, "").split()}
    named = {label for labels in MAY_ALLOCATE.values() for label in labels.split()}
    yield from (f"there is no public function {it}, which may allocate" for it in named - {it.label for it in may})
    way = {it: None for it in code.public if it.crate in TOPS and it not in may and not is_law(it)}
    made = set()
    for name, (makes, maker) in MADE_THERE.items():
        made |= {it for it in code.functions if it.label.startswith(f"{name}::")}
        yield from (f"{it.label} makes one of {name}" for it in code.functions
                    if makes.search(it.body) and it.label != maker)
    due = list(way)
    while due:
        caller = due.pop()
        if found := ALLOCATES.search(caller.body):
            at, ways = caller, []
            while at:
                ways.append(at.label)
                at = way[at]
            yield f"crates/{caller.crate}/{caller.path}: {found[0]} by {' < '.join(ways)}"
        for it in code.called_by(caller):
            if it not in way and it not in made:
                way[it] = caller
                due.append(it)


def one_operation():
    """Functions of hcc_rule that name what reaches a shard's words, and stand in another file than those
    that do; and of these, those that make another operation than that of their name, or one more."""
    found = {}
    for it in functions_of(crates()["hcc_rule"]):
        place = f"crates/hcc_rule/{it.path}: {it.label}"
        if it.path != REACHES:
            yield from (f"{place} names {of[0]}" for of in REACHING.finditer(it.body))
            continue
        found[it.name] = [call[2] for call in CALL.findall(it.body)]
        if found[it.name] != [OPERATIONS.get(it.name)] or REPEATS.search(it.body):
            yield f"{place} isn't one call of {OPERATIONS.get(it.name, 'the table')}"
    yield from (f"crates/hcc_rule/{REACHES}: there is no {it}" for it in OPERATIONS if it not in found)


def is_law(function):
    """Whether a function does nothing, and is there for its contract."""
    return function.name.startswith("law_")


def unused():
    """Public functions that neither a program, an export nor a crate above calls, and that aren't
    listed with a reason; of a trait, those that its own crate doesn't call either. Of a static library
    only exports are public."""
    listed = crates()
    code = Code(listed, [it for it in listed if not it.endswith("_tests")])
    above = {name: [it for it in code.functions if name in listed[it.crate].below] for name in listed}
    found = []
    for it in code.public:
        crate = listed[it.crate]
        own = [caller for caller in code.functions if it.is_of_trait and caller.crate == it.crate]
        is_exempt = is_law(it) or crate.is_static or crate.is_program
        if not is_exempt and not any(code.is_called(it, caller) for caller in above[it.crate] + own):
            found.append(f"{it.crate}::{it.label}")
    has_reason = {it for names in CALLED_BY_NOBODY.values() for it in names.split()}
    yield from (f"{it} is public, and nothing above its crate calls it" for it in sorted(set(found) - has_reason))
    yield from (f"{it} is called now, or gone: it needs no reason" for it in sorted(has_reason - set(found)))


@contextlib.contextmanager
def changed(changes):
    """Works in a copy of the sources with these changes; says what isn't there to be changed."""
    home = os.getcwd()
    with tempfile.TemporaryDirectory() as copy:
        shutil.copy("crates.txt", copy)
        for file in sources(crates()):
            os.makedirs(os.path.dirname(f"{copy}/{file}"), exist_ok=True)
            shutil.copy(file, f"{copy}/{file}")
        os.chdir(copy)
        lacking = []
        for file, old, new in changes:
            text = read(f"crates/{file}")
            if not re.search(old, text, re.S):
                lacking.append(f"crates/{file}: lacks {old.strip()!r}: choose another place for the plant")
            with open(f"crates/{file}", "w", encoding="utf-8") as it:
                it.write(re.sub(old, lambda there: new.replace("@", there[0]), text, count=1, flags=re.S))
        try:
            yield lacking
        finally:
            os.chdir(home)


def plants():
    """Plants of the three checks above that they don't find in each file that has one, and in no other;
    and what is harmless that they find."""
    for check, plants in ((no_lock, LOCKS), (no_allocation, ALLOCATIONS), (one_operation, LOADS)):
        for name, changes in plants.items():
            with changed(changes) as lacking:
                files = {it.split(":")[0] for it in check()}
            yield from lacking
            if files != {f"crates/{file}" for file, _, _ in changes}:
                yield f"{name}: found in {', '.join(sorted(files)) or 'no file'}"
    with changed([HARMLESS]):
        yield from (f"found, though it is none: {it}" for it in no_lock())
