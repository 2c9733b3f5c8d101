"""That the header and the Rust package touch the word by sequentially consistent accesses alone, as their texts have it: on
x86_64 an exchange without an order is the same instruction, and on aarch64 one that acquires and releases is, so no run
tells each weaker one."""
import glob
import re

from parts.tool import TOP

HEADER, PACKAGE = "bindings/c/ticket_word.h", "bindings/rust/ticket-word/src"
TABLE = f"{PACKAGE}/table.rs"

# What a text must not have: another order, another access, and a plain one. All other files of the package have none.
FORBIDDEN = {
    HEADER: r"__ATOMIC_(?!SEQ_CST\b)\w*|__atomic_(?!load_n|compare_exchange_n|fetch_and)\w*|\btrue, __ATOMIC\w*|"
            r"(?<!&)\btable->word\b(?! = start\.word;)",
    TABLE: r"\b(?:Relaxed|Acquire|Release|AcqRel|fence)\b|\w+_weak|\.(?:store|swap|get_mut|into_inner|as_ptr|\w*update)\(",
}
ANY_ATOMIC = r"[Aa]tomic\w*|Ordering|SeqCst|\bfence\b"


def faults(texts):
    for path in sorted({*FORBIDDEN, *(f"{PACKAGE}/{it}" for it in glob.glob("*.rs", root_dir=f"{TOP}/{PACKAGE}"))}):
        without_comments = re.sub(r"/\*.*?\*/|//[^\n]*", "", texts[path], flags=re.S)
        for found in re.finditer(FORBIDDEN.get(path, ANY_ATOMIC), without_comments):
            yield f"{path}: {found[0]}: is no sequentially consistent access"


def exchange(success, failure, weak="false"):
    return f"__atomic_compare_exchange_n(&table->word, &seen->word, next.word, {weak}, __ATOMIC_{success}, __ATOMIC_{failure})"


def weaker(access, order):
    """A load or a clear by another order."""
    return access.replace("SEQ_CST", order)


EXCHANGE = exchange("SEQ_CST", "SEQ_CST")
LOAD, CLEAR = "__atomic_load_n(&table->word, __ATOMIC_SEQ_CST)", "mask.word, __ATOMIC_SEQ_CST)"
# Weaker accesses of the header, which the instructions of some machine tell, and which none does.
TOLD = (
    *((EXCHANGE, exchange(*it)) for it in (("RELAXED", "RELAXED"), ("RELEASE", "RELAXED"), ("ACQUIRE", "ACQUIRE"))),
    *((CLEAR, weaker(CLEAR, it)) for it in ("RELAXED", "RELEASE")),
    (LOAD, weaker(LOAD, "RELAXED")), (LOAD, "table->word"), (f"!{EXCHANGE}", "(table->word = next.word, false)"),
)
UNTOLD = (
    *((EXCHANGE, exchange(*it)) for it in (("ACQ_REL", "ACQUIRE"), ("RELEASE", "SEQ_CST"), ("SEQ_CST", "RELAXED"))),
    (EXCHANGE, exchange("SEQ_CST", "SEQ_CST", "true")), (LOAD, weaker(LOAD, "ACQUIRE")), (CLEAR, weaker(CLEAR, "ACQ_REL")),
)
PLANTED = (
    *((HEADER, *it) for it in (*TOLD, *UNTOLD)),
    (TABLE, "seen.word, next, SeqCst, SeqCst", "seen.word, next, AcqRel, Acquire"),
    (TABLE, "seen.word, next, SeqCst, SeqCst", "seen.word, next, Relaxed, Relaxed"),
    (TABLE, ".compare_exchange(seen.word", ".compare_exchange_weak(seen.word"),
    (TABLE, ".load(SeqCst)", ".load(Acquire)"),
    (TABLE, "fetch_and(keep, SeqCst)", "fetch_and(keep, Release)"),
    (TABLE, "atomic::Ordering::SeqCst;", "atomic::Ordering::Relaxed as SeqCst;"),
    (TABLE, "self.taken.fetch_or(bit, SeqCst)", "self.taken.fetch_or(bit, Relaxed)"),
    (f"{PACKAGE}/order.rs", "\nimpl", "\nstatic SEEN: core::sync::atomic::AtomicU8;\nimpl"),
)
