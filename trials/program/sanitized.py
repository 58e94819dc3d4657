"""The program without its proofs, compiled so that its addresses or its threads are looked at while it runs."""

import re

from upkeep.unproved import NotBuilt, object_of, ran

# What newer compilers call and an older one's library does not have: it looks at these calls by their own names.
COPIES = """\
#include <string.h>
void *__tsan_memcpy(void *to, const void *from, size_t size) { return memcpy(to, from, size); }
void *__tsan_memmove(void *to, const void *from, size_t size) { return memmove(to, from, size); }
void *__tsan_memset(void *to, int byte, size_t size) { return memset(to, byte, size); }
"""
LIBRARIES = ["-rdynamic", "-lm", "-ldl", "-lpthread", "-lrt"]
# Each form of an atomic access, the call that stands in its place, and what is called: valgrind is told what comes before and after.
ACCESSES = [
    (r"= load atomic i64, ptr (%\w+) seq_cst, align 8", r"= call i64 @watched_load(ptr \1)"),
    (r"store atomic i64 (%?\w+), ptr (%\w+) seq_cst, align 8", r"call void @watched_store(ptr \2, i64 \1)"),
    (r"= atomicrmw (add|sub|xchg) ptr (%\w+), i64 (%?\w+) seq_cst, align 8", r"= call i64 @watched_\1(ptr \2, i64 \3)"),
    (r"= cmpxchg ptr (%\w+), i64 (%?\w+), i64 (%?\w+) seq_cst seq_cst, align 8", r"= call { i64, i1 } @watched_cas(ptr \1, i64 \2, i64 \3)"),
]
ATOMIC = re.compile(r"^ +(?:%\w+ = )?(?:load atomic|store atomic|atomicrmw|cmpxchg|fence) .*", re.MULTILINE)
WATCHED = """
declare void @told_before(ptr)
declare void @told_after(ptr)
define internal i64 @watched_load(ptr %p) noinline {
  %r = load atomic i64, ptr %p seq_cst, align 8
  call void @told_after(ptr %p)
  ret i64 %r
}
define internal void @watched_store(ptr %p, i64 %v) noinline {
  call void @told_before(ptr %p)
  store atomic i64 %v, ptr %p seq_cst, align 8
  ret void
}
define internal { i64, i1 } @watched_cas(ptr %p, i64 %a, i64 %b) noinline {
  call void @told_before(ptr %p)
  %r = cmpxchg ptr %p, i64 %a, i64 %b seq_cst seq_cst, align 8
  call void @told_after(ptr %p)
  ret { i64, i1 } %r
}
"""
CHANGED = """
define internal i64 @watched_{way}(ptr %p, i64 %v) noinline {{
  call void @told_before(ptr %p)
  %r = atomicrmw {way} ptr %p, i64 %v seq_cst, align 8
  call void @told_after(ptr %p)
  ret i64 %r
}}
"""
TOLD = """\
#include <valgrind/{tool}.h>
void told_before(void *place) {{ ANNOTATE_HAPPENS_BEFORE(place); }}
void told_after(void *place) {{ ANNOTATE_HAPPENS_AFTER(place); }}
"""
# No complaint is of an access that is atomic itself.
PASSED_OVER = "{{\n  atomic\n  {}\n  fun:watched_*\n}}\n"
TOOLS = {"helgrind": "Helgrind:Race", "drd": "drd:ConflictingAccess"}


def parts(kit):
    """The parts of the toolchain that each program has."""
    return [kit / "c/libos_c.a", kit / "c/liblibc_c.a"]


def for_addresses(kit, room):
    """Builds the program whose addresses are looked at, from what was taken to the room."""
    module = object_of(kit, room, "-O1", "-fsanitize=address", kept=b" sanitize_address")
    whole = ["-Wl,--whole-archive", kit / "c/asan.a", "-Wl,--no-whole-archive"]
    ran(["cc", "-o", room / "addresses", module, *whole, *parts(kit), *LIBRARIES])
    return room / "addresses"


def for_threads(kit, room, ordered=True):
    """Builds the program whose threads are looked at; where it is not ordered, its atomic accesses order nothing else."""
    changed = None if ordered else text_of(kit, room).replace(" seq_cst", " monotonic")
    module = object_of_changed(kit, room, changed, "-fsanitize=thread", kept=b" sanitize_thread")
    (room / "copies.c").write_text(COPIES)
    ran(["cc", "-c", "-O0", "-fno-builtin", room / "copies.c", "-o", room / "copies.o"])
    ran(["clang", "-fsanitize=thread", "-o", room / "threads", module, room / "copies.o", *parts(kit)])
    return room / "threads"


def for_valgrind(kit, room):
    """Builds a program for each of valgrind's tools for threads, which tells it what its atomic accesses order: the words to run it by."""
    module, words = object_of_changed(kit, room, watched(text_of(kit, room))), {}
    for tool, complaint in TOOLS.items():
        source, passed_over = room / f"{tool}.c", room / f"{tool}.supp"
        source.write_text(TOLD.format(tool=tool))
        passed_over.write_text(PASSED_OVER.format(complaint))
        ran(["cc", "-O1", "-o", room / tool, source, module, *parts(kit), *LIBRARIES])
        words[tool] = ["valgrind", "-q", f"--tool={tool}", f"--suppressions={passed_over}", room / tool]
    return words


def watched(text):
    """The text where a call stands in the place of each atomic access."""
    for form, call in ACCESSES:
        text = re.sub(form, call, text)
    if left := ATOMIC.search(text):
        raise NotBuilt(f"an atomic access of a form that this tool does not know: {left[0]}")
    return text + WATCHED + "".join(CHANGED.format(way=way) for way in ("add", "sub", "xchg"))


def text_of(kit, room):
    words = ["-S", "-emit-llvm", "-O0", "-Xclang", "-disable-llvm-passes", "-x", "ir", room / "module.bc", "-o", room / "taken.ll"]
    ran([kit / "toolchain/bin/clang", *words])
    return (room / "taken.ll").read_text()


def object_of_changed(kit, room, text, *more, kept=b""):
    """Compiles this text in place of what was taken, where there is one."""
    taken = (room / "module.bc").read_bytes()
    if text is not None:
        (room / "module.bc").write_text(text)
    module = object_of(kit, room, "-O1", *more, kept=kept)
    (room / "module.bc").write_bytes(taken)
    return module
