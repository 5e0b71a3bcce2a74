#!/usr/bin/env python3
"""Builds the oracle and the driver of the comparison, with rustc alone.

    oracle/build.py [--source DIR] [--ready] [oracle] [oracle-crate] [oracle-bench] [drive]

Without a name: oracle and drive; with --ready nothing is built, and what is missing is said. They are written to target/oracle/:

    oracle         the crate's text, by docs/RULES.md where the two differ by decision: the sum of a coverage
                   index is not cut at 16 bits, and a class matrix is judged record by record
    oracle-crate   coverage.rs and PairPos2::new as they stand, kerning through PairKern1 and PairKern2
    oracle-bench   as oracle, without the counting that ends an endless walk, for x86-64 and with the library linked in, for oracle/bench
    drive          makes calls and compares what two programs answer

The crate's text is read from --source, else from the environment's SOURCE, else from ../shared/docs/src beside this repository. It is
taken as it stands, and not kept here.
"""
import hashlib, os, platform, re, shutil, subprocess, sys

HERE = os.path.dirname(os.path.abspath(__file__))
ROOT = os.path.dirname(HERE)
TARGET = os.path.join(ROOT, "target", "oracle")
WORK = os.path.join(TARGET, "src")
GEN = os.path.join(WORK, "gen")
SOURCE = os.environ.get("SOURCE") or os.path.join(ROOT, "..", "shared", "docs", "src")
RUSTC = os.environ.get("RUSTC") or "rustc"
READ = ("src/hint.rs", "src/budget.rs", "src/set_digest.rs", "src/buffer.rs", "src/ot/layout.rs", "src/ot/mod.rs",
        "src/ot/gpos/mod.rs", "src/ot/lookup/coverage.rs", "src/ot/lookup/gpos.rs")


def fail(text):
    print("oracle/build.py: " + text, file=sys.stderr)
    sys.exit(2)


def source(path):
    with open(os.path.join(SOURCE, path)) as f:
        return f.read()


def write(name, text):
    with open(os.path.join(GEN, name), "w") as f:
        f.write(text)


def replaced(text, old, new):
    """The text with its one occurrence of `old` replaced."""
    assert text.count(old) == 1, old
    return text.replace(old, new)


def item(text, start):
    """The item whose text begins with `start`, to its closing brace."""
    assert text.count(start) == 1, start
    at = text.rindex("\n", 0, text.index(start)) + 1
    depth, k = 0, text.index("{", at)
    while True:
        depth += {"{": 1, "}": -1}.get(text[k], 0)
        k += 1
        if depth == 0:
            return text[at:k] + "\n"


def whole_files(crate_reading):
    """Files taken whole. For the rule on coverage indexes one expression of coverage.rs is replaced."""
    for name in ("hint", "budget", "set_digest"):
        write(name + ".rs", source("src/%s.rs" % name))
    coverage = source("src/ot/lookup/coverage.rs")
    if not crate_reading:
        coverage = replaced(coverage, """range
                    .start_coverage_index()
                    .checked_add(gid.to_u16() - range.start_glyph_id().to_u16())
                    .map(u32::from)""",
            "Some(u32::from(range.start_coverage_index()) + u32::from(gid.to_u16() - range.start_glyph_id().to_u16()))")
    write("coverage.rs", coverage)


def lookups():
    """gpos.rs whole, with a function appended that reaches private items."""
    write("gpos_lookup.rs", source("src/ot/lookup/gpos.rs") + """
// ---- appended by build.py; all above is the source, byte for byte
/// PairPos2 without the test that the whole matrix fits.
pub(crate) fn oracle_pair_pos2<'a>(pairs: &ClassPairs<'a>) -> PairPos2<'a> {
    PairPos2 { class_def1: pairs.class_def1, class_def2: pairs.class_def2, caches: None, records: pairs.records }
}
""")


def finishing():
    """gpos/mod.rs whole, with a copy of the finishing function appended that takes the nesting limit as a parameter."""
    text = source("src/ot/gpos/mod.rs")
    name = "pub fn position_finish_offsets(buffer: &mut Buffer"
    copy = replaced(item(text, name + ")"), name + ")", name + ", MAX_NESTING_LEVEL: usize)")
    write("gpos_mod.rs", text + """
// ---- appended by build.py; all above is the source, byte for byte
pub mod at_limit {
    #![allow(non_snake_case)]
    use super::propagate_attachment_offsets;
    use crate::buffer::*;
""" + copy + "}\n")


def parts():
    """Parts of buffer.rs, layout.rs and ot/mod.rs, cut out as they stand."""
    buffer, layout, ot = source("src/buffer.rs"), source("src/ot/layout.rs"), source("src/ot/mod.rs")
    start = buffer.index("#[repr(C)]\n#[derive(Clone, Copy, Default, Debug, bytemuck::Pod")
    write("text_positions.rs", buffer[start:buffer.index("macro_rules! declare_buffer_var_alias")])
    write("text_macros.rs", "".join(item(buffer, "macro_rules! %s {" % m) for m in ("buffer_message", "message", "message_return", "message_continue")))
    write("text_buffer_fns.rs", "impl Buffer {\n" + "".join(item(buffer, s) for s in (
        "pub(crate) fn cur(&self, i: usize)", "pub(crate) fn cur_pos_mut(&mut self)")) + "}\n")
    assert "    const IS_LIG_BASE: u8 = 0x10;\n" in layout
    write("text_info_fns.rs", item(layout, "impl GlyphInfo {\n    declare_buffer_var!(u16, 1, 0, GLYPH_PROPS_VAR")
          + "impl GlyphInfo {\n" + item(buffer, "pub(crate) fn as_glyph(&self) -> GlyphId") + "const IS_LIG_BASE: u8 = 0x10;\n"
          + "".join(item(layout, "pub(crate) fn %s(&" % s) for s in (
              "set_lig_props_for_mark", "lig_id", "ligated_internal", "lig_comp", "is_mark", "multiplied")) + "}\n")
    write("text_lookup_flags.rs", item(ot, "pub(crate) mod lookup_flags {"))
    write("text_limits.rs", "".join(re.findall(r"pub const MAX_\w+_LE\w+: usize = \d+;\n", layout)))


def x86_words():
    """What rustc is told to build for x86-64: nothing where the machine is one."""
    if platform.machine() == "x86_64":
        return ()
    target = "x86_64-unknown-linux-gnu"
    where = subprocess.run([RUSTC, "--print", "target-libdir", "--target", target], capture_output=True, text=True).stdout.strip()
    if not os.path.isdir(where):
        fail("no Rust standard library for x86-64 here: %s has none at %s (RUSTC=PATH names another rustc)" % (RUSTC, where))
    linker = os.path.join(TARGET, "linker")
    with open(linker, "w") as f:
        f.write("#!/bin/sh\nexec '%s' link \"$@\"\n" % os.path.join(ROOT, "tools", "x86"))
    os.chmod(linker, 0o755)
    return ("--target", target, "-C", "linker=" + linker)


def rustc(output, root, *words):
    made = subprocess.run([RUSTC, "-A", "warnings", "--edition", "2021", "-C", "opt-level=3", "-L", TARGET, "-o", os.path.join(TARGET, output), root, *words],
                          cwd=WORK, env=dict(os.environ, GEN=GEN))
    if made.returncode != 0:
        fail("rustc does not build %s from %s" % (output, os.path.relpath(root, ROOT)))


def build_oracle(name):
    shutil.rmtree(WORK, ignore_errors=True)
    shutil.copytree(os.path.join(HERE, "crate"), WORK)
    os.makedirs(GEN)
    os.makedirs(os.path.join(WORK, "ot", "lookup"))  # `#[path]` inside a module is read from its folder
    whole_files(name == "oracle-crate")
    lookups()
    finishing()
    parts()
    bench = name == "oracle-bench"
    cfg = {"oracle": (), "oracle-crate": ("--cfg", "crate_reading"), "oracle-bench": ("--cfg", "bench", *(x86_words() if bench else ()))}[name]
    library = ("-L", os.path.join(ROOT, "target", "staticlib"), "-l", "static=gpos_c") if bench else ()
    checks = "off" if bench else "on"
    shims = os.path.join(HERE, "shims")
    rustc("libbytemuck_derive.so", os.path.join(shims, "bytemuck_derive.rs"), "--crate-type", "proc-macro", "--crate-name", "bytemuck_derive")
    rustc("libread_fonts.rlib", os.path.join(shims, "read_fonts", "lib.rs"), "--crate-type", "rlib", "--crate-name", "read_fonts", *cfg)
    rustc("libbytemuck.rlib", os.path.join(shims, "bytemuck.rs"), "--crate-type", "rlib", "--crate-name", "bytemuck",
          "--extern", "bytemuck_derive=" + os.path.join(TARGET, "libbytemuck_derive.so"), *cfg)
    rustc(name, "main.rs", "--crate-name", name.replace("-", "_"), "-C", "codegen-units=1", "-C", "debug-assertions=" + checks,
          "-C", "overflow-checks=" + checks, *cfg, *library,
          *(w for x in ("read_fonts", "bytemuck") for w in ("--extern", "%s=%s" % (x, os.path.join(TARGET, "lib%s.rlib" % x)))))


def stamp(name):
    """A sum over everything that the program is made of."""
    own = [os.path.join(d, f) for part in (["drive"] if name == "drive" else ["crate", "shims"])
           for d, _, fs in os.walk(os.path.join(HERE, part)) for f in fs]
    text = [] if name == "drive" else [os.path.join(SOURCE, f) for f in READ]
    text += [os.path.join(ROOT, "target", "staticlib", "libgpos_c.a")] if name == "oracle-bench" else []
    sums = [hashlib.sha256(open(f, "rb").read()).hexdigest() for f in sorted(own) + text + [os.path.abspath(__file__)]]
    return " ".join(sums) + subprocess.run([RUSTC, "-vV"], check=True, capture_output=True, text=True).stdout


def ready():
    if not shutil.which(RUSTC):
        fail("no %s on the PATH" % RUSTC)
    missing = [f for f in READ if not os.path.isfile(os.path.join(SOURCE, f))]
    if missing:
        fail("the Rust text is not at %s: no %s there (give its folder by --source DIR or SOURCE=DIR)" % (os.path.normpath(SOURCE), missing[0]))


def build(name):
    note = os.path.join(TARGET, name + ".stamp")
    want = stamp(name)
    if os.path.exists(note) and os.path.exists(os.path.join(TARGET, name)) and open(note).read() == want:
        return
    if name == "drive":
        os.makedirs(WORK, exist_ok=True)
        rustc("drive", os.path.join(HERE, "drive", "main.rs"), "--crate-name", "drive")
    else:
        build_oracle(name)
    with open(note, "w") as f:
        f.write(want)


if __name__ == "__main__":
    names = sys.argv[1:]
    if names[:1] == ["--source"]:
        SOURCE, names = os.path.abspath(names[1]), names[2:]
    ready()
    if names == ["--ready"]:
        sys.exit()
    os.makedirs(TARGET, exist_ok=True)
    for n in names or ["oracle", "drive"]:
        if n not in ("oracle", "oracle-crate", "oracle-bench", "drive"):
            fail("nothing is called " + n + "\n" + __doc__)
        build(n)
