#!/usr/bin/env python3
"""Replays every capture of captures/ by the definitions, and compares with its expected texts.

For each capture it writes a claim on its calls, from a fresh table and with 4,096 bytes of room: each reads as far as it must
(`record_size`, crates/paper), and what it comes to by `step` prints as NAME.text (crates/replay_transcript), byte by byte. Where
there is a NAME.fates another says that the same calls print as that (crates/fates_book, fates_register, fates_report). The
checker computes them. The claims stand in a crate of their own, in a repository made for the run and outside of this one: here
`rt ci` takes no file of definitions that is no crate's. It has copies of the crates that the claims speak of, for which `rt` takes
what is proved of them here. The last line is 'N passed, M failed'; exit status 1 if a claim fails.
"""
import importlib.util
import pathlib
import re
import shutil
import subprocess
import sys
import tempfile

TOP = pathlib.Path(__file__).resolve().parent.parent
# The crates that the claims speak of. The last stands on all others.
BELOW = ["ledger", "octets", "paper", "wire_records", "text", "replay_transcript", "fates_book", "fates_register", "fates_report"]

CLAIMS = """\
-- What the definitions come to on the captures.
use mathlib.Core.Path.{◌≡◌, refl}
use Rattle.std.specs.Prelude.{ℕ, ◌+◌, ◌*◌, Bool, true, List, [], ◌∷◌, ◌++◌, length, replicate, eqb, ltb}
use Rattle.ledger.specs.Choice.{◌⇒◌∣◌, pick, both}
use Rattle.ledger.specs.Tally.{one_if}
use Rattle.octets.specs.Runs.{over, same_bytes}
use Rattle.paper.specs.Base.{Table, fresh}
use Rattle.paper.specs.RecordsOut.{all_bytes}
use Rattle.paper.specs.Refusals.{Outcome}
use Rattle.paper.specs.Step.{step}
use Rattle.replay_transcript.specs.Transcript.{title, totals}
use Rattle.fates_book.specs.declared.Line.{Line}
use Rattle.fates_book.specs.Lines.{lines_of as said_by}
use Rattle.fates_register.specs.Register.{blank}
use Rattle.fates_report.specs.Report.{heading, closing}
USES

-- how far its call reads, the bytes lent, and what must be printed
data Call : Type 0 where
  call : ℕ → List ℕ → List ℕ → Call

abbrev number : Outcome → ℕ
number o = pick (ltb 0 o.refusal) (o.refusal * 65536) (length (all_bytes o.records) + o.opened * 16777216)

abbrev printed : ℕ → Outcome → List ℕ
printed n o = call_text n (number o) (over (all_bytes o.records) (replicate 4096 0))

-- from a table on, with so many calls made and so many of them refused; the last line
abbrev replays : Table → ℕ → ℕ → List Call → List ℕ → Bool
replays t n m [] end = same_bytes (totals n m) end
replays t n m (call size r w ∷ l) end =
    both (both (eqb (record_size r) size) (same_bytes (printed (n + 1) (step t r 4096)) w))
    (replays (step t r 4096).table (n + 1) (m + one_if (ltb 0 (step t r 4096).refusal)) l end)

-- what the records of calls say, from a table on
abbrev said : Table → List (List ℕ) → List Line
said t [] = []
said t (r ∷ l) = said_by r (step t r 4096).opened (all_bytes (step t r 4096).records) ++ said (step t r 4096).table l

abbrev account : List Line → List ℕ
account ys = heading ++ all_text ys blank ++ closing (entered_all ys blank)
"""


def assembler():
    """captures/assemble.py as a module."""
    spec = importlib.util.spec_from_file_location("assemble", TOP / "captures/assemble.py")
    module = importlib.util.module_from_spec(spec)
    spec.loader.exec_module(module)
    return module


ASSEMBLE = assembler()
SIZES = {**ASSEMBLE.SIZE, **ASSEMBLE.FILLED}


def assembled(name):
    """The bytes of a readable capture."""
    lines = (TOP / "captures" / (name + ".records")).read_text().split("\n")
    return b"".join(ASSEMBLE.assemble_line(line, lambda _: None) for line in lines)


def is_pair(capture):
    """A message of code 7 with L 4 to 96, and right behind it a whole M of its stream."""
    behind = capture[SIZES["P"]:]
    return (capture[:1] in (b"P", b"C") and 4 <= capture[2] <= 96 and capture[3:7] == bytes([0, 0, 0, 7])
            and len(behind) >= SIZES["M"] and behind[:2] == b"M" + capture[1:2])


def lent(capture):
    """How far each call reads, in order, and the bytes that it is lent: as many as the longest call reads, or all that are
    left. The last reads 0 where reading ends."""
    while capture:
        window = capture[:SIZES["P"] + SIZES["M"]]
        size = SIZES.get(chr(capture[0]), 0)
        if not 0 < size <= len(capture):
            yield 0, window
            return
        size += SIZES["M"] if is_pair(capture) else 0
        yield size, window
        capture = capture[size:]


def expected(name):
    """The first line of the text, the lines of each numbered call, the last line."""
    first, *lines, last = (TOP / "captures" / (name + ".text")).read_bytes().splitlines(keepends=True)
    calls = {}
    for line in lines:
        number = line.split(b" ")[0]
        calls[number] = calls.get(number, b"") + line
    return first, list(calls.values()), last


def antt_bytes(run):
    """A list of bytes, the zeros at its end as one word."""
    front = run.rstrip(b"\0")
    listed = "".join(f"{byte} ∷ " for byte in front) + "[]"
    return f"(({listed}) ++ replicate {len(run) - len(front)} 0)"


def text_claim(name):
    """That the capture prints its text; nothing where the text is not one of as many calls."""
    records, (first, texts, last) = list(lent(assembled(name))), expected(name)
    if len(records) != len(texts):
        return ""
    calls = " ∷ ".join([f"call {size} {antt_bytes(r)} {antt_bytes(w)}" for (size, r), w in zip(records, texts)] + ["[]"])
    return f"both (same_bytes title {antt_bytes(first)}) (replays fresh 0 0 ({calls}) {antt_bytes(last)})"


def fates_claim(name):
    """That the capture prints its fates."""
    records = " ∷ ".join([antt_bytes(record) for _, record in lent(assembled(name))] + ["[]"])
    return f"same_bytes (account (said fresh ({records}))) {antt_bytes((TOP / 'captures' / (name + '.fates')).read_bytes())}"


def claims_by_file():
    """Each expected text, and what is claimed for it."""
    for path in sorted((TOP / "captures").glob("*.records")):
        yield path.stem + "-text", text_claim(path.stem)
        if path.with_suffix(".fates").exists():
            yield path.stem + "-fates", fates_claim(path.stem)


def shut_names():
    """The definitions that the claims open, by crate and module."""
    for crate in BELOW[2:]:
        for path in sorted((TOP / "crates" / crate / "specs").glob("*.antt")):
            names = re.findall(r"^unfoldable pub (\S+)", path.read_text(), re.M)
            if names:
                yield crate, path.stem, names


def write_repository(here, claims):
    crate = here / "crates/replayed"
    for part in ("src", "specs", "proofs"):
        (crate / part).mkdir(parents=True)
    for name in BELOW:
        shutil.copytree(TOP / "crates" / name, here / "crates" / name, ignore=shutil.ignore_patterns("out"))
    lines = [line for line in (TOP / "crates.txt").read_text().splitlines() if line.split(":")[0] in BELOW]
    (here / "crates.txt").write_text("\n".join(lines + ["replayed: " + " ".join(BELOW)]) + "\n")
    (crate / "src/lib.rt").write_text("// Claims alone.\n#![tactic(auto)]\n")
    (crate / "specs/Lib.antt").write_text("-- none\n")
    (crate / "proofs/Lib.antt").write_text("pub mod Claims\n")
    shut = list(shut_names())
    uses = "\n".join(f"use Rattle.{crate}.specs.{module}.{{{', '.join(names)}}}" for crate, module, names in shut)
    opened = " ".join(["◌⇒◌∣◌"] + [name for _, _, names in shut for name in names])
    stated = [f"\n{name} : {claim} ≡ true\nunfolding {opened}\n{name} = refl\n" for name, claim in claims.items() if claim]
    text = CLAIMS.replace("USES", uses) + "".join(stated)
    (crate / "proofs/Claims.antt").write_text(text)


def run(*command, cwd):
    done = subprocess.run(command, cwd=cwd, stdout=subprocess.PIPE, stderr=subprocess.STDOUT, text=True)
    return done.returncode, done.stdout


def check(claims):
    """The exit status and the output of a check of the claims, or of what they speak of where that is not proved."""
    status, output = run("rt", "lib", cwd=TOP / "crates" / BELOW[-1])
    if status == 0:
        with tempfile.TemporaryDirectory() as here:
            write_repository(pathlib.Path(here), claims)
            status, output = run("rt", "check", cwd=here + "/crates/replayed")
    return status, output


def main():
    claims = dict(claims_by_file())
    names = list(claims)
    status, output = check(claims)
    refused = set(re.findall(r"Claims\.antt:\d+:\d+: error: `([^`]+)`", output))
    failed = [name for name in names if not claims[name] or name in refused]
    for name in failed:
        print(f"{name}: the definitions do not print it")
    if status != 0 and not refused & set(names):
        print(f"{output[-2000:]}the definitions could not be checked")
        failed = names
    print(f"{len(names) - len(failed)} passed, {len(failed)} failed")
    return 1 if failed else 0


if __name__ == "__main__":
    sys.exit(main())
