#!/usr/bin/env python3
"""faults.py [-j JOBS] [PATTERN]: put single faults into the definitions of crates/format/specs, one at a time, in a copy of the
repository, and check that the proofs of `format`, or else the theorems of `demands`, refuse each.
Not part of the gate (a minute for each fault). Prints one line a fault; exit status 1 if any survives."""
import concurrent.futures, os, re, shutil, subprocess, sys, tempfile

# file (below crates/format/specs), text, wrong text
FAULTS = [
    ("Bytes", "num (b ∷ bs) = num bs * 256 + b", "num (b ∷ bs) = num bs * 255 + b"),
    ("Bytes", "big_from a (b ∷ bs) = big_from (a * 256 + b) bs", "big_from a (b ∷ bs) = big_from (b * 256 + a) bs"),
    ("Bytes", "bytes n k s = cond (leb k (length s))", "bytes n k s = cond (ltb k (length s))"),
    ("Crc", "1) 0xEDB88320 0)", "1) 0xEDB88321 0)"),
    ("Crc", "crc32 bs = (2 ^ 32 - 1) - crc_from (2 ^ 32 - 1) bs", "crc32 bs = crc_from (2 ^ 32 - 1) bs"),
    ("Crc", "crc32 bs = (2 ^ 32 - 1) - crc_from (2 ^ 32 - 1) bs", "crc32 bs = (2 ^ 32 - 1) - crc_from 0 bs"),
    ("Packed", "cond (leb b 250)", "cond (leb b 251)"),
    ("Columns", "cond (eqb c 9) (int 3)", "cond (eqb c 9) (int 4)"),
    ("Columns", "cond (eqb c 252) blob other", "cond (eqb c 251) blob other"),
    ("Columns", "cond (eqb c 18) datetime", "cond (eqb c 18) timestamp"),
    ("Columns", "supported_kind year = true", "supported_kind year = false"),
    ("Columns", "supported_kind other = false", "supported_kind other = true"),
    ("Columns", "meta_size_of varchar = 2", "meta_size_of varchar = 1"),
    ("Columns", "meta_size_of date = 0", "meta_size_of date = 1"),
    ("Columns", "meta_allowed (float w) m = eqb m w", "meta_allowed (float w) m = true"),
    ("Columns", "meta_allowed timestamp m = leb m 6", "meta_allowed timestamp m = leb m 7"),
    ("Columns", "meta_allowed time m = leb m 6", "meta_allowed time m = leb m 5"),
    ("Columns", "meta_allowed blob m = leb 1 m && leb m 4", "meta_allowed blob m = leb m 4"),
    ("Columns", "shape_of varchar m = counted (cond (ltb m 256) 1 2) m", "shape_of varchar m = counted (cond (leb m 256) 1 2) m"),
    ("Columns", "shape_of varchar m = counted (cond (ltb m 256) 1 2) m", "shape_of varchar m = counted (cond (ltb m 256) 1 2) 65535"),
    ("Columns", "shape_of timestamp m = fixed (4 + (m + 1) / 2)", "shape_of timestamp m = fixed (4 + m / 2)"),
    ("Columns", "shape_of time m = fixed (3 + (m + 1) / 2)", "shape_of time m = fixed (4 + (m + 1) / 2)"),
    ("Columns", "shape_of date m = fixed 3", "shape_of date m = fixed 4"),
    ("Columns", "/ 2 ^ (i % 8) % 2", "/ 2 ^ (7 - i % 8) % 2"),
    ("Columns", "select (true ∷ bs) (x ∷ xs) = x ∷ select bs xs", "select (true ∷ bs) (x ∷ xs) = select bs xs"),
    ("Columns", "nots (b ∷ bs) = not b ∷ nots bs", "nots (b ∷ bs) = b ∷ nots bs"),
    ("Columns", "bit_bytes n = (n + 7) / 8", "bit_bytes n = (n + 8) / 8"),
    ("Values", "cond (ltb n (2 ^ (8 * w - 1)))", "cond (leb n (2 ^ (8 * w - 1)))"),
    ("Values", "unit f = 100 ^ (3 - f)", "unit f = 10 ^ (6 - f)"),
    ("Values", "frac_bytes m = (m + 1) / 2", "frac_bytes m = m / 2"),
    ("Values", "day (n / 2 ^ 9) (n / 2 ^ 5 % 2 ^ 4) (n % 2 ^ 5)", "day (n / 2 ^ 9) (n % 2 ^ 5) (n / 2 ^ 5 % 2 ^ 4)"),
    ("Values", "n / 2 ^ 22 / 13", "n / 2 ^ 22 / 12"),
    ("Values", "cond (leb off n) (time_size f (n - off) false)", "cond (ltb off n) (time_size f (n - off) false)"),
    ("Values", "let off : ℕ = 2 ^ (23 + 8 * f)", "let off : ℕ = 2 ^ (22 + 8 * f)"),
    ("Values", "a_year (cond (eqb (num b) 0) 0 (1900 + num b))", "a_year (1900 + num b)"),
    ("Values", "cond (eqb w 4) (bits32 (num b)) (bits64 (num b))", "cond (eqb w 4) (bits32 (num_big b)) (bits64 (num b))"),
    ("Values", "moment (num_big (take 4 b))", "moment (num (take 4 b))"),
    ("Values", "parts_allowed (day y m d) = leb m 12", "parts_allowed (day y m d) = leb m 13"),
    ("Values", "parts_allowed (moment s us) = ltb us 1000000", "parts_allowed (moment s us) = true"),
    ("Values", "leb h 838", "leb h 839"),
    ("Values", "parts_allowed (day_time y mo d h mi s us) = leb h 23", "parts_allowed (day_time y mo d h mi s us) = leb h 24"),
    ("Values", "reaches_offset datetime b = leb 0x8000000000 (num_big (take 5 b))", "reaches_offset datetime b = true"),
    ("Description", "is_digit_byte b = leb 48 b && leb b 57", "is_digit_byte b = leb 48 b && leb b 58"),
    ("Description", "run_of_digits (b ∷ bs) = cond (is_digit_byte b) (small (digits 2 (b - 48) bs)) no_run", "run_of_digits (b ∷ bs) = cond (is_digit_byte b) (small (digits 3 (b - 48) bs)) no_run"),
    ("Description", "cond (leb a 255) (run a bs) no_run", "cond (leb a 999) (run a bs) no_run"),
    ("Description", "eqb b 6 && leb 1 c", "eqb b 6 && leb 2 c"),
    ("Description", "ltb 5 a || (eqb a 5 && (ltb 6 b", "ltb 5 a || (eqb a 5 && (ltb 7 b"),
    ("Description", "leb 8 (get_or es 18 0)", "leb 7 (get_or es 18 0)"),
    ("Description", "leb 10 (get_or es 31 0)", "leb 8 (get_or es 31 0)"),
    ("Description", "entry d t = get_or d.entries (t - 1) 0", "entry d t = get_or d.entries t 0"),
    ("Description", "check 6 (leb 113 len && leb len 336)", "check 6 (leb 113 len && leb len 335)"),
    ("Description", "check 7 (version_allowed version)", "check 6 (version_allowed version)"),
    ("Description", "check 3 (eqb type 15)", "check 6 (eqb type 15)"),
    ("TableMap", "check 12 (leb 1 n.value && leb n.value 512)", "check 12 (leb 1 n.value && leb n.value 513)"),
    ("TableMap", "check 13 (all_of supported types)", "check 12 (all_of supported types)"),
    ("TableMap", "check 12 (eqb z 0)", "check 13 (eqb z 0)"),
    ("Rows", "check 18 (leb n m)", "check 17 (leb n m)"),
    ("Rows", "b ← bytes 17 w", "b ← bytes 18 w"),
    ("Rows", "value c = whole (value_as (shape c) c)", "value c = value_as (shape c) c"),
    ("Rows", "stored_columns cols used nulls = select (nots (bits (count used) nulls)) (select used cols)", "stored_columns cols used nulls = select used (select (nots (bits (length cols) nulls)) cols)"),
    ("Rows", "sides t = cond (eqb t 31) 2 1", "sides t = cond (eqb t 32) 2 1"),
    ("Rows", "check 16 (leb 1 (count (bits n u)))", "check 17 (leb 1 (count (bits n u)))"),
    ("Rows", "live missing s = bad 15 (length s)", "live missing s = bad 16 (length s)"),
    ("Rows", "check 16 (leb 2 size)", "check 12 (leb 2 size)"),
    ("Event", "header_size d t = cond (eqb t 4) 19 d.header", "header_size d t = d.header"),
    ("Event", "checksum_size d = cond (eqb d.kind 1) 4 0", "checksum_size d = cond (eqb d.kind 0) 4 0"),
    ("Event", "sum_value d front = cond (eqb d.kind 1) (crc32 front) 0", "sum_value d front = cond (eqb d.kind 1) (crc32 (drop 1 front)) 0"),
    ("Event", "check 10 (not (eqb type 15))", "check 11 (not (eqb type 15))"),
    ("Event", "check 5 (leb (header_size d type + checksum_size d) len)", "check 4 (leb (header_size d type + checksum_size d) len)"),
    ("Event", "leb 33 t && leb t 35", "leb 33 t && leb t 36"),
    ("Event", "leb 20 t && leb t 25", "leb 20 t && leb t 24"),
    ("Event", "ignorable flags = eqb (flags / 128 % 2) 1", "ignorable flags = eqb (flags / 64 % 2) 1"),
    ("Event", "unknown t = not (stepped_over t", "unknown t = not (eqb t 36 || stepped_over t"),
    ("Event", "ltb (length ls) 16", "ltb (length ls) 17"),
    ("Event", "live_after at ls (trows r) = cond (eqb (r.flags % 2) 1) [] ls", "live_after at ls (trows r) = ls"),
    ("Event", "live_after at ls (trows r) = cond (eqb (r.flags % 2) 1) [] ls", "live_after at ls (trows r) = cond (eqb r.flags 1) [] ls"),
    ("Event", "put x (l ∷ ls) = cond (eqb l.table.id x.table.id) (x ∷ ls) (l ∷ put x ls)", "put x (l ∷ ls) = cond (eqb l.table.id x.table.id) (l ∷ ls) (l ∷ put x ls)"),
    ("Walk", "placed n at from l k = cond (eqb n 18) (from + (l - k)) at", "placed n at from l k = at"),
    ("Walk", "(stop 14 at)", "(stop 13 at)"),
    ("Walk", "with_frame d ls at (bad n k) = stop n at", "with_frame d ls at (bad n k) = stop n 0"),
    ("Walk", "opened [] = refusal 3 4", "opened [] = refusal 4 4"),
    ("Walk", "described (bad n k) = refusal n 4", "described (bad n k) = refusal n 0"),
    ("Walk", "longest = 1073741824", "longest = 1073741823"),
    ("Walk", "(refusal 2 0)", "(refusal 2 4)"),
    ("Walk", "(refusal 1 0)", "(refusal 2 0)"),
    ("Answers", "event_count l = 1 + length l.events", "event_count l = length l.events"),
    ("Answers", "cells (c ∷ cs) (true ∷ us) (true ∷ ns) vs = null ∷ cells cs us ns vs", "cells (c ∷ cs) (true ∷ us) (true ∷ ns) vs = absent ∷ cells cs us ns vs"),
    ("Answers", "map_place = q; images", "map_place = p; images"),
    ("Answers", "start_of_rows m r = 10 + length r.post", "start_of_rows m r = 10"),
    ("Answers", "cond (eqb type 30) (cond (eqb side 1) (some 0) none)", "cond (eqb type 30) (cond (eqb side 0) (some 0) none)"),
    ("Answers", "(refused 20 0)", "(refused 19 0)"),
    ("Answers", "cond (leb (5 * length (changes l)) room)", "cond (leb (4 * length (changes l)) room)"),
    ("Answers", "change_from none = refused 19 0", "change_from none = refused 20 0"),
    ("Answers", "written (listed e c xs) old = xs ++ drop (length xs) old", "written (listed e c xs) old = old"),
    ("Parts", "c.map_place + d.header + 8 + length c.table.post + 1;", "c.map_place + d.header + 8 + length c.table.post;"),
    ("Parts", "length_bytes (counted k m) = k", "length_bytes (counted k m) = 1"),
    ("Parts", "text_size (text b) = some (length b)", "text_size (text b) = none"),
    ("AtEntry", "header_at s = get_or s 79 0", "header_at s = get_or s 75 0"),
    ("AtEntry", "place_of_side e side = cond (eqb side 0) e.before e.after", "place_of_side e side = cond (eqb side 0) e.after e.before"),
]

def attempt(k, file, old, new, root, lane):
    copy = lane
    path = os.path.join(copy, "crates/format/specs", file + ".antt")
    text = open(path).read()
    if text.count(old) != 1 or text[:text.index(old)].rsplit("\n", 1)[-1].startswith("--"):
        return "BAD: text not found once, or in a comment"
    open(path, "w").write(text.replace(old, new, 1))
    try:
        # a fault that `format` does not notice is left to the theorems, over a `format` built with it
        for crate in ("format", "demands"):
            folder = os.path.join(copy, "crates", crate)
            run = subprocess.run(["rt", "check"], cwd=folder, capture_output=True, text=True, env=dict(os.environ, LC_ALL="C"))
            out = run.stdout + run.stderr
            if "logic=not-proved" in out or run.returncode != 0:
                direct = re.findall(r"(?m)^(?:\./)?(?:proofs|specs)/([\w/]+)\.antt:\d+:\d+: error: `([^`]*)`: (?!.*was not admitted)", out)
                return "refused: " + ", ".join(dict.fromkeys(f"{m}.{n}" for m, n in direct))[:160] if direct else "refused"
        return "SURVIVED"
    finally:
        open(path, "w").write(text)

def main():
    args = sys.argv[1:]
    jobs = 1
    if args[:1] == ["-j"]:
        jobs = int(args[1]); args = args[2:]
    pattern = args[0] if args else ""
    root = subprocess.run(["git", "rev-parse", "--show-toplevel"], capture_output=True, text=True).stdout.strip()
    work = tempfile.mkdtemp(prefix="faults.")
    lanes = []
    for j in range(jobs):
        lane = os.path.join(work, str(j))
        shutil.copytree(root, lane, ignore=shutil.ignore_patterns(".git", "out", "target", "host", "bench"))
        lanes.append(lane)
    todo = [(k, f) for k, f in enumerate(FAULTS) if pattern in f[0] or pattern in f[1]]
    survived = 0
    def lane_run(j):
        bad = 0
        for n, (k, (file, old, new)) in enumerate(todo):
            if n % jobs != j:
                continue
            said = attempt(k, file, old, new, root, lanes[j])
            print(f"{file}: {new[:70]} -> {said}", flush=True)
            bad += not said.startswith("refused")
        return bad
    with concurrent.futures.ThreadPoolExecutor(jobs) as pool:
        survived = sum(pool.map(lane_run, range(jobs)))
    shutil.rmtree(work)
    print(f"{len(todo)} faults, {survived} not refused")
    sys.exit(1 if survived else 0)

main()
