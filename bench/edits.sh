#!/bin/sh
# Tries the wrong bodies of crates/NAME/must-fail and bench/edits/NAME, crate by crate, and keeps in docs/EDITS.md what came of each: the
# prover has to refuse it, and the table tells by which clause. With names of crates it tries theirs alone: `bench/edits.sh digraph match_core`.
# It takes up again where it stopped: what the table has is tried again only where the text of the crate, or of the edit, has changed.
#   --anew           tries all again
#   --table          tries none, and writes the table again (with what was never tried)
#   --whole          tries each on the whole crate at once
#   --room FOLDER    where the clone stands in which they are tried; it is kept for the next run
#   --rt WORDS       what runs in place of rt
#   --first WORDS    what runs in the clone in front of a crate's edits, with the crate's name behind it, such as a command that gives it libraries
# An edit inside of functions is tried on these alone first, by `rt check --only`: where one of them is refused, so is the crate. What that
# doesn't settle, `rt must-fail` tries on the whole crate.
# It tries what was committed last, and proves the crates below first where no earlier run on this machine has. It wants rt, git and python3.
# The whole takes some five hours of a processor; `sh bench/edits.sh >edits.log 2>&1 &` leaves it in the background, and `RT_JOBS=1` in front
# tries one at a time. Two runs with rooms and crates of their own can go side by side. What a crate's edits came to is written when all of
# them were tried. The gate doesn't run it.
set -eu
top=$(cd "$(dirname "$0")/.." && pwd)
exec nice python3 - "$top" "$@" <<'END'
import argparse, collections, fcntl, glob, hashlib, os, re, shlex, shutil, subprocess, sys, tempfile

Row = collections.namedtuple("Row", "came commit text")
NEVER, BAD, MISSED, EARLIER = "never tried", "**bad edit**", "**not refused**", "of an earlier text"
ANSWER = ", at an answer"
HEAD = "| crate | edit | refused by | commit | text |"

def text_of(path):
    with open(path, encoding="utf-8", errors="replace") as file:
        return file.read()

def options():
    parser = argparse.ArgumentParser(prog="bench/edits.sh")
    parser.add_argument("crates", nargs="*")
    parser.add_argument("--anew", action="store_true")
    parser.add_argument("--table", action="store_true")
    parser.add_argument("--whole", action="store_true")
    parser.add_argument("--room", default=f"{tempfile.gettempdir()}/p4x_edits_{os.getuid()}")
    parser.add_argument("--rt", default="rt")
    parser.add_argument("--first", default="")
    return parser.parse_args(sys.argv[2:])

# The edits of a repository.

def crates_of(top):
    lines = text_of(f"{top}/crates.txt").split("\n")
    return [line.split(":")[0] for line in lines if line.strip() and not line.startswith("#")]

def edits_of(top, crate):
    """The files of a crate's edits by their names, those of the gate and the further ones."""
    files = glob.glob(f"{top}/crates/{crate}/must-fail/*.edit") + glob.glob(f"{top}/bench/edits/{crate}/*.edit")
    return {os.path.basename(it)[: -len(".edit")]: it for it in sorted(files)}

def is_of_gate(file):
    return "/must-fail/" in file

def crate_text(top, crate):
    """A sum of what a crate is, without its edits."""
    made = hashlib.sha256()
    for part in ("src", "specs", "proofs"):
        for at, folders, names in os.walk(f"{top}/crates/{crate}/{part}"):
            folders.sort()
            for name in sorted(names):
                made.update(os.path.relpath(f"{at}/{name}", top).encode() + b"\0")
                with open(f"{at}/{name}", "rb") as file:
                    made.update(file.read())
    return made.hexdigest()

def row_text(sum_of_crate, file):
    return hashlib.sha256((sum_of_crate + text_of(file)).encode()).hexdigest()[:8]

def pairs_of(file):
    """The file, the old text and the new one of each change."""
    path, old, found = "", None, []
    for line in text_of(file).split("\n"):
        if line.startswith("file: "):
            path = line[len("file: ") :].strip()
        elif line.startswith("old: "):
            old = line[len("old: ") :]
        elif line.startswith("new:") and old:
            found.append((path, old, re.sub(r"\A ", "", line[len("new:") :])))
            old = None
    return found

def edited(top, crate, file):
    """The texts that an edit changes, or why it can't be."""
    texts = {}
    for path, old, new in pairs_of(file):
        if not os.path.isfile(f"{top}/crates/{crate}/{path}"):
            return {}, f"there is no `{path}`"
        text = texts.get(path) or text_of(f"{top}/crates/{crate}/{path}")
        if text.count(old) != 1:
            return {}, f"its old line stands {text.count(old)} times in `{path}`"
        texts[path] = text.replace(old, new)
    return texts, "" if texts else "it changes nothing"

# What rt says of an edit.

def function_at(text, line):
    """The function that a line is of, with its type, and its clauses."""
    lines = text.split("\n")
    begins = [n for n, it in enumerate(lines[:line], 1) if re.match(r"\s*(pub(\([^)]*\))? )?(const )?fn \w", it)]
    if not begins:
        return "", []
    line = begins[-1]
    name, clauses = re.search(r"\bfn (\w+)", lines[line - 1])[1], []
    for it in lines[line:]:
        if it.strip() in ("{", "}") or re.match(r"\s*(pub(\([^)]*\))? )?fn ", it):
            break
        clauses += re.findall(r"\bensures\b\s*\*?\s*(\w*)\s*\{", it)
    for it in reversed(lines[: line - 1]) if lines[line - 1].startswith(" ") else []:
        of = re.match(r"(?:unsafe )?(?:impl|trait)\b(?:<[^{]*?>)? ?(?:.*? for )?(\w+)", it)
        if of:
            return f"{of[1]}::{name}", clauses
    return name, clauses

def goal_said(goal, clauses):
    """The clause that a goal is of, where it is one of what a function ensures."""
    clause = re.search(r"clause-(\w+)$", goal)
    if clause:
        return f"clause `{clause[1]}`"
    if goal.startswith("returns") and len(clauses) == 1:
        return f"clause `{clauses[0]}`" if clauses[0] else "its one clause"
    return f"goal `{goal}`" if goal else "what it ensures"

def clauses_of(top, crate, name):
    """The clauses of the functions of a crate that have this name."""
    found = []
    for path in glob.glob(f"{top}/crates/{crate}/src/**/*.rt", recursive=True):
        text = text_of(path)
        begins = [n for n, it in enumerate(text.split("\n"), 1) if re.search(rf"\bfn {name}\b", it)]
        found += [it for n in begins for it in function_at(text, n)[1]]
    return found

def told(said, texts, top, crate):
    """What the first line of a refusal tells: the function, and the clause or the goal."""
    at = re.match(r"(?:note: )?(?:\./)?(\S+?):(\d+):\d+: ?(.*)", said)
    if not at:
        return "a goal that isn't told"
    path, line, rest = at[1], int(at[2]), at[3]
    named = re.search(r"`([\w-]+)`", rest)
    goal = named[1] if named else ""
    answers = re.match(r"proofs/(.*)/Answers\.antt$", path)
    if answers:
        name = answers[1].split("/")[-1]
        return f"`{answers[1].replace('/', '::')}`, {goal_said(goal, clauses_of(top, crate, name))}{ANSWER}"
    inside = f"{top}/crates/{crate}/{path}"
    name, clauses = function_at(texts.get(path) or text_of(inside) if os.path.isfile(inside) else "", line)
    if "what the function ensures" in rest:
        return f"`{name or path}`, {goal_said(goal, clauses)}"
    return f"`{name or path}`, " + (f"goal `{goal}`" if goal else "a goal that isn't told")

def came_to(said, texts, top, crate):
    """What rt's line of an edit comes to, or nothing where it wasn't tried."""
    if said.startswith("refused, as it must be (only because"):
        return f"a name that it takes away, and no clause: {told(said.split('): ', 1)[-1], texts, top, crate)}"
    if said.startswith("refused, as it must be (only by a limit"):
        return f"a limit of the prover, and no clause: {told(said.split('): ', 1)[-1], texts, top, crate)}"
    if said.startswith("refused, as it must be"):
        return told(said.partition(": ")[2], texts, top, crate)
    if said.startswith("NOT REFUSED"):
        return MISSED
    if said.startswith("BAD EDIT"):
        return f"{BAD}: {said.partition(': ')[2][:120].replace('|', '/')}"
    return ""

# The table.

def rows_of(path):
    """The rows that the table has, by crate and edit."""
    rows = {}
    for line in text_of(path).split("\n") if os.path.exists(path) else []:
        cells = [it.strip() for it in line.strip("|").split(" | ")] if line.startswith("| `") else []
        if len(cells) == 5 and cells[2] != NEVER:
            rows[cells[0].strip("` "), cells[1].strip("` *")] = Row(*cells[2:5])
    return rows

def row_line(crate, name, is_gate, row):
    mark = "*" if is_gate else ""
    return f"| `{crate}` | `{name}`{mark} | {row.came} | {row.commit} | {row.text} |"

def kind_of(came):
    if came == NEVER or came.startswith((BAD, MISSED)):
        return came.partition(":")[0]
    if came.startswith(("a name that", "a limit of")):
        return "by a name alone" if came.startswith("a name that") else "by a limit"
    return "at an answer" if came.endswith(ANSWER) else "refused"

def head_of(count, gate, crates):
    total = sum(count.values()) - count[EARLIER]
    return f"""# Wrong bodies

A wrong body, or edit, is a change of a line or two after which a function does something else than its contract says. The prover of the function's own crate has to refuse it: then the contract tells this body from the right one. The gate tries {gate} of them, those with a `*`, which stand in `crates/NAME/must-fail`. The others stand in `bench/edits/NAME`, since each costs the gate 10 to 20 seconds, and the first of a crate one more whole check of it.

`sh bench/edits.sh` tries them all and makes this table; with names of crates it tries theirs. An edit inside of functions is tried on these and what they call alone, once they are proved as they stand: where one of them is refused, so is the crate. The others are tried on the whole crate. It goes on where it stopped, and tries a row again only where the text of its crate or of the edit has changed. The sum of these two is its column "text": where it is another one today, the row tells of an earlier text, and is tried again by the next run.

The column "refused by" has the function and the clause of its contract, or the goal, that the first refusal names: the clause in which the wrong body shows first, and perhaps not the only one. "At an answer" is added where that goal has a proof of its own in `proofs/`, which doesn't prove it of the wrong body. A body that is refused for a name that it takes away, or by a limit of the prover, says little of the contract. One that isn't refused, or that is a bad edit, which can't be applied or read, is marked as such.

| | edits |
|---|---|
| refused by a clause or a goal | {count["refused"]} |
| the same, where a written answer no longer proves it | {count["at an answer"]} |
| refused for a name alone | {count["by a name alone"]} |
| refused by a limit alone | {count["by a limit"]} |
| not refused | {count[MISSED]} |
| bad edits | {count[BAD]} |
| never tried by this script | {count[NEVER]} |
| all, in {crates} crates | {total} |
| rows above that tell of an earlier text | {count[EARLIER]} |

{HEAD}
|---|---|---|---|---|
"""

def write_table(top, rows):
    lines, count, gate, crates = [], collections.Counter(), 0, 0
    for crate in crates_of(top):
        found, sum_of_crate = edits_of(top, crate), crate_text(top, crate)
        crates += bool(found)
        for name, file in sorted(found.items()):
            row = rows.get((crate, name), Row(NEVER, "", ""))
            why = "" if row.came != NEVER else edited(top, crate, file)[1]
            row = Row(f"{BAD}: {why}", "", "") if why else row
            lines.append(row_line(crate, name, is_of_gate(file), row))
            count[kind_of(row.came)] += 1
            count[EARLIER] += row.text not in ("", row_text(sum_of_crate, file))
            gate += is_of_gate(file)
    path = f"{top}/docs/EDITS.md"
    with open(f"{path}.new", "w", encoding="utf-8") as file:
        file.write(head_of(count, gate, crates) + "\n".join(lines) + "\n")
    os.replace(f"{path}.new", path)
    return count

# The tries.

def git(*words):
    return subprocess.run(["git", *words], check=True, stdout=subprocess.PIPE, stdin=subprocess.DEVNULL, text=True).stdout.strip()

def clone(top, room):
    """A clone of the last commit, kept from run to run; answers the commit."""
    commit = git("-C", top, "rev-parse", "HEAD")
    if not os.path.isdir(f"{room}/.git"):
        git("clone", "--quiet", "--no-checkout", top, room)
    git("-C", room, "fetch", "--quiet", "--force", top, "HEAD:refs/heads/tried")
    git("-C", room, "checkout", "--quiet", "--force", "--detach", commit)
    git("-C", room, "clean", "-fdq")
    return commit

def pending(top, crate, rows, anew):
    sum_of_crate = crate_text(top, crate)
    found = edits_of(top, crate)
    return {it: file for it, file in found.items() if anew or (crate, it) not in rows or rows[crate, it].text != row_text(sum_of_crate, file)}

def functions_of(room, crate, file):
    """The functions that an edit changes, by their paths below the crate, or none where a line of it stands outside of functions."""
    found = []
    for path, old, _ in pairs_of(file):
        text = text_of(f"{room}/crates/{crate}/{path}")
        name = function_at(text, text[: text.index(old)].count("\n") + 1)[0]
        if not path.startswith("src/") or not name:
            return []
        parts = path[len("src/") : -len(".rt")].split("/")
        found.append("::".join([*(it for it in parts if it not in ("lib", "main", "mod")), name]))
    return list(dict.fromkeys(found))

# What a check says of a text that it can't read, of a proof that names what is gone, and of a limit: must-fail tells these apart.
UNSETTLED = re.compile(r"error\[|is not in scope|has no field|has no `|is no name|operand is missing|expected the end|cannot continue|was not admitted|ran out of|outgrew|step limit")

def refusal(status, said):
    """The first line of a check that refuses a function, where it settles that an edit is refused."""
    lines = said.split("\n")
    if status != 1 or not any(re.match(r"only=\d+ proved=\d+", it) for it in lines):
        return ""
    told = [it for it in lines if re.match(r"(note: )?\S+:\d+:\d+:", it)]
    told = [it for it in told if ": error" in it or it.startswith("note: ")] or told
    return "" if not told or any(UNSETTLED.search(it) for it in told) else told[0][:160]

def check_alone(room, crate, functions, chosen):
    """The status and the words of a check of these functions of a crate, as it stands in the clone, and of those that they call."""
    words = [*shlex.split(chosen.rt), "check", "--jobs", "1", *(it for function in functions for it in ("--only", function))]
    ran = subprocess.run(words, cwd=f"{room}/crates/{crate}", stdin=subprocess.DEVNULL, stdout=subprocess.PIPE, stderr=subprocess.STDOUT, text=True, errors="replace")
    return ran.returncode, ran.stdout

def write_texts(room, crate, texts):
    for path, text in texts.items():
        with open(f"{room}/crates/{crate}/{path}", "w", encoding="utf-8") as file:
            file.write(text)

def proved_alone(room, crate, functions, chosen):
    """Those of these functions that a check finds by their names, where it proves them as they stand, or else none."""
    while functions:
        status, said = check_alone(room, crate, functions, chosen)
        unknown = set(re.findall(r"has no function `([^`]+)`", said)) & set(functions)
        if not unknown:
            return [] if status else functions
        functions = [it for it in functions if it not in unknown]
    return []

def tried_alone(room, crate, edits, texts, chosen):
    """What a check of its functions says of each edit that is refused by it, where they are proved as they stand, as rt says it of the crate."""
    said, changed = {}, {it: functions_of(room, crate, file) for it, file in edits.items()}
    proved = set(proved_alone(room, crate, list(dict.fromkeys(sum(changed.values(), []))), chosen))
    changed = {it: functions for it, functions in changed.items() if proved >= set(functions)}
    for name in filter(changed.get, edits):
        were = {path: text_of(f"{room}/crates/{crate}/{path}") for path in texts[name][0]}
        write_texts(room, crate, texts[name][0])
        line = refusal(*check_alone(room, crate, changed[name], chosen))
        write_texts(room, crate, were)
        if line:
            said[name] = f"refused, as it must be: {line}"
            print(f"{crate}/{name}: {line}", flush=True)
    return said

def tried(room, crate, edits, chosen):
    """What rt says of each of these edits of a crate, in the clone."""
    folder = f"{room}/crates/{crate}/must-fail"
    files = {it: text_of(file) for it, file in edits.items()}
    shutil.rmtree(folder, ignore_errors=True)
    os.makedirs(folder)
    for name, text in files.items():
        with open(f"{folder}/{name}.edit", "w", encoding="utf-8") as file:
            file.write(text)
    words = [*shlex.split(chosen.rt), "must-fail", *(["--anew"] if chosen.anew else []), crate]
    ran = subprocess.run(words, cwd=room, stdin=subprocess.DEVNULL, stdout=subprocess.PIPE, stderr=subprocess.STDOUT, text=True, errors="replace")
    print(ran.stdout, end="", flush=True)
    git("-C", room, "checkout", "--quiet", "--force", "HEAD", "--", "crates")
    git("-C", room, "clean", "-fdq", "crates")
    lines = re.findall(rf"^rt: must-fail {crate}/(\S+)\.edit: (.*)$", ran.stdout, re.M)
    return {name: said for name, said in lines if name in files}

def try_crate(room, crate, rows, commit, chosen):
    edits = pending(room, crate, rows, chosen.anew)
    texts = {it: edited(room, crate, file) for it, file in edits.items()}
    sum_of_crate = crate_text(room, crate)
    sums = {it: row_text(sum_of_crate, file) for it, file in edits.items()}
    bad = {it: Row(f"{BAD}: {texts[it][1]}", commit[:8], sums[it]) for it in edits if texts[it][1]}
    good = {it: edits[it] for it in edits if it not in bad}
    if good and chosen.first:
        subprocess.run([*shlex.split(chosen.first), crate], cwd=room, stdin=subprocess.DEVNULL)
    said = {} if chosen.whole else tried_alone(room, crate, good, texts, chosen)
    left = {it: file for it, file in good.items() if it not in said}
    said |= tried(room, crate, left, chosen) if left else {}
    came = {it: came_to(said[it], texts[it][0], room, crate) for it in said}
    made = {it: Row(came[it], commit[:8], sums[it]) for it in came if came[it]}
    return {(crate, it): row for it, row in {**bad, **made}.items()}, len(good) - len(made)

def put(top, path, made):
    """Puts these rows into the table, which another run may have written meanwhile."""
    folder = os.open(os.path.dirname(path), os.O_RDONLY)
    try:
        fcntl.flock(folder, fcntl.LOCK_EX)
        rows = {**rows_of(path), **made}
        return rows, write_table(top, rows)
    finally:
        os.close(folder)

def main():
    top, chosen = sys.argv[1], options()
    known, path = crates_of(top), f"{top}/docs/EDITS.md"
    wrong = [it for it in chosen.crates if it not in known]
    if wrong:
        sys.exit(f"bench/edits.sh: there is no crate {wrong[0]}")
    rows, left = rows_of(path), 0
    for it in sorted(set(os.listdir(f"{top}/bench/edits")) - set(known)):
        print(f"bench/edits/{it}: there is no such crate, so these edits aren't tried")
    if not chosen.table:
        with open(f"{chosen.room.rstrip('/')}.lock", "w") as lock:
            fcntl.flock(lock, fcntl.LOCK_EX)
            commit = clone(top, chosen.room)
            for crate in chosen.crates or known:
                if not pending(chosen.room, crate, rows, chosen.anew):
                    continue
                print(f"== {crate}", flush=True)
                made, without = try_crate(chosen.room, crate, rows, commit, chosen)
                left += without
                rows, count = put(top, path, made)
    rows, count = put(top, path, {})
    print(", ".join(f"{kind.strip('*')} {count[kind]}" for kind in sorted(count)) + (f"; {left} of this run came to nothing" if left else ""))
    sys.exit(1 if left or count[MISSED] or count[BAD] else 0)

main()
END
