"""The forms of rows of words: what they ask for, how they are refused, which jobs they choose; and where jobs of lists begin."""
import hashlib
import re

import images
from rows import Form, job_count, lines, lines_in, squeezed
from saved import report_bytes

# Images that exit by codes 5 and 6 after two steps, and two that never end.
EXIT, OTHER_EXIT = "one", "code 00600513 X"
LOOP, OTHER_LOOP = "code 0000006f", "code 00000013 0000006f"
IMAGES = {"a.elf": EXIT, "b.elf": EXIT, "loop.elf": LOOP, "fw/a.elf": OTHER_EXIT, "fw/loop.elf": OTHER_LOOP}


def job(name, image, budget, keys=""):
    return f"[[job]]\nname = '{name}'\nimage = '{image}'\nbudget = {budget}\n{keys}\n"


def jobs(names):
    """Jobs that pass."""
    return "".join(job(name, "a.elf", 9, "expect_exit = 5") for name in names)


# ---- good words

# Of these lists the first stands under two names; its check fails where no lenient rule holds, and uart2 has no image in fw. Every job
# of code 5 needs a budget of 3. In same.toml one job names the other.
LIST = jobs(["uart"]) + job("uart2", "b.elf", 9, "expect_exit = 5") + jobs(["spi", "--x"]) + job("check", "a.elf", 9)
SAME = job("a", "a.elf", 9, "expect_exit = 5") + job("b", "b.elf", 9, "same_as = 'a'")
LISTS = {"a.toml": LIST, "run": LIST, "-odd.toml": job("odd", "a.elf", 9), "loop.toml": job("uart", "loop.elf", 20), "same.toml": SAME, "table": "rvcounts 1\ndone 0 3\n"}
REPORTS = {
    "old.txt": "$1 spi, end exit 1\ndone 1",
    "one": "$1 a\npart 1 of 1 shard 1/1 stamp r",
    "half1": "$1 a\npart 1 of 2 shard 1/2 stamp r",
    "half2": "$2 b\npart 1 of 2 shard 2/2 stamp r",
    "third1": "$1 a\npart 1 of 2 shard 1/3 stamp r",
    "third2": "$2 b, end exit 1\npart 1 of 2 shard 2/3 stamp r",
    "third3": "part 0 of 2 shard 3/3 stamp r",
    "old": "$1 a, steps 6\ndone 1",
    "new": "$1 a\ndone 1",
    "report": "$1 a, end exit 1\ndone 1",
}


def write_all(row):
    """Makes the images, lists and reports that words name."""
    for folder in ("fw", "out"):
        (row.folder / folder).mkdir()
    for name, words_of_image in IMAGES.items():
        row.write(name, images.image(words_of_image))
    for name, text in LISTS.items():
        row.write(name, text)
    for name, text in REPORTS.items():
        row.write(name, report_bytes(text))


def check_words(row):
    """The status of words, what goes out, what is said, and files that are written, each with its last line."""
    words = row["words"]
    write_all(row)
    out = report_bytes(row["shown"]) if row["shown"] else ""
    shape = squeezed if words.startswith("explain") else bytes
    row.wants(words.split(), int(row["status"]), out, lines(*lines_in(row["said"])), shape)
    for name, last in (file.split(": ") for file in lines_in(row["files"])):
        found = (row.folder / name).read_text(encoding="utf-8").splitlines()[-1]
        row.assertEqual(last, found, f"the last line of {name}")


def check_full_disk(row):
    """What is said where standard output takes no byte, and which files are there all the same."""
    write_all(row)
    words = row["words"].split()
    status, said = row.run_onto_full_disk(words)
    wanted = lines(*lines_in(row["said"]), "rvtest: standard output: write failed").encode()
    if (status, said) != (3, wanted):
        row.fails(words, (3, b"", wanted), (status, b"", said))
    for name in row["not_there"].split():
        row.assertFalse((row.folder / name).exists(), f"{name} exists")


# ---- words that are refused, and help

def check_misused(row):
    """With what the refusal of words begins, and what it says among other things."""
    words, begin, others = row["words"].split(), row["begins"], lines_in(row["has"])
    row.write("list.toml", job("a", "a.elf", 9))
    status, out, said = row.start(words)
    told = said.decode()
    framed = told.startswith(f"error: {begin}") and told.endswith("\n\nFor more information, try '--help'.\n")
    if (status, out) != (2, b"") or not framed or not all(other in told for other in others):
        row.fails(words, (2, b"", f"error: {begin}.. {'.. '.join(others)}".encode()), (status, out, said))


def check_help(row):
    """The lines that are shown for words of one meaning."""
    for words in lines_in(row["words"]):
        row.wants(words.split(), 0, lines(row["shown"]))


# ---- choices

def check_choice(row):
    """Which jobs words choose, where these failed in a report; the status, and what is said: by `run`, and by `list` if it has the words."""
    row.write("a.elf", images.image(EXIT))
    row.write("list.toml", jobs(row["jobs"].split()))
    rows = [f"${number} {name}, end exit 1" for number, name in enumerate(row["failed"].split(), 1)]
    row.write("report", report_bytes("\n".join([*rows, f"done {len(rows)}"])))
    names = row["chosen"].split()
    out = [f"PASS {name}: exit 5 after 2 steps" for name in names]
    out.append(f"{job_count(len(names))}: {len(names)} passed, 0 failed, {2 * len(names)} steps")
    said = lines(f"rvtest: {row['said']}") if row["said"] else ""
    words, status = row["words"].split(), int(row["status"])
    row.wants(["run", "list.toml", "--verbose", *words], status, lines(*out) if names else "", said)
    if "--shard" not in words:
        row.wants(["list", "list.toml", *words], status, lines(*names) if names else "", said)


# ---- rows that are put into a report

def check_into(row):
    """What the words of a run make of a report that was there; the status, what is said, and the jobs in JUnit's XML if it is asked for."""
    row.write("a.elf", images.image(EXIT))
    row.write("list.toml", jobs(row["jobs"].split()))
    old = report_bytes(row["old"])
    row.write("report", old)
    words, said = row["words"].split(), lines(*lines_in(row["said"]))
    row.wants(["run", "list.toml", *words], int(row["status"]), lines(*lines_in(row["shown"])), said)
    then = report_bytes(row["then"]) if row["then"] else old
    if (found := (row.folder / "report").read_bytes()) != then:
        row.fails(words, (0, then, b"report"), (0, found, b"report"))
    if row["whole"]:
        row.start(["run", "list.toml", "--quiet", "--report", "whole"])
        if (whole := (row.folder / "whole").read_bytes()) != found:
            row.fails(words, (0, whole, b"whole"), (0, found, b"report"))
    junit = row.folder / "junit.xml"
    cases = re.findall('<testcase classname="list" name="([^"]*)"', junit.read_text(encoding="utf-8")) if junit.exists() else []
    row.assertEqual(row["junit"].split(), cases, "the jobs of junit.xml")


# ---- known failures

KNOWN_LIST = (jobs(["good"]) + job("bad", "a.elf", 9, "expect_exit = 4") + job("plain", "a.elf", 9)
              + job("cut", "list.toml", 9))


def check_known(row):
    """The status of a run with a file of known failures, what goes out and is said, and what JUnit's file has among other things."""
    row.write("a.elf", images.image(EXIT))
    row.write("list.toml", KNOWN_LIST)
    row.write("known.txt", row["known"])
    words = ["run", "list.toml", "--known", "known.txt", "--junit", "j.xml", *row["words"].split()]
    row.wants(words, int(row["status"]), lines(*lines_in(row["shown"])), lines(*lines_in(row["said"])))
    for part in lines_in(row["junit"]):
        row.assertIn(part, (row.folder / "j.xml").read_text(encoding="utf-8"))


# ---- runs that end behind a failure

def check_stopped(row):
    """What goes out of a run that ends behind a failure, its status and the end of its report, by several numbers of workers and of jobs
    that each takes at once."""
    row.write("a.elf", images.image(EXIT))
    row.write("list.toml", "".join(job(name, "a.elf", 9, f"expect_exit = {4 if name[0] == 'f' else 5}") for name in row["jobs"].split()))
    for crew in ([], ["--workers", "1"], ["--workers", "2", "--group", "3"]):
        words = ["run", "list.toml", "--report", "report", *row["words"].split(), *crew]
        row.wants(words, int(row["status"]), lines(*lines_in(row["shown"])), "")
        last = (row.folder / "report").read_text(encoding="utf-8").splitlines()[-1]
        row.assertEqual(row["last"], last, f"the last line of the report, with {' '.join(crew) or 'no option'}")


# ---- sums of counts

def check_added(row):
    """The status of words over tables of counts, what goes out and is said, and what stands in the file out."""
    row.write("list.toml", jobs(["a"]))
    for name in "abc":
        row.write(name, row[name])
    row.wants(row["words"].split(), int(row["status"]), row["shown"], lines(*lines_in(row["told"])))
    out = row.folder / "out"
    found = out.read_text(encoding="utf-8") if out.exists() else ""
    row.assertEqual(row["out"], found, "the file out")


# ---- counts

def check_counted(row):
    """The status of a run that counts, and its table; the report and what is shown are as without it."""
    write_counted_jobs(row)
    words = ["run", "list.toml", *row["words"].split()]
    plain, report = ([], []) if "--budget" in words else (["--report", "plain"], ["--report", "report"])
    status, shown, told = row.start([*(word for word in words if word != "--stacks"), *plain])
    row.wants([*words, *report, "--counts", "counts"], int(row["status"]), shown, told)
    if report and (row.folder / "report").read_bytes() != (row.folder / "plain").read_bytes():
        row.fail("--counts changed the report")
    found = (row.folder / "counts").read_text(encoding="utf-8")
    row.assertEqual(table_of_counts(row, lines_in(row["counts"])), found, "the table of counts")
    row.wants([*words, "--counts", "-"], int(row["status"]), found, told + shown)


def write_counted_jobs(row):
    """Makes the images and the list that rows state by a line a job."""
    made = {}
    for line in lines_in(row["jobs"]):
        name, *words = line.split()
        if words[0] == "=":
            made[name] = words[1]
        elif words[0] != "gone":
            row.write(f"{name}.elf", images.image(" ".join(words)))
    keys = "\n".join(lines_of_keys(row["keys"]))
    row.write("list.toml", "".join(f"[[job]]\nname = '{line.split()[0]}'\nimage = '{made.get(line.split()[0], line.split()[0])}.elf'\n{keys}\n"
                                   for line in lines_in(row["jobs"])))


def lines_of_keys(keys):
    return [key.strip() for key in keys.split(",")]


def table_of_counts(row, stated):
    """The table that lines state, with its images in the order of their digests."""
    parts = []
    for line in stated[:-1]:
        if line.startswith("image ") and len(line.split()) == 3:
            parts.append([line])
        elif line.startswith("image "):
            name = line.split()[1]
            digest = hashlib.sha256((row.folder / f"{name}.elf").read_bytes()).hexdigest()
            parts.append([f"image {digest} {name}.elf"])
        else:
            parts[-1].append(line)
    return "\n".join(["rvcounts 1", *(line for part in sorted(parts) for line in part), stated[-1]]) + "\n"


# ---- what ran of images

def check_covered(row):
    """What `cover` shows and says, by a run and by the table of one; or by a table that is stated, in which an image may have a digest."""
    write_counted_jobs(row)
    words, said = row["words"].split(), lines(*lines_in(row["said"]))
    if row["table"]:
        row.write("table", table_of_counts(row, lines_in(row["table"])))
        words += ["--counts", "table"]
    row.wants(["cover", "list.toml", *words], int(row["status"]), lines(*lines_in(row["shown"])), said, squeezed)
    if not row["table"]:
        row.start(["run", "list.toml", *(word for word in words if word != "--csv"), "--counts", "counts"])
        row.wants(["cover", "list.toml", *words, "--counts", "counts"], int(row["status"]), lines(*lines_in(row["shown"])), said, squeezed)


# ---- where steps were

def check_profiled(row):
    """What `profile` shows and says, by a run and by the table of one; or by a table that is stated, in which an image may have a digest."""
    write_counted_jobs(row)
    words, shown, said = row["words"].split(), lines(*lines_in(row["shown"])), lines(*lines_in(row["said"]))
    if row["table"]:
        row.write("table", table_of_counts(row, lines_in(row["table"])))
        words += ["--counts", "table"]
    row.wants(["profile", "list.toml", *words], int(row["status"]), shown, said, squeezed)
    if not row["table"]:
        row.start(["run", "list.toml", *words_of_run(words), "--counts", "counts", "--stacks"])
        if (row.folder / "counts").exists() and "spot " in (row.folder / "counts").read_text(encoding="utf-8"):
            row.wants(["profile", "list.toml", *words, "--counts", "counts"], int(row["status"]), shown, said, squeezed)


def words_of_run(words):
    """The words by which `run` runs the jobs that these words of `profile` choose."""
    words = ["--only", *words] if words and words[0][0] != "-" else words
    return [word for place, word in enumerate(words) if word not in ("--csv", "--top") and words[place - 1:place] != ["--top"]]


# ---- lines

def check_lines(row):
    """The lines on which the jobs of a list begin, which are all refused."""
    row.write("f.toml", row["list"])
    told = [f"f.toml:{line}: job {number}" for number, line in enumerate(row["begins"].split(), 1)]
    row.wants(["check", "f.toml"], 2, "\n".join(told), shape=fronts)


def fronts(out):
    """The line and the number of each job, from the first line that tells of it; of a line that tells of no job nothing."""
    places = {}
    for line, number in re.findall(rb"^f\.toml:([0-9]+):[0-9]+: error: job ([0-9]+)", out, re.MULTILINE):
        places.setdefault(number, b"f.toml:%s: job %s" % (line, number))
    return b"\n".join(places.values())


FORMS = {
    "added": Form(check_added, "words status shown told out a b c"),
    "choices": Form(check_choice, "jobs words failed status chosen said"),
    "counted": Form(check_counted, "jobs keys words status counts"),
    "covered": Form(check_covered, "jobs keys words table status shown said"),
    "full": Form(check_full_disk, "words said not_there"),
    "help": Form(check_help, "words shown"),
    "into": Form(check_into, "jobs words old status shown said then whole junit"),
    "known": Form(check_known, "known words status shown said junit"),
    "lines": Form(check_lines, "list begins"),
    "misused": Form(check_misused, "words begins has"),
    "profiled": Form(check_profiled, "jobs keys words table status shown said"),
    "stopped": Form(check_stopped, "jobs words status shown last"),
    "words": Form(check_words, "words status shown said files"),
}
