"""What tests/export.sh tests. Its last line counts what passed and failed.

Usage: export.py PROGRAM"""

import collections
import copy
import glob
import os
import random
import re
import subprocess
import sys
import tempfile

import accumulo
import images
import interleavings

PROGRAM = sys.argv[1]
HERE = os.path.dirname(os.path.abspath(__file__))
passed = failed = 0


def count(name, good, told=""):
    global passed, failed
    if good:
        passed += 1
    else:
        failed += 1
        print("FAILED: %s %s" % (name, str(told)[:600]), flush=True)


def run(words, lines=b""):
    return subprocess.run([PROGRAM, *words], input=lines, stdout=subprocess.PIPE, stderr=subprocess.PIPE, timeout=300)


def saved(name, lines):
    """The image that is there behind these lines."""
    ran = run(["script"], lines + b"\nas root\nsave " + name.encode() + b"\n")
    assert ran.returncode == 0 and ran.stdout.endswith(b"ok\n"), (name, ran.stdout[-200:], ran.stderr[-200:])
    with open(name, "rb") as file:
        return file.read()


def is_plain(byte):
    return 0x21 <= byte <= 0x7E and byte != 0x5C


def word(data):
    return b"".join(bytes([b]) if is_plain(b) else b"\\\\" if b == 0x5C else b"\\x%02x" % b for b in data) or b"\\e"


def newest(folder):
    """The newest image of a store's folder, beside which its checksum lies."""
    numbers = [name.partition(".")[2] for name in os.listdir(folder) if name.startswith("image.")]
    return "%s/image.%d" % (folder, max(int(number) for number in numbers if number.isdigit()))


def goes_round(name, path):
    """The image in the file, or in the folder, and what its lines make again are the same."""
    file = path if os.path.isfile(path) else newest(path)
    with open(file, "rb") as held:
        wanted = images.unnumbered(images.read(held.read()))
    lines = run(["export", path])
    if lines.returncode != 0 or lines.stderr:
        return count(name, False, lines)
    ran = run(["script"], lines.stdout + b"save again\n")
    answers = ran.stdout.split(b"\n")
    if ran.returncode != 0 or set(answers) != {b"ok", b""}:
        return count(name, False, [(a, b) for a, b in zip(answers, lines.stdout.split(b"\n")) if a != b"ok"][:3])
    with open("again", "rb") as held:
        found = images.unnumbered(images.read(held.read()))
    count(name, found == wanted, difference(found, wanted))
    again = run(["export", "again"]).stdout
    count(name + ", and its lines are the same", again == lines.stdout, "")


def difference(found, wanted):
    for key in wanted:
        if found[key] != wanted[key]:
            pairs = [(f, w) for f, w in zip(found[key], wanted[key]) if f != w] if isinstance(wanted[key], list) else []
            return key, (pairs[:1] or (found[key], wanted[key]))
    return ""


def cases():
    """Each of the scripts of tests/cases, as it ends."""
    for path in sorted(glob.glob(HERE + "/cases/*.txt")):
        with open(path, "rb") as file:
            parts = re.split(rb"(?m)^# .*\n", file.read())
        for at, part in enumerate(parts[1:]):
            lines = [line[2:] for line in part.split(b"\n") if line.startswith(b"> ")]
            name = "%s %d" % (os.path.basename(path), at)
            try:
                saved("case", b"\n".join(lines))
            except AssertionError as fault:
                count(name, False, fault)
                continue
            goes_round(name, "case")


def drawn():
    """Lines in any order, as tests/interleavings.py draws them."""
    for seed, length in [(900, 3000)] + [(seed, 150) for seed in range(901, 925)]:
        store = interleavings.Store()
        lines = []
        for line in interleavings.steps(seed, length, store):
            store.ask(line)
            lines.append(line)
        saved("drawn", "\n".join(lines).encode())
        goes_round("script %d" % seed, "drawn")


def any_bytes(pick, limit):
    return bytes(pick.randrange(256) for _ in range(pick.randrange(limit)))


LABELS = [b"\\e", b"A", b"B", b"A&B", b"A|(B&C)", b'"\\x20\\\\"\\x20"', b'"\\xff"', b"x/y", b"-l", b"A,B"]


def everything(seed):
    """Lines of all kinds: users and rights, tables of both time modes, bytes of every kind, moments before and behind 0, one mutation with
    several updates of one column, and what is set behind the records."""
    pick = random.Random(seed)
    at = pick.choice([-(2**63), -5, 0, 7, 2**62])
    lines = [b"at %d" % at, b"setauths root A,B,C,x/y,\\xff,\\x20\"\\x20,-l"]
    users = [b"ann", b"bob", b"-x.y_"]
    for user in users:
        lines.append(b"createuser " + user)
        lines.append(b"setauths %s %s" % (user, pick.choice([b"\\0", b"A", b"A,B,\\x2c,\\x3a,\\x00,\\xff,\\x22\\x27"])))
        for right in [b"CREATE_TABLE", b"DROP_TABLE", b"ALTER_TABLE", b"CREATE_USER", b"DROP_USER", b"ALTER_USER", b"SYSTEM"]:
            if pick.random() < 0.3:
                lines.append(b"grant %s %s" % (user, right))
    tables = [(b"any", b"time=any"), (b"given.T", b"time=server"), (b"Given-2", b"time=server"), (b"empty", b"time=any")]
    for table, time in tables:
        lines.append(b"createtable %s %s versions=%d" % (table, time, pick.choice([1, 2, 1000])))
        for user in users + [b"root"]:
            for right in [b"READ", b"WRITE", b"ALTER_TABLE", b"GRANT", b"DROP_TABLE"]:
                if user != b"root" and pick.random() < 0.4:
                    lines.append(b"grant %s %s %s" % (user, right, table))
        for row in {word(any_bytes(pick, 4)) for _ in range(pick.randrange(4))}:
            lines.append(b"addsplit %s %s" % (table, row))
    rows = [word(any_bytes(pick, 5)) for _ in range(6)]
    for _ in range(120):
        if pick.random() < 0.3 and at < 2**63 - 10:
            at += pick.randrange(4)
            lines.append(b"at %d" % at)
        table, time = tables[pick.randrange(3)]
        stamp = b"-" if time == b"time=server" else b"%d" % pick.choice([-(2**63), -3, 0, 1, 1, 2, 2**63 - 1])
        updates = []
        for _ in range(pick.choice([1, 1, 1, 2, 5])):
            column = b"%s %s %s" % (pick.choice([b"f", b"\\e", b'"']), pick.choice([b"q", b"\\e", b"'\\\\"]), pick.choice(LABELS[:8]))
            updates.append(b"put %s %s %s" % (column, word(any_bytes(pick, 9)), stamp) if pick.random() < 0.75 else b"del %s %s" % (column, stamp))
        lines.append(b"mutate %s %s %s" % (table, pick.choice(rows), b" ; ".join(updates)))
        if pick.random() < 0.05:
            lines.append(pick.choice([b"flush any", b"compact any partial", b"compact given.T full", b"versions any 1"]))
    lines += [b"constraints any keysize,alphanum,numeric,visibility", b"constraints Given-2 numeric", b"horizon any %d" % pick.choice([-3, 1, 2**63 - 1])]
    for table, _ in tables:
        for right in [b"GRANT", b"READ", b"WRITE", b"ALTER_TABLE", b"DROP_TABLE"]:
            if pick.random() < 0.4 or seed % 5 == 0:
                lines.append(b"revoke root %s %s" % (right, table))
    lines.append(b"at %d" % pick.choice([at, at + 3]))
    lines.append(b"setauths ann \\0" if pick.random() < 0.5 else b"rights nothing")
    return b"\n".join(lines)


def large():
    """Parts of the greatest length, and more records than a block of the writer holds."""
    mebibyte = 1_048_576
    lines = [b"createtable t", b"addsplit t " + b"k" * mebibyte, b"insert t %s f q \\e %s 5" % (b"r" * mebibyte, b"\\x00" * mebibyte)]
    lines += [b"insert t s %s %s \\e v" % (b"f" * mebibyte, b"\\\\" * mebibyte), b'insert t s f q "%s" v' % (b"l" * (mebibyte - 2))]
    lines += [b"createtable g time=server"]
    for at in range(20_000):
        lines += [b"at %d" % (at // 3), b"insert %s row%05d f q \\e value%d" % (b"tg"[at % 2 : at % 2 + 1], at * 7919 % 20_000, at)]
    saved("large", b"\n".join(lines))
    goes_round("parts of the greatest length, and 20,000 records", "large")


def first_version(data):
    """The bytes of the image in the first version, which has no horizons: of one that has none."""
    image = images.read(data)
    assert all(table["horizon"] == -(2**63) for table in image["tables"])
    horizon = (-(2**63)).to_bytes(8, "big", signed=True)
    reader, cuts = images.Reader(data), []
    reader.take(8 + 16)
    reader.list(reader.user)
    for _ in range(reader.number("I")):
        reader.field()
        reader.take(6)
        cuts.append(reader.at)
        assert reader.take(8) == horizon
        reader.list(reader.right), reader.list(reader.field), reader.list(reader.record, "Q")
    for cut in reversed(cuts):
        data = data[:cut] + data[cut + 8 :]
    return data[:6] + b"\x00\x01" + data[8:]


def versions():
    """An image of the first version."""
    lines = everything(4).split(b"\n")
    data = first_version(saved("second", b"\n".join(line for line in lines if not line.startswith(b"horizon "))))
    with open("first", "wb") as file:
        file.write(data)
    goes_round("the first version", "first")
    told = run(["inspect", "first"]).stdout
    count("the first version is told", b"\nversion 1\n" in told, told[:100])


def folder():
    """The folder of a store: its newest image, of which the lines behind it are told."""
    run(["script", "--store", "kept"], everything(3))
    goes_round("a folder", "kept")


def spelled(items):
    return b",".join(word(item).replace(b",", b"\\x2c") for item in items) or b"\\0"


def cell(line):
    """The cell of a scan's line, as a key of five parts and its value."""
    parts = [b"" if part == b"\\e" else re.sub(rb"\\(\\|x(..))", lambda m: bytes.fromhex(m[2].decode()) if m[2] else b"\\", part) for part in line.split(b" ")]
    return (parts[0], parts[1], parts[2], parts[3], int(parts[4])), parts[5]


def seen_here(name, image):
    """What each user's scan of each table shows here, under all that they hold; None where they may not read it."""
    seen, lines, order = {}, [b"at %d" % image["clock"]], []
    for user in image["users"]:
        lines.append(b"as " + user["name"])
        for table in image["tables"]:
            lines.append(b"scan %s %s" % (table["name"], spelled(user["auths"])))
            order.append((user["name"], table["name"]))
    told = run(["script", "--image", name], b"\n".join(lines)).stdout.split(b"\n")
    for key in order:
        seen[key] = None if told[0].startswith(b"refused 3 ") else []
        while seen[key] is not None and told[0] != b"end":
            seen[key].append(cell(told.pop(0)))
        told.pop(0)
    assert told == [b""], told[:3]
    return seen


def carried(name, lines, left, cluster=None):
    """What these lines leave goes over into the cluster: nobody sees more there than here, and where nothing is left out just as much. So many
    things are left out: each a comment, counted, and the status says so. What was in the cluster before stays as it was."""
    data = saved("shell", lines)
    image = images.read(data)
    cluster = cluster or accumulo.Cluster()
    before = copy.deepcopy(cluster)
    ran = run(["export", "--accumulo", "shell"])
    comments = [line for line in ran.stdout.split(b"\n") if line.startswith(b"# left out, ")]
    count("%s: %d left out" % (name, left), len(comments) == left, comments)
    note = b'left out: %d; each is a comment that begins "# left out"\n' % left if left else b""
    count(name + ": status", ran.returncode == (3 if left else 0) and ran.stderr == note, (ran.returncode, ran.stderr))
    count(name + ": bytes that every terminal shows", all(0x20 <= b <= 0x7E or b == 10 for b in ran.stdout))
    refused = cluster.run(ran.stdout)
    for who, what in seen_here("shell", image).items():
        user, table = (text.decode() for text in who)
        there = cluster.sees(user, table)
        if user == "root" or user in before.auths or table in before.tables:
            continue
        more = collections.Counter(there or []) - collections.Counter(what or [])
        count("%s: %s sees no more of %s" % (name, user, table), not more, list(more)[:2])
        if not left and not refused:
            count("%s: %s sees all of %s" % (name, user, table), there == what if what is None else sorted(there) == sorted(what), (there or ())[:1])
    for user in before.auths:
        count("%s: %s has the same authorizations" % (name, user), cluster.auths[user] == before.auths[user], cluster.auths[user])
    for table in before.tables:
        same = vars(cluster.tables[table]) == vars(before.tables[table])
        count("%s: the cluster's table %s stays" % (name, table), same, vars(cluster.tables[table]))
    return image, cluster, refused, ran.stdout


def over(name, lines):
    """All of it goes over: users with their authorizations and rights, tables with their settings, splits and records."""
    image, cluster, refused, _ = carried(name, lines, 0)
    count(name + ": no line is refused", not refused, refused[:3])
    for user in image["users"]:
        if user["name"] != b"root":
            held = cluster.auths.get(user["name"].decode())
            count(name + ": the authorizations of " + user["name"].decode(), held == set(user["auths"]), (held, user["auths"]))
    for table in image["tables"]:
        there = cluster.tables[table["name"].decode()]
        updates = [(record["key"], record["value"] if record["kind"] else None) for record in reversed(table["records"])]
        count(name + ": the records of " + table["name"].decode(), there.updates == updates, (there.updates[:1], updates[:1]))
        count(name + ": versions", there.versions == table["versions"], (there.versions, table["versions"]))
        count(name + ": splits", there.ends == set(table["ends"]), there.ends)
        count(name + ": constraints", len(there.constraints) == bin(table["constraints"]).count("1"), there.constraints)
        for holder, bits in table["rights"]:
            rights = {right for at, right in enumerate(RIGHTS) if bits >> at & 1}
            found = there.rights.get(holder.decode(), set()) - {"BULK_IMPORT", "GET_SUMMARIES"}
            count(name + ": rights", found == rights, (holder, found, rights))


RIGHTS = ["READ", "WRITE", "ALTER_TABLE", "GRANT", "DROP_TABLE"]

# Words that the shell may read as others: authorizations, and labels.
TERMS = [b"secret", b"a", b"b", b"a|b", b"a&b", b"a b", b" a", b"a ", b"\x00a", b"a\t", b"\xff", b"\xc3\xbf", b"\xc3\x83\xc2\xbf", b'"a"', b'"a', b'a"', b'a"b',
         b"-c", b"-l", b"-ts", b"--", b"-", b"-uroot", b"a,b", b",", b"a\\b", b"'a'", b"#", b"\x7f"]
EXPRESSIONS = [b"", b"secret", b'"secret"', b'"a|b"', b'"a&b"', b'"a b"', b'" a"', b'"a "', b'"\x00a"', b'"\xff"', b'"\xc3\xbf"',
               b'"\\"a\\""', b'"a"|b', b'b|"a"',
               b'"a"|"b"', b'"a"&b', b'a|"a|b"', b'("a")', b"-l", b"-ts", b"-", b"-5", b"-l|a", b"a|-l", b'"a,b"', b'"a\\\\b"', b'"#"', b"a&b", b"a|(b&secret)",
               b"\"'a'\"", b'("\xff")|a', b"a:b/c.d_e-f"]


def updates(table, labels):
    return [b"insert %s %s f q %s %s 5" % (table, word(b"row%d" % at), word(label), word(label)) for at, label in enumerate(labels)]


def words_there():
    """Labels and authorizations that the shell would read otherwise are left out, all others go over."""
    users = [b"createuser u%d" % at for at in range(len(TERMS))] + [b"setauths u%d %s" % (at, spelled([term])) for at, term in enumerate(TERMS)]
    reads = [b"grant u%d READ t" % at for at in range(len(TERMS))]
    plain = [term for term in TERMS if is_carried(term) and b"," not in term and min(term[0], term[-1]) > 0x20]
    labels = [label for label in EXPRESSIONS if is_carried(label)]
    left = len(TERMS) - len(plain) + len(EXPRESSIONS) - len(labels)
    _, cluster, refused, _ = carried("words", b"\n".join(users + [b"createtable t"] + reads + updates(b"t", EXPRESSIONS)), left)
    count("words: no line is refused", not refused, refused[:3])
    for at, term in enumerate(TERMS):
        count("words: %r" % term, cluster.auths["u%d" % at] == ({term} if term in plain else set()), cluster.auths["u%d" % at])
    held = {key[3] for key, _ in cluster.tables["t"].updates}
    count("words: the labels", held == set(labels), held ^ set(labels))
    every = [b"createuser ann", b"setauths ann " + spelled(plain), b"createtable t versions=3", b"grant ann READ t", *updates(b"t", labels)]
    over("plain words", b"\n".join(every))
    for at, term in enumerate(TERMS):
        lines = [b"createuser ann", b"setauths ann " + spelled([b"a", b"b", term]), b"createtable t", b"grant ann READ t", *updates(b"t", labels)]
        carried("beside %r" % term, b"\n".join(lines), int(term not in plain))


def is_carried(text):
    return max(text, default=0) < 128 and text[:1] not in (b"-", b'"') and text[-1:] != b'"'


def deletes_there():
    """A marker goes over or stays with its puts, by the label of both: nothing that it hides is shown."""
    lines = [b"createuser ann", b"setauths ann " + spelled([b"a", b"b", b"a b"]), b"createtable t", b"grant ann READ t"]
    for at, label in enumerate([b"a", b'"a b"', b'"b"', b"a|b", b'"a"|"b"', b""]):
        for time, kind in [(5, b"old"), (6, None), (-7, b"older"), (-(2**63), None), (8, b"new")]:
            what = b"insert t r%d f q %s %s" % (at, word(label), kind) if kind else b"delete t r%d f q %s" % (at, word(label))
            lines.append(what + b" %d" % time)
    carried("markers", b"\n".join(lines), 15)


def tables_there():
    """A table that can't be made, and one that is there already: what goes into it goes nowhere else."""
    def lines(names):
        made = [b"createuser ann", b"createuser eve"]
        for name in names:
            made += [b"createtable %s versions=9" % name, b"grant ann READ " + name, b"grant eve WRITE " + name]
            made += [b"addsplit %s m" % name, b"constraints %s visibility" % name,
                     b"insert %s row f q \\e %s 5" % (name, name), b"insert %s row f q \\e older 3" % name, b"delete %s row2 f q \\e 9" % name]
        return b"\n".join(made)

    cluster = accumulo.Cluster()
    for name in ("a", "m", "zz"):
        cluster.tables[name] = accumulo.Table("root", 1)
        cluster.tables[name].rights["eve"] = {"READ"}
        cluster.tables[name].updates = [((b"row2", b"f", b"q", b"", 4), b"theirs"), ((b"row", b"f", b"q", b"", 9), b"theirs")]
    cluster.context = "zz"
    names = [b"a", b"b", b"m", b"n", b"zz"]
    _, after, _, _ = carried("tables that are there", lines(names), 0, cluster)
    for name in (b"b", b"n"):
        values = {value for _, value in after.tables[name.decode()].updates}
        count("the table %s has what is its own" % name.decode(), values == {name, b"older", None}, values)
    names = [b"1", b"_", b"a.b", b"a-b", b"accumulo.root", b"b", b"z" * 128, b"Z9_z", b"-t", b".", b"zz."]
    _, after, refused, text = carried("tables' names", lines(names), 6)
    count("tables' names: those that go over", set(after.tables) == {"1", "_", "b", "z" * 128, "Z9_z"}, set(after.tables))
    count("tables' names: no line is refused", not refused, refused[:3])
    count("a table that is left out stands there in comments", all(b"# " + line in text for line in [b'insert -l "" -ts 5 -- "row" "f" "q" "a.b"']), "")


def users_there():
    """Names of users that the shell takes for options, or that none there can have; root's authorizations stay the cluster's."""
    names = [b"-bob", b"-u", b".", b"..", b".x", b"bob-", b"b.c", b"0", b"_", b"x" * 128]
    lines = [b"setauths root a,b"]
    for name in names:
        lines += [b"createuser " + name, b"setauths %s a" % name, b"grant %s CREATE_TABLE" % name]
    lines += [b"createtable t"] + [b"grant %s READ t" % name for name in names] + [b"insert t r f q a v 5", b"insert t r f q b v 5"]
    cluster = accumulo.Cluster()
    cluster.auths["root"] = {b"own"}
    _, after, refused, text = carried("users' names", b"\n".join(lines), 6, cluster)
    count("users' names: those that go over", set(after.auths) == {"root", "bob-", "b.c", "0", "_", "x" * 128}, set(after.auths))
    count("users' names: no line is refused", not refused, refused[:3])
    count("root's authorizations are a comment", b'# left out, root is somebody else there: setauths -u root -s "a,b"\n' in text, text[-200:])
    carried("root has none", b"createuser ann\nsetauths ann a", 0)


def bytes_there():
    """Rows, columns and values of every kind: empty, of all bytes, like options and comments, of the greatest length; times below 0."""
    every = bytes(range(256))
    parts = [b"", every, b"-", b"--", b"-l", b"-ts 5", b"#", b'"', b"'", b"\\", b"\\x41", b" ", b" a ",
             b"\n", b"\r\n", b"\xc2\x85\xe2\x80\xa8", b"exit", b"\x00"]
    lines = [b"createtable t versions=1000", b"createtable u", b"createuser ann", b"grant ann READ t"]
    lines += [b"addsplit u " + word(part) for part in parts[1:]]
    for at, part in enumerate(parts):
        time = [-1, -5, -(2**63), 2**63 - 1, 0][at % 5]
        lines += [b"insert t %s f q \\e v %d" % (word(part), time), b"insert t row%d %s q a v %d" % (at, word(part), time)]
        lines += [b"insert t col%d f %s \\e v %d" % (at, word(part), time), b"insert t val%d f q \\e %s %d" % (at, word(part), time)]
        lines += [b"delete t %s %s %s \\e %d" % (word(part), word(part), word(part), time)]
    over("bytes", b"\n".join(lines))
    long = [b"createtable t", b"insert t %s %s \\e %s \\x00\\x00 5" % (b"r" * 1_048_576, b"\\xff" * 300_000, b"(" * 64 + b"l" * 900_000 + b")" * 64)]
    over("long words", b"\n".join(long))


def settings_there():
    """What nothing there stands for is left out: that a table gives its timestamps, and a horizon."""
    lines = [b"createtable a time=server", b"createtable b", b"horizon b -5", b"createtable c", b"createtable d.e time=server", b"insert c r f q \\e v 5"]
    _, _, refused, text = carried("settings", b"\n".join(lines), 3)
    count("settings: the comments", all(b"# left out, there is no such setting: " + line in text for line in (b"time server\n", b"horizon -5\n")), text)
    count("settings: no line is refused", not refused, refused[:3])


def drawn_there():
    """Lines of all kinds: nobody sees more there, and what is left out is counted."""
    for seed in range(20):
        image = images.read(saved("shell", everything(seed)))
        left = int(any(user["name"] == b"root" and user["auths"] for user in image["users"]))
        for user in image["users"]:
            if user["name"] != b"root":
                good = all(term and is_carried(term) and b"," not in term and min(term[0], term[-1]) > 0x20 for term in user["auths"])
                left += int(user["name"][:1] in b"-." or not good)
        for table in image["tables"]:
            if re.fullmatch(rb"\w+", table["name"]):
                left += (table["time"] == 1) + (table["horizon"] > -(2**63)) + sum(not is_carried(r["key"][3]) for r in table["records"])
            else:
                left += 1
        carried("all kinds there, %d" % seed, everything(seed), left)


def accumulo_lines():
    words_there()
    deletes_there()
    tables_there()
    users_there()
    bytes_there()
    settings_there()
    drawn_there()
    ran = subprocess.run([PROGRAM, "export", "--accumulo", "shell"], stdout=open("/dev/full", "wb"), stderr=subprocess.PIPE, timeout=300)
    count("accumulo: an output that is full", ran.returncode == 1 and ran.stderr.startswith(b"fault: the output can't be written"), ran)


with tempfile.TemporaryDirectory() as work:
    os.chdir(work)
    saved("nothing", b"")
    goes_round("nothing", "nothing")
    cases()
    drawn()
    for seed in range(25):
        saved("every", everything(seed))
        goes_round("all kinds, %d" % seed, "every")
    large()
    versions()
    folder()
    accumulo_lines()
print("%d passed, %d failed" % (passed, failed))
sys.exit(failed != 0)
