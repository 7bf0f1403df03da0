"""A small model of a cluster of Apache Accumulo 2.1 and of its shell, as far as lines of `tabd export --accumulo` go: how a line is taken apart
(`QuotedStringTokenizer`, and commons-cli's parser of options), what each command does, and what a user's scan shows. It is written from
Accumulo's manual and sources, for tests/export.py."""

import re

# A command's options with whether each takes a word, and how many other words it wants, None if any number.
COMMANDS = {
    "createuser": ({"?": False}, 1),
    "setauths": ({"s": True, "c": False, "u": True, "?": False}, 0),
    "grant": ({"s": False, "t": True, "p": True, "ns": True, "u": True, "?": False}, 1),
    "revoke": ({"s": False, "t": True, "p": True, "ns": True, "u": True, "?": False}, 1),
    "notable": ({"?": False}, 0),
    "table": ({"?": False}, 1),
    "createtable": ({"cs": True, "cc": True, "sf": True, "tl": False, "tm": False, "ndi": False, "evc": False, "f": True, "prop": True, "?": False}, 1),
    "constraint": ({"a": False, "d": False, "l": False, "t": True, "ns": True, "?": False}, None),
    "config": ({"d": True, "s": True, "f": True, "np": False, "t": True, "ns": True, "?": False}, 0),
    "addsplits": ({"sf": True, "b64": False, "t": True, "?": False}, None),
    "insert": ({"l": True, "ts": True, "timeout": True, "d": True, "?": False}, 4),
    "delete": ({"l": True, "ts": True, "timeout": True, "?": False}, 3),
}

SYSTEM = {"CREATE_TABLE", "DROP_TABLE", "ALTER_TABLE", "CREATE_USER", "DROP_USER", "ALTER_USER", "SYSTEM"}
TABLE = {"READ", "WRITE", "ALTER_TABLE", "GRANT", "DROP_TABLE", "BULK_IMPORT", "GET_SUMMARIES"}
CLASSES = {
    "org.apache.accumulo.core.data.constraints.DefaultKeySizeConstraint",
    "org.apache.accumulo.core.data.constraints.VisibilityConstraint",
    "org.apache.accumulo.examples.constraints.AlphaNumKeyConstraint",
    "org.apache.accumulo.examples.constraints.NumericValueConstraint",
}
VERSIONS = re.compile(r"table\.iterator\.(scan|minc|majc)\.vers\.opt\.maxVersions")


class Refused(Exception):
    """A line that the shell tells an error of, and goes on behind."""


def tokens(line):
    """The tokens of a line; each character of one is a byte."""
    out, token, quote, at = [], "", None, 0

    def escaped():
        if line[at + 1 : at + 2] == "x":
            digits = line[at + 2 : at + 4]
            if not re.fullmatch("[0-9a-fA-F]{2}", digits):
                raise Refused("expected hex character")
            return chr(int(digits, 16)), 4
        if line[at + 1 : at + 2] not in set(" '\"\\"):
            raise Refused("can only escape quotes, the space, the backslash, and hex input")
        return line[at + 1], 2

    while at < len(line):
        here, step = line[at], 1
        if here == "\\":
            more, step = escaped()
            token += more
        elif quote:
            if here == quote:
                out.append(token)
                token, quote = "", None
            else:
                token += here
        elif here in "'\" ":
            if token:
                out.append(token)
                token = ""
            quote = None if here == " " else here
        else:
            token += here
        at += step
    if quote:
        raise Refused("missing terminating quote")
    return out + [token] if token else out


def parsed(words, options):
    """The options with their words, and the other words, as `DefaultParser` finds them."""
    found, rest, waits = {}, [], None
    for at, word in enumerate(words):
        name = word[1:].split("=", 1)[0]
        may_be = word.startswith("-") and len(word) > 1 and (name in options or name[:1] in options)
        if waits and (not may_be or re.fullmatch(r"-\d+(\.\d+)?", word)):
            # quotes at both ends are taken off, where there is none between them
            bare = word[1:-1]
            found[waits] = bare if len(word) > 1 and word[0] == word[-1] == '"' and '"' not in bare else word
            waits = None
        elif waits:
            raise Refused("missing argument for option: " + waits)
        elif word == "--":
            return found, rest + words[at + 1 :]
        elif word.startswith("-") and len(word) > 1:
            if word[1:] not in options:
                raise Refused("unrecognized option: " + word)
            waits = word[1:] if options[word[1:]] else None
            found.setdefault(word[1:], "")
        else:
            rest.append(word)
    if waits:
        raise Refused("missing argument for option: " + waits)
    return found, rest


def trimmed(text):
    """As Java's `trim`: without the characters up to the space at both ends."""
    return re.sub(r"\A[\x00-\x20]+|[\x00-\x20]+\Z", "", text)


class Label:
    """A label, read; holds() judges it. A term may stand between quotes."""

    def __init__(self, text):
        self.text, self.at = text, 0
        self.tree = self.joined() if text else None
        if self.at != len(text):
            raise Refused("bad label")

    def joined(self):
        parts, joiner = [self.operand()], None
        while self.text[self.at : self.at + 1] in (b"&", b"|"):
            sign = self.text[self.at : self.at + 1]
            if joiner not in (None, sign):
                raise Refused("bad label: cannot mix & and |")
            joiner, self.at = sign, self.at + 1
            parts.append(self.operand())
        return parts[0] if joiner is None else (joiner, parts)

    def operand(self):
        if self.text[self.at : self.at + 1] == b"(":
            self.at += 1
            inner = self.joined()
            if self.text[self.at : self.at + 1] != b")":
                raise Refused("bad label")
            self.at += 1
            return inner
        plain = re.compile(rb"[A-Za-z0-9_\-:./]+").match(self.text, self.at)
        quoted = re.compile(rb'"((?:[^"\\]|\\["\\])+)"', re.S).match(self.text, self.at)
        if not plain and not quoted:
            raise Refused("bad label")
        self.at = (plain or quoted).end()
        return plain[0] if plain else re.sub(rb"\\(.)", rb"\1", quoted[1], flags=re.S)

    def holds(self, auths, tree=()):
        tree = self.tree if tree == () else tree
        if tree is None or isinstance(tree, bytes):
            return tree is None or tree in auths
        return (all if tree[0] == b"&" else any)(self.holds(auths, part) for part in tree[1])


class Table:
    def __init__(self, maker, versions):
        self.rights = {maker: set(TABLE)}
        self.versions = versions
        self.constraints = {"1": "org.apache.accumulo.core.data.constraints.DefaultKeySizeConstraint"}
        self.ends, self.updates = set(), []

    def shown(self, auths):
        """The cells that a scan under these authorizations shows, as keys of five parts with their values: of two of one key the newer first."""
        columns, cells = {}, []
        for key, value in self.updates:
            columns.setdefault(key[:4], []).insert(0, (key[4], value))
        for key, updates in columns.items():
            if not Label(key[3]).holds(auths):
                continue
            gone = max((time for time, value in updates if value is None), default=-(2**64))
            live = [(time, value) for time, value in updates if value is not None and time > gone]
            live.sort(key=lambda update: -update[0])
            cells += [(key + (time,), value) for time, value in live[: self.versions]]
        return cells


class Cluster:
    """Users with their authorizations and system permissions, tables, and a shell that root has."""

    def __init__(self):
        self.auths, self.system, self.tables = {"root": set()}, {"root": set(SYSTEM)}, {}
        self.context, self.refused = "", []

    def run(self, text):
        """Each line of a file, as `accumulo shell -u root -f FILE` does them; gives those that it refused, each with why."""
        self.refused = []
        for line in re.split("\r\n|[\n\r\u2028\u2029\u0085]", text.decode("utf-8")):
            if line.startswith("#"):
                continue
            try:
                words = tokens(line)
                if words:
                    self.do(words[0], words[1:])
            except Refused as why:
                self.refused.append((line[:200], str(why)))
        return self.refused

    def do(self, command, words):
        if command not in COMMANDS:
            raise Refused("unknown command")
        options, wanted = COMMANDS[command]
        given, rest = parsed(words, options)
        if wanted is not None and len(rest) != wanted:
            raise Refused("expected %d arguments, there were %d" % (wanted, len(rest)))
        getattr(self, "do_" + command)(given, rest)

    def table(self, given):
        """The table that the option names, or the one that the shell is in."""
        name = given.get("t", self.context)
        if not name:
            raise Refused("not in a table context")
        if name not in self.tables:
            raise Refused("no table " + name)
        return self.tables[name]

    def user(self, name):
        if name not in self.auths:
            raise Refused("no user " + name)
        return name

    def do_createuser(self, given, rest):
        if rest[0] in self.auths or rest[0] in (".", "..", "") or "/" in rest[0]:
            raise Refused("user exists, or can't")
        self.auths[rest[0]], self.system[rest[0]] = set(), set()

    def do_setauths(self, given, rest):
        if ("s" in given) == ("c" in given):
            raise Refused("one of -s and -c is needed")
        terms = [] if "c" in given or not given["s"] else re.sub(",+$", "", given["s"]).split(",")
        terms = {trimmed(term).encode("utf-8") for term in terms}
        if b"" in terms:
            raise Refused("empty authorization")
        self.auths[self.user(given.get("u", "root"))] = terms

    def permission(self, given, rest, change):
        kind, _, name = rest[0].partition(".")
        holder = self.user(given["u"])
        if kind == "System" and "s" in given and name in SYSTEM:
            change(self.system[holder], name)
        elif kind == "Table" and name in TABLE:
            change(self.table(given).rights.setdefault(holder, set()), name)
        else:
            raise Refused("unrecognized permission")

    def do_grant(self, given, rest):
        self.permission(given, rest, set.add)

    def do_revoke(self, given, rest):
        self.permission(given, rest, set.discard)

    def do_notable(self, given, rest):
        self.context = ""

    def do_table(self, given, rest):
        self.table({"t": rest[0]})
        self.context = rest[0]

    def do_createtable(self, given, rest):
        if not re.fullmatch(r"([A-Za-z0-9_]+\.)?[A-Za-z0-9_]+", rest[0]):
            raise Refused("only letters, numbers and underscores are allowed in table names")
        if rest[0] in self.tables or "." in rest[0]:
            raise Refused("table exists, or has no namespace")
        versions = {"scan": 1, "minc": 1, "majc": 1}
        for pair in given["prop"].split(",") if "prop" in given else []:
            key, value = pair.split("=")
            versions[VERSIONS.fullmatch(key)[1]] = int(value)
        assert len(set(versions.values())) == 1, versions
        self.tables[rest[0]] = Table("root", versions["scan"])
        self.context = rest[0]

    def do_config(self, given, rest):
        key, value = given["s"].split("=", 1)
        if "t" not in given:
            raise AssertionError("a setting of the whole system")
        if VERSIONS.fullmatch(key)[1] == "scan":
            self.table(given).versions = int(value)

    def do_constraint(self, given, rest):
        table = self.table(given)
        for word in rest:
            if "d" in given:
                table.constraints.pop(word, None)
            elif word in CLASSES:
                table.constraints[str(len(table.constraints) + 1)] = word
            else:
                raise Refused("unable to load " + word)

    def do_addsplits(self, given, rest):
        self.table(given).ends |= {word.encode("latin-1") for word in rest}

    def update(self, given, rest, value):
        table = self.table({})
        label = given.get("l", "").encode("utf-8")
        Label(label)
        row, family, qualifier = (word.encode("latin-1") for word in rest[:3])
        table.updates.append(((row, family, qualifier, label, int(given["ts"])), value))

    def do_insert(self, given, rest):
        self.update(given, rest, rest[3].encode("latin-1"))

    def do_delete(self, given, rest):
        self.update(given, rest, None)

    def sees(self, user, name):
        """What the user's scan of the table shows under all that they hold, or None where they may not read it."""
        if user not in self.auths or name not in self.tables or "READ" not in self.tables[name].rights.get(user, ()):
            return None
        return self.tables[name].shown(self.auths[user])
