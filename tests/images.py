"""An image, read as docs and `tab_image` say: for tests that compare two of them."""

import struct


class Reader:
    """The bytes of an image, from the front on."""

    def __init__(self, data):
        self.data, self.at = data, 0

    def take(self, count):
        part = self.data[self.at : self.at + count]
        assert len(part) == count, "the image ends"
        self.at += count
        return part

    def number(self, form):
        return struct.unpack(">" + form, self.take(struct.calcsize(">" + form)))[0]

    def field(self):
        return self.take(self.number("I"))

    def list(self, read, form="I"):
        return [read() for _ in range(self.number(form))]

    def user(self):
        return {"name": self.field(), "system": self.number("B"), "auths": self.list(self.field)}

    def right(self):
        return self.field(), self.number("B")

    def record(self):
        row, family, qualifier, label = (self.field() for _ in range(4))
        time, kind, seq, idx = self.number("q"), self.number("B"), self.number("Q"), self.number("I")
        return {"key": (row, family, qualifier, label, time), "kind": kind, "number": (seq, idx), "value": self.field()}

    def table(self, version):
        return {
            "name": self.field(),
            "time": self.number("B"),
            "versions": self.number("I"),
            "constraints": self.number("B"),
            "horizon": self.number("q") if version > 1 else -(2**63),
            "rights": self.list(self.right),
            "ends": self.list(self.field),
            "records": self.list(self.record, "Q"),
        }


def read(data):
    """What the image says."""
    reader = Reader(data)
    assert reader.take(6) == b"TABIMG", "this is no image"
    version = reader.number("H")
    image = {"version": version, "clock": reader.number("q"), "next": reader.number("Q"), "users": reader.list(reader.user)}
    image["tables"] = reader.list(lambda: reader.table(version))
    assert reader.take(4) == b"END!" and reader.at == len(data), "the image goes on"
    return image


def unnumbered(image):
    """The image without the numbers of mutations and the places in them, and without the version."""
    tables = [{**t, "records": [(r["key"], r["kind"], r["value"]) for r in t["records"]]} for t in image["tables"]]
    return {"clock": image["clock"], "users": image["users"], "tables": tables}
