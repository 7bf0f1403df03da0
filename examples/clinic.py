#!/usr/bin/env python3
"""A clinic keeps one store. Three kinds of people read it, and each sees what they may see and nothing of the rest.

A cell is a value under a row (here a patient), a family and a qualifier (which of their facts), with a label that says who may see it. A
label is made of words joined by & (all of them are needed) or | (one of them is enough); without a label everybody sees the cell. Readers
hold such words, their "authorizations".

The table and the users are this example's own, and each run begins them anew: nothing else of a store is touched.

Usage: examples/clinic.py PORT   (a server such as `./tabd serve --port 9997`; examples/clinic.txt is the same as a script)
"""
import sys
from contextlib import suppress
from pathlib import Path

sys.path.insert(0, str(Path(__file__).resolve().parent.parent / "clients" / "python"))
sys.dont_write_bytecode = True
import tabd  # noqa: E402
from tabd import Delete, Put, Range  # noqa: E402


TABLE = "clinic"
USERS = {"clinic-reception": ["desk"], "clinic-nurse": ["care"], "clinic-doctor": ["care", "diagnosis"]}


def set_up(root):
    """A table, three users who may read it, and what each holds: doctors alone hold `diagnosis`."""
    with suppress(tabd.NoTable):
        root.drop_table(TABLE)
    root.create_table(TABLE)
    for user, authorizations in USERS.items():
        with suppress(tabd.NoUser):
            root.drop_user(user)
        root.create_user(user)
        root.grant(user, "READ", TABLE)
        root.set_authorizations(user, authorizations)


def write_records(root):
    """All facts of a patient in one write, which is done whole or not at all: family, qualifier, label, value, and the fact's time."""
    root.write(TABLE, "ann", [
        Put("visit", "room", "", "12", 1),
        Put("visit", "phone", "desk|care", "555-0100", 1),
        Put("health", "allergy", "care", "penicillin", 1),
        Put("health", "finding", "care&diagnosis", "asthma", 1),
    ])
    root.write(TABLE, "bob", [Put("visit", "room", "", "14", 1), Put("billing", "insurer", "desk", "acme", 1)])


def show(title, cells):
    print(f"{title}:")
    for cell in cells:
        row, family, qualifier, value = (text.decode() for text in (cell.row, cell.family, cell.qualifier, cell.value))
        print(f"  {row} {family} {qualifier}: {value}")


def refused(what, request):
    """Tells why a request is refused."""
    try:
        request()
    except tabd.Refused as refusal:
        print(f"{what}: {type(refusal).__name__}: {refusal}")
    else:
        sys.exit(f"{what}: it was not refused")


def main(port):
    with tabd.connect(port, "root") as root:
        set_up(root)
        write_records(root)
    # the same table, three times; a scan names the authorizations that it wants to use
    with tabd.connect(port, "clinic-reception") as reception:
        show("the reception sees", reception.scan(TABLE, ["desk"]))
    with tabd.connect(port, "clinic-nurse") as nurse:
        show("the nurse sees", nurse.scan(TABLE, ["care"]))
        refused("the nurse asks under `diagnosis`", lambda: nurse.scan(TABLE, ["care", "diagnosis"]))
        refused("the nurse writes", lambda: nurse.write(TABLE, "ann", [Put("visit", "room", value="13")]))
    with tabd.connect(port, "clinic-doctor") as doctor:
        show("the doctor sees", doctor.scan(TABLE, ["care", "diagnosis"]))
        show("of it, Ann's health", doctor.scan(TABLE, ["care", "diagnosis"], Range("ann", "ann"), ["health"]))
        show("without any authorization", doctor.scan(TABLE))
    with tabd.connect(port, "root") as root:
        # a delete hides what stood in its cell up to its time; the label is part of which cell is meant
        root.write(TABLE, "ann", [Delete("visit", "phone", "desk|care", 2)])
        # & and | are mixed through parentheses alone; the offset is how many bytes of it begin some label
        refused("a label that isn't one", lambda: root.write(TABLE, "cleo", [Put("health", "finding", "care&diagnosis|desk", "flu", 3)]))
        root.write(TABLE, "cleo", [Put("health", "finding", "(care&diagnosis)|desk", "flu", 3)])
        # from now on nobody writes a label that they couldn't read themselves
        root.set_constraints(TABLE, ["visibility"])
        root.grant("clinic-nurse", "WRITE", TABLE)
    with tabd.connect(port, "clinic-nurse") as nurse:
        nurse.write(TABLE, "bob", [Put("health", "allergy", "care", "none", 3)])
        refused("the nurse writes what she couldn't read", lambda: nurse.write(TABLE, "bob", [Put("health", "finding", "care&diagnosis", "flu", 3)]))
        show("the nurse sees of Bob", nurse.scan(TABLE, ["care"], Range("bob", "bob")))
    with tabd.connect(port, "clinic-reception") as reception:
        show("the reception sees", reception.scan(TABLE, ["desk"]))


if __name__ == "__main__":
    if len(sys.argv) != 2 or not sys.argv[1].isdigit():
        sys.exit(__doc__)
    main(int(sys.argv[1]))
