"""What mypy makes of calls, by tests/test_package.py: it accepts the right ones, and must refuse each that is marked."""
from typing import List, Optional, Tuple

import tabd
import tabd.aio
from tabd import Cell, Delete, Put, Range, Session, TextCell, TextSession, Write


def right(client: tabd.Client) -> List[bytes]:
    tabd.connect(9997, "kim").close()
    tabd.connect("/run/tabd.sock", b"kim", timeout=None).close()
    client.write("t", b"r", [Put("f", b"q", "label", "value", 5), Put("f", "q", value="v"), Delete("f", "q", timestamp=5)])
    client.set_authorizations("kim", ["care", b"desk"])
    with client.pipeline() as refused:
        client.write("t", "r", (Put("f", "q", value=str(at)) for at in range(3)))
    places: List[int] = list(refused)
    session: Session = client.scan("t", ["care"], Range("a", b"b", with_high=False), ["f", ("g", "q")], places[0])
    cells: List[Cell] = [cell for cell in session]
    shown: TextSession = client.scan("t", rows=Range.prefix(b"a"), limit=5, newest=True, text=True)
    texts: List[TextCell] = shown.fetch(1)[0]
    value: Optional[bytes] = client.get("t", "r", "f", texts[0].qualifier, ["care"])
    print(value, client.scan("t", to="pandas", text=True))
    try:
        client.scan("t").fetch(1)
    except tabd.PermissionDenied as refusal:
        print(refusal.permission.table)
    return [cell.value for cell in cells]


def shared() -> None:
    with tabd.Pool("tabd://kim@127.0.0.1:9997", size=2, timeout=None) as pool, pool.client() as client:
        client.flush("t")
    heard: List[Tuple[Write, tabd.Refused]] = []
    with tabd.BatchWriter(9997, "kim", on_refused=lambda write, refusal: heard.append((write, refusal))) as writer:
        writer.write("t", "r", [Put("f", "q", value="v")])


async def tasks() -> List[Cell]:
    async with tabd.aio.connect(9997, "kim") as client, client.scan("t", text=True) as session:
        texts: List[TextCell] = (await session.fetch(1))[0]
        async with client.pipeline():
            await client.write("t", texts[0].row, [Delete("f", "q")])
        return [cell async for cell in client.scan("t")]


def wrong(client: tabd.Client) -> None:
    tabd.connect(b"/run/tabd.sock", "kim")  # type: ignore[arg-type]
    Put("f", "q", "v")  # type: ignore[call-overload]
    Put("f", "q")  # type: ignore[call-overload]
    Put("f", "q", value=5)  # type: ignore[call-overload]
    client.write("t", "r", Put("f", "q", value="v"))  # type: ignore[arg-type]
    client.write("t", "r", [("f", "q", "v")])  # type: ignore[list-item]
    client.set_authorizations("kim", 5)  # type: ignore[arg-type]
    client.scan("t", to="list")  # type: ignore[call-overload]
    client.scan("t", rows="a")  # type: ignore[call-overload]
    client.scan("t", text="utf-8")  # type: ignore[call-overload]
    Range.prefix(5)  # type: ignore[arg-type]
    client.create_table("t", True)  # type: ignore[misc]
    client.set_horizon("t", 1.5)  # type: ignore[arg-type]
    client.closed = True  # type: ignore[misc]
    print(Cell(b"", b"", b"", b"", 5, b"").time)  # type: ignore[attr-defined]
