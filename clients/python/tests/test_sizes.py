"""Large and many; pipelines."""
import os

from running import MIB, Case, cell, tabd
from tabd import Put


class Sizes(Case):
    def test_a_value_of_1_mib(self) -> None:
        long = os.urandom(MIB)
        self.root.write("t", "r", [Put("f", "q", value=long, timestamp=5)])
        self.assertEqual(list(self.root.scan("t")), [cell(b"r", long)])

    def test_1_000_updates(self) -> None:
        self.root.write("t", "r", [Put("f", b"%04d" % at, value=b"%d" % at, timestamp=5) for at in range(1000)])
        self.assertEqual([found.value for found in self.root.scan("t")], [b"%d" % at for at in range(1000)])
        with self.refused(tabd.TooLarge, "updates"):
            self.root.write("t", "r", [Put("f", "q", value="v")] * 1001)

    def test_small_batches(self) -> None:
        rows = [b"%03d" % at for at in range(100)]
        for row in rows:
            self.root.write("t", row, [Put("f", "q", value="v", timestamp=5)])
        for batch in (1, 7, 99, 100, 101, 4_294_967_295):
            self.assertEqual([found.row for found in self.root.scan("t", batch=batch)], rows)

    def test_pipelines(self) -> None:
        with self.root.pipeline() as refused:
            for at in range(5000):
                self.root.write("t", b"%04d" % at, [Put("f", "q", value=b"v" * (at % 300), timestamp=5)])
                if at == 2500:
                    self.assertEqual(self.root.status("t").records, 2501)
        self.assertEqual(refused, {})
        self.assertEqual([len(found.value) for found in self.root.scan("t")], [at % 300 for at in range(5000)])

    def test_a_pipeline_of_large_writes(self) -> None:
        long = os.urandom(MIB)
        with self.root.pipeline():
            for at in range(12):
                self.root.write("t", b"%d" % (at % 3), [Put("f", "q", value=long, timestamp=at)])
        self.assertEqual([found.value for found in self.root.scan("t", batch=1)], [long] * 3)

    def test_refusals_in_a_pipeline(self) -> None:
        with self.refused(tabd.MalformedVisibility, 0, 2):
            with self.root.pipeline() as refused:
                for at in range(1000):
                    self.root.write("t", b"%03d" % at, [Put("f", "q", value="v", label="a&" if at % 3 == 2 else "", timestamp=5)])
        self.assertEqual(list(refused), list(range(2, 1000, 3)))
        self.assertEqual(len(list(self.root.scan("t"))), 667)

    def test_an_error_inside_a_pipeline(self) -> None:
        with self.assertRaises(ZeroDivisionError):
            with self.root.pipeline():
                self.root.write("t", "r", [Put("f", "q", value="v", timestamp=5)])
                print(1 / 0)
        self.assertEqual(list(self.root.scan("t")), [cell(b"r", b"v")])
