"""The classes of what goes wrong: their attributes, messages and numbers."""
import copy
import pickle
import unittest

from running import tabd
from tabd import Permission, Violation, replies

MESSAGES = {
    "'eve', who asks, is no user": (tabd.UnknownUser("eve"), "user"),
    "there is no table 'labs'": (tabd.NoTable("labs"), "table"),
    "the user needs READ on table 'labs'": (tabd.PermissionDenied(Permission("READ", "labs")), "permission"),
    "the user needs CREATE_TABLE on the system": (tabd.PermissionDenied(Permission("CREATE_TABLE")), "permission"),
    r"the user doesn't hold 'a\\xff'": (tabd.BadAuthorizations(b"a\xff"), "term"),
    "the label of update 3 goes wrong at offset 7": (tabd.MalformedVisibility(3, 7), "update", "offset"),
    "numeric (code 1) in update 0, alphanum (code 2) in update 4": (
        tabd.ConstraintViolation((Violation("numeric", 1, 0), Violation("alphanum", 2, 4))), "violations",
    ),
    "update 2 has a timestamp, and the table gives them": (tabd.TimestampNotAllowed(2), "update"),
    "a write without updates": (tabd.EmptyMutation(),),
    "updates: a write has at most 1,000": (tabd.TooLarge("updates"), "part"),
    "there is a table 'labs' already": (tabd.TableExists("labs"), "table"),
    "there is a user 'kim' already": (tabd.UserExists("kim"), "user"),
    "there is no user 'kim'": (tabd.NoUser("kim"), "user"),
    "the low row of a range is above its high one, or equal to it with one of them left out": (tabd.BadRange(),),
    "the tablet has 2 sources now, and not those of the merge": (tabd.Stale(2), "sources"),
    "the connection has no session 7": (tabd.NoSession(7), "session"),
    "opcode: the server doesn't know this request": (tabd.BadFrame("opcode"), "reason"),
    "the server had no memory for it; nothing was done": (tabd.NoMemory(),),
    "root can't be dropped, and its system permissions don't change": (tabd.RootFixed(),),
    "the system permission GRANT is root's alone": (tabd.GrantInvalid(),),
    "present: the row is an end row already": (tabd.BadSplit("present"), "why"),
    "the table shows 4, and never more": (tabd.VersionsRaised(4), "versions"),
    "the table's horizon is -1, and never lower": (tabd.HorizonLowered(-1), "horizon"),
    "the time of update 2 is below the table's horizon": (tabd.BelowHorizon(2), "update"),
    "the table gives the times, and has no horizon": (tabd.ServerTime(),),
}


class Errors(unittest.TestCase):
    def test_messages(self) -> None:
        for message, (refusal, *_) in MESSAGES.items():
            self.assertEqual(str(refusal), message)

    def test_attributes(self) -> None:
        for refusal, *attributes in MESSAGES.values():
            self.assertEqual(tuple(getattr(refusal, attribute) for attribute in attributes), refusal.args)
            self.assertEqual(list(vars(refusal)), attributes)

    def test_numbers(self) -> None:
        kinds = {type(refusal) for refusal, *_ in MESSAGES.values()}
        self.assertEqual(kinds, set(tabd.Refused.__subclasses__()))
        self.assertEqual({kind.number for kind in kinds}, set(range(1, 23)))
        self.assertEqual(set(replies.REFUSALS), set(range(1, 23)))
        self.assertEqual({kind.number for kind in (tabd.HorizonLowered, tabd.BelowHorizon, tabd.ServerTime)}, {22})

    def test_classes(self) -> None:
        for kind, above in (
            (tabd.NoTable, tabd.Refused), (tabd.Refused, tabd.TabdError), (tabd.ConnectionClosed, tabd.TabdError),
            (tabd.ProtocolError, tabd.TabdError), (tabd.TimedOut, tabd.ConnectionClosed), (tabd.TimedOut, TimeoutError),
            (tabd.InUse, tabd.TabdError), (tabd.OutOfRange, ValueError), (tabd.OutOfRange, OverflowError),
        ):
            self.assertTrue(issubclass(kind, above), kind)

    def test_copies(self) -> None:
        for refusal, *_ in MESSAGES.values():
            for other in (copy.copy(refusal), pickle.loads(pickle.dumps(refusal))):
                self.assertEqual((type(other), str(other), vars(other)), (type(refusal), str(refusal), vars(refusal)))

    def test_each_word_has_its_message(self) -> None:
        for kind, words in ((tabd.TooLarge, tabd.TooLarge.LIMITS), (tabd.BadFrame, tabd.BadFrame.REASONS), (tabd.BadSplit, tabd.BadSplit.REASONS)):
            for word, message in words.items():
                self.assertEqual(str(kind(word)), f"{word}: {message}")

    def test_each_class_says_what_it_is(self) -> None:
        kinds = [kind for kind in vars(tabd.errors).values() if isinstance(kind, type) and issubclass(kind, Exception)]
        self.assertEqual([kind.__name__ for kind in kinds if not kind.__dict__.get("__doc__")], [])
