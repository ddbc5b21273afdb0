"""Commands as they are written and replies as they are read, without an engine."""
import doctest
import unittest
from typing import Any, Callable, List, Tuple

import wunthavel
from wunthavel import protocol
from tests.support import ADA


def load_tests(loader: unittest.TestLoader, tests: unittest.TestSuite, pattern: object) -> unittest.TestSuite:
    for it in ("errors", "markup", "progress", "protocol", "texts"):
        tests.addTests(doctest.DocTestSuite(f"wunthavel.{it}"))
    return tests


class Written(unittest.TestCase):
    def test_commit(self) -> None:
        edits = [protocol.put("README", b"A\n\n", "exec"), protocol.remove("old"), protocol.remove_file("a b"), protocol.graft("lib", "v1", "src")]
        made = protocol.commit("refs/heads/main", "Begin", ADA, edits=edits, expect=wunthavel.NEW, parents=["v1", "v2"])
        self.assertEqual(
            made.data,
            b"commit refs/heads/main new\nparent v1\nparent v2\nput exec 6 3\nREADME\nA\n\n\nremove 3\nold\nremove-file 3\na b\n"
            b"graft 3 v1 3\nlib\nsrc\nauthor 12 15 1700000000 +0100\nAda Lovelace\nada@example.org\n"
            b"committer 12 15 1700000000 +0100\nAda Lovelace\nada@example.org\nmessage 5\nBegin\nend\n",
        )

    def test_a_word_is_told_from_what_is_expected_by_its_type(self) -> None:
        self.assertEqual(protocol.delete("refs/heads/a").data, b"delete refs/heads/a any\n")
        self.assertEqual(protocol.delete("refs/heads/a", "new").data, b"delete refs/heads/a at new\n")

    def test_log(self) -> None:
        made = protocol.log(["a", "b"], ["c"], "newest", True, ["x", b"\xff\n"], since=7)
        self.assertEqual(made.data, b"log newest-since 7 first +a +b -c path 1 path 2\nx\n\xff\n\n")

    def test_what_would_break_a_line_is_refused_by_its_cause(self) -> None:
        made: List[Tuple[str, Callable[[], object]]] = [
            ("BadName", lambda: protocol.switch("refs/heads/a b")),
            ("BadName", lambda: protocol.rename("refs/heads/a", "refs/heads/\nindex")),
            ("BadName", lambda: protocol.names("refs/" + "a" * 5000)),
            ("UnknownWord", lambda: protocol.show("")),
            ("UnknownWord", lambda: protocol.files("main\npack")),
            ("UnknownWord", lambda: protocol.show("\ud800")),
            ("BadTime", lambda: protocol.tag("refs/tags/a", "b", "m", wunthavel.Actor("a", "b", -1))),
            ("BadTime", lambda: protocol.tag("refs/tags/a", "b", "m", wunthavel.Actor("a", "b", 1, "+00 00"))),
        ]
        for cause, does in made:
            with self.subTest(cause=cause), self.assertRaises(wunthavel.Refused) as met:
                does()
            self.assertEqual(met.exception.cause, cause)
        with self.assertRaises(ValueError):
            protocol.log(["a"] * 3000)
        with self.assertRaises(ValueError):
            protocol.put("a", b"", "folder")


class Read(unittest.TestCase):
    def test_each_reply(self) -> None:
        id, other = "1" * 40, "2" * 40
        replies: List[Tuple[wunthavel.Command[Any], str, object]] = [
            (protocol.pack(), "ok pack\n", None),
            (protocol.index(), "ok index 7\n", 7),
            (protocol.log(["a"]), "ok log 0\n", []),
            (protocol.log(["a"]), f"ok log 2\n{id}\n{other}\n", [id, other]),
            (protocol.content("a", "p"), f"ok show content exec {id} 4\na\nb\n\n", wunthavel.Content("exec", id, b"a\nb\n")),
            (protocol.files("a"), f"ok files 1\nlink {id} 3\na\n\udcff\n", [wunthavel.File("link", id, "a\n\udcff")]),
            (protocol.names(), f"ok names 1 refs/heads/main\n{id} {other} refs/tags/a\n", wunthavel.Names("refs/heads/main", (wunthavel.Name(id, other, "refs/tags/a"),))),
            (
                protocol.past("a"),
                f"ok past 1\n{'0' * 40} {id} A B <c@d> 12 -0330\tTitle\tof two\n",
                [wunthavel.LogEntry(None, id, wunthavel.Actor("A B", "c@d", 12, "-0330"), "Title\tof two")],
            ),
        ]
        for command, reply, value in replies:
            with self.subTest(command=command):
                self.assertEqual(protocol.read_reply(command, protocol.raw(reply)), value)

    def test_refusals_and_faults_name_cause_and_command(self) -> None:
        with self.assertRaises(wunthavel.Refused) as refused:
            protocol.read_reply(protocol.content("main", "a b"), b"refused NoSuchPath\n")
        self.assertEqual(refused.exception.cause, "NoSuchPath")
        self.assertIn("nothing exists at this path", str(refused.exception))
        self.assertIn("'a b'", str(refused.exception))
        with self.assertRaises(wunthavel.Fault) as fault:
            protocol.read_reply(protocol.pack(), b"fault File\n")
        self.assertEqual(fault.exception.cause, "File")

    def test_a_reply_to_something_else_is_told(self) -> None:
        for reply in (b"ok index 7\n", b"hello\n", b"ok pack", b"ok pack\nmore"):
            with self.subTest(reply=reply), self.assertRaises(wunthavel.ProtocolError):
                protocol.read_reply(protocol.pack(), reply)

    def test_ids_are_a_sequence(self) -> None:
        ids = wunthavel.Ids(bytes(range(100)))
        self.assertEqual(len(ids), 5)
        self.assertEqual(list(ids[1:3]), [ids[1], ids[2]])
        self.assertEqual(list(ids[::-1]), [ids[4], ids[3], ids[2], ids[1], ids[0]])
        self.assertEqual((len(ids[3:1]), ids[-1]), (0, ids[4]))
        self.assertIn(ids[2], ids)

    def test_times(self) -> None:
        self.assertEqual(wunthavel.Actor("a", "b", 0, "-0330").when.isoformat(), "1969-12-31T20:30:00-03:30")
        self.assertEqual(str(wunthavel.Actor.parse(" A B <c@d> ")), "A B <c@d>")
        with self.assertRaises(ValueError):
            wunthavel.Actor.parse("nobody")


if __name__ == "__main__":
    unittest.main()
