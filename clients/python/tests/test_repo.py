"""`Repo` over the engine: each command, batches, ends of the engine, and what is made on the client's side."""
import errno
import gc
import itertools
import os
import random
import re
import shutil
import signal
import subprocess
import sys
import threading
import time
import tracemalloc
import unittest
from typing import Any, Callable, Dict, List, Tuple, Type
from unittest import mock

import wunthavel
from wunthavel import NEW, Change, Command, File, protocol
from wunthavel.plans import same_lines, unified
from tests.support import ADA, PATIENCE, WithRepo, wait_until


class Commands(WithRepo):
    def test_a_new_repository(self) -> None:
        self.assertEqual(self.repo.head, "refs/heads/main")
        self.assertIsNone(self.repo.resolve())
        self.assertEqual(list(self.repo.log()), [])
        self.assertEqual(list(self.repo.names()), [])
        commands: List[Command[Any]] = [protocol.show("HEAD"), protocol.files("HEAD"), protocol.log(["HEAD"]), protocol.content("HEAD", "a")]
        for command in commands:
            with self.refused("UnbornHead"):
                self.repo.run(command)
        self.assertEqual((self.repo.files(), self.repo.list(), list(self.repo.contents())), ([], [], []))
        for ask in (self.repo.read, self.repo.content, self.repo.blame, self.repo.list):
            with self.assertRaises(wunthavel.NoSuchPath) as met:
                ask("a")
            self.assertEqual(met.exception.values, ("a",))

    def test_names_that_are_not_full_are_of_branches(self) -> None:
        first = self.repo.commit("Begin", name="side").put("a", b"1").run()
        self.repo.move({"next": first})
        self.repo.move([("last", NEW, "next")])
        self.repo.rename("next", "later")
        self.repo.delete("last", first)
        self.repo.tag("v1", first)
        self.assertEqual([it.name for it in self.repo.names("heads")], ["refs/heads/later", "refs/heads/side"])
        self.assertEqual([it.name for it in self.repo.names()], ["refs/heads/later", "refs/heads/side", "refs/tags/v1"])

    def test_a_refusal_names_what_it_is_about(self) -> None:
        first = self.repo.commit("Begin").put("a", b"1").run()
        asks: List[Tuple[Callable[[], object], Type[wunthavel.Refused], Tuple[str, ...]]] = [
            (lambda: self.repo.move({"good": first, "b..ad": first}), wunthavel.BadName, ("refs/heads/b..ad",)),
            (lambda: self.repo.commit("x", name="b ad").run(), wunthavel.BadName, ("refs/heads/b ad",)),
            (lambda: self.repo.commit("x").put("good", b"").put("b//ad", b"").run(), wunthavel.BadPath, ("b//ad",)),
            (lambda: self.repo.commit("x").put("good", b"").put("large", bytes((16 << 20) + 1)).run(), wunthavel.TooLarge, ("large",)),
            (lambda: self.repo.commit("x", expect=NEW).run(), wunthavel.Taken, ()),
            (lambda: self.repo.commit("x", name="main", expect=NEW).run(), wunthavel.Taken, ("refs/heads/main",)),
            (lambda: self.repo.read("none"), wunthavel.NoSuchPath, ("none",)),
            (lambda: self.repo.delete("none"), wunthavel.NoSuchName, ("refs/heads/none",)),
        ]
        for ask, kind, values in asks:
            with self.subTest(kind=kind), self.assertRaises(kind) as met:
                ask()
            self.assertEqual(tuple(it for it in met.exception.values if it != "HEAD"), values)
            self.assertEqual(met.exception.cause, kind.__name__)

    def test_each_cause_of_the_protocol_has_a_class(self) -> None:
        with open(os.path.join(os.path.dirname(__file__), "../../../docs/PROTOCOL.md"), encoding="utf-8") as it:
            rows = re.findall(r"^\| (`[A-Z][^|]*) \|", it.read().partition("## Refusals")[2], re.MULTILINE)
        causes = [it for row in rows for it in re.findall(r"`([A-Z]\w+)", row)]
        self.assertGreater(len(causes), 40)
        for it in causes:
            self.assertTrue(issubclass(getattr(wunthavel, it), wunthavel.Refused), it)
            self.assertIs(type(wunthavel.Refused.of(it)), getattr(wunthavel, it))

    def test_a_commit_that_is_not_run_warns(self) -> None:
        edit = self.repo.commit("Begin").put("a", b"1")
        with self.assertWarnsRegex(ResourceWarning, "Begin"):
            del edit
        with self.assertRaises(KeyError), self.repo.commit("Begin"):
            raise KeyError

    def test_update(self) -> None:
        self.repo.commit("Begin").put("count", b"0").run()

        def count(edit: wunthavel.CommitBuilder) -> None:
            assert edit.base is not None
            edit.put("count", b"%d" % (1 + int(self.repo.read("count", edit.base))))

        threads = [threading.Thread(target=lambda: [self.repo.update("main", count, "Count") for _ in range(25)]) for _ in range(4)]
        for it in threads:
            it.start()
        for it in threads:
            it.join()
        self.assertEqual(self.repo.read("count"), b"100")
        id = self.repo.update("new", lambda edit: self.assertIsNone(edit.put("a", b"1").base))
        self.assertEqual((self.repo.resolve("new"), self.repo.show(id).message), (id, "update"))

    def test_words_of_parents(self) -> None:
        ids = self.chain(6)
        aside = self.repo.commit("Aside", name="aside", parents=["main~4"]).put("aside", b"").run()
        merge = self.repo.commit("Merge", parents=["aside^0"]).run()
        words = {"HEAD~1": ids[5], "HEAD^": ids[5], "main^1~4": ids[1], "main~5": ids[1], "HEAD^2": aside, "main^2~": ids[1], "aside~": ids[1], "main~0": merge, merge + "~~": ids[4]}
        for word, id in words.items():
            self.assertEqual(self.repo.resolve(word), id, word)
        self.assertEqual(self.repo.read("page", "main~3"), b"3\n")
        self.assertEqual(self.repo.log_ids("main~4", hidden="main~6"), [ids[2], ids[1]])
        for word in ("main~7", "main^3", "aside^2"):
            with self.assertRaises(wunthavel.UnknownWord) as met:
                self.repo.show(word)
            self.assertIn(word, str(met.exception))
        self.repo.commit("Graft", expect="main~0").graft("old", "page", at="main~4").run()
        self.assertEqual(self.repo.read("old"), b"2\n")
        self.repo.move({"back": "main~3"})
        self.assertEqual(self.repo.resolve("back"), ids[4])

    def test_commits_with_compare_and_set(self) -> None:
        first = self.repo.commit("Begin", expect=NEW).put("a", b"1").put("bin/b", b"2", "exec").put("l", b"a", "link").run()
        with self.refused("Taken"):
            self.repo.commit("Begin again", expect=NEW).run()
        with self.repo.commit("Go on", expect=first) as edit:
            edit.put("a", b"3").remove("bin").remove("nothing").remove_file("l")
        with self.refused("NotExpected"):
            self.repo.commit("Late", expect=first).put("a", b"4").run()
        self.assertEqual(self.repo.resolve(), edit.id)
        self.assertEqual(self.repo.files(), [File("file", "e440e5c842586965a7fb77deda2eca68612b1f53", "a")])
        self.assertEqual([it.path for it in self.repo.files(first)], ["a", "bin/b", "l"])
        self.assertEqual(self.repo.content("bin/b", first), wunthavel.Content("exec", "d8263ee9860594d2806b0dfd1bfd17528b0ba2a4", b"2"))

    def test_a_block_that_raises_commits_nothing(self) -> None:
        with self.assertRaises(KeyError), self.repo.commit("Begin"):
            raise KeyError
        self.assertIsNone(self.repo.resolve())

    def test_what_a_commit_tells(self) -> None:
        charles = wunthavel.Actor("Charles", "", 5, "-0730")
        first = self.repo.commit("Begin\n\nWith a body.\n", author=charles, committer=ADA).run()
        second = self.repo.commit("Aside", name="refs/heads/side").put("s", b"").run()
        merge = self.repo.commit("Merge", parents=["side"]).graft("from", at="side").run()
        commit = self.repo.show(first)
        self.assertEqual((commit.id, commit.parents, commit.author, commit.committer), (first, (), charles, ADA))
        self.assertEqual((commit.title, commit.message), ("Begin", "Begin\n\nWith a body.\n"))
        self.assertEqual(self.repo.show(merge).parents, (first, second))
        self.assertEqual(self.repo.read("from/s"), b"")

    def test_names(self) -> None:
        first, second = self.chain(2)
        tag = self.repo.tag("v1", first, "First")
        self.repo.move([("refs/heads/next", NEW, "v1"), ("refs/heads/main", second, first)])
        self.repo.move({"refs/heads/next": second})
        self.repo.rename("refs/heads/next", "refs/heads/later")
        self.repo.switch("later")
        self.repo.pack()
        names = self.repo.names()
        self.assertEqual(names.head, "refs/heads/later")
        self.assertEqual([(it.name, it.id, it.commit) for it in names], [("refs/heads/later", second, second), ("refs/heads/main", first, first), ("refs/tags/v1", tag, first)])
        self.assertEqual([it.name for it in self.repo.names("refs/tags")], ["refs/tags/v1"])
        self.assertTrue(names[2].is_tag and not names[0].is_tag)
        with self.refused("NotExpected"):
            self.repo.delete("refs/heads/main", second)
        self.repo.delete("refs/heads/main", first)
        with self.refused("NoSuchName"):
            self.repo.delete("refs/heads/main")
        past = self.repo.past("v1")
        self.assertEqual([(it.before, it.after, it.actor, it.title) for it in past], [(None, tag, ADA, "First")])

    def test_log(self) -> None:
        ids = self.chain(5)
        self.repo.commit("Other").put("other", b"").run()
        self.assertEqual([it.title for it in self.repo.log("page", 2)], ["Page 4", "Page 3"])
        self.assertEqual(self.repo.log_ids(ids[3], hidden=ids[1]), [ids[3], ids[2]])
        self.assertEqual(len(self.repo.log_ids(order="date")), 6)
        self.assertEqual(list(self.repo.log(limit=0)), [])
        self.assertEqual(self.repo.index(), 6)
        self.assertEqual([it.id for it in self.repo.log(at=ids[1])], [ids[1], ids[0]])

    def test_any_bytes(self) -> None:
        paths = [" a b ", "new\nline", "\udcff\udcfe", "ü", "-", "put file 1 1"]
        edit = self.repo.commit("Any\udcff\n\x01")
        for it in paths:
            edit.put(it, protocol.raw(it) * 3)
        edit.run()
        self.assertEqual([it.path for it in self.repo.files()], sorted(paths, key=protocol.raw))
        for it in paths:
            self.assertEqual(self.repo.read(it), protocol.raw(it) * 3)
        self.assertEqual(self.repo.read(b"\xff\xfe"), b"\xff\xfe" * 3)
        self.assertEqual(self.repo.show().message, "Any\udcff\n\x01")
        self.assertEqual([it.title for it in self.repo.log([b"\xff\xfe"])], ["Any\udcff"])

    def test_nobody_named(self) -> None:
        self.repo.actor = None
        with self.assertRaises(ValueError):
            self.repo.commit("Begin")
        self.repo.commit("Begin", author="A <b@c>").run()
        self.assertEqual(self.repo.show().author.name, "A")

    def test_a_large_content(self) -> None:
        data = random.Random(1).getrandbits(8 * (16 << 20)).to_bytes(16 << 20, "big")
        self.repo.commit("Large").put("large", data).run()
        self.assertEqual(self.repo.read("large"), data)
        with self.refused("TooLarge"):
            self.repo.commit("Larger").put("large", data + b"1").run()


class Sha256(Commands):
    sha256 = True

    def test_commits_with_compare_and_set(self) -> None:
        id = self.repo.commit("Begin", expect=NEW).put("a", b"").run()
        self.assertEqual(len(id), 64)
        self.assertEqual([len(it) for it in self.repo.log_ids()], [64])

    def test_what_a_commit_tells(self) -> None:
        self.repo.commit("Begin").put("a", b"").run()
        self.repo.close()
        with wunthavel.Repo(self.store) as found:
            self.assertTrue(found.sha256)
            self.assertEqual(found.show().title, "Begin")
        wunthavel.Repo.check(self.store)


class Batches(WithRepo):
    def test_many_sent_before_one_is_read(self) -> None:
        self.chain(1)
        sent = [self.repo.send(protocol.show("HEAD")) for _ in range(20000)]
        self.assertEqual({it.result().title for it in sent}, {"Page 0"})

    def test_replies_come_in_order(self) -> None:
        ids = self.chain(300)
        self.assertEqual([it.id for it in self.repo.batch(protocol.show(it) for it in ids)], ids)
        self.assertEqual([it.id for it in self.repo.log()], ids[::-1])

    def test_large_both_ways(self) -> None:
        data = bytes(1 << 20)
        commands = (self.repo.commit(f"{it}").put("a", data + b"%d" % it).command() for it in range(12))
        list(self.repo.batch(commands))
        self.assertEqual(sum(len(it.data) for it in self.repo.batch(protocol.content("HEAD", "a") for _ in range(40))), 40 * ((1 << 20) + 2))

    def test_other_commands_between_the_replies(self) -> None:
        ids = self.chain(400)
        for commit, id in zip(self.repo.log(), reversed(ids)):
            self.assertEqual(self.repo.read("page", commit.id), b"%s\n" % commit.title[5:].encode())
            self.assertEqual(commit.id, id)

    def test_one_that_is_left_in_the_middle(self) -> None:
        self.chain(400)
        for commit in self.repo.log():
            break
        self.assertEqual(self.repo.show().title, "Page 399")
        self.assertEqual(commit.title, "Page 399")

    def test_refusals(self) -> None:
        self.chain(1)
        commands = [protocol.show(it) for it in ("HEAD", "none", "main")]
        self.assertEqual([getattr(it, "cause", "") for it in self.repo.results(iter(commands))], ["", "UnknownWord", ""])
        batch = self.repo.batch(commands)
        self.assertEqual(next(batch).title, "Page 0")
        with self.refused("UnknownWord"):
            next(batch)
        self.assertEqual(self.repo.show().title, "Page 0")

    def test_a_long_history_isnt_held(self) -> None:
        self.chain(3000)
        next(self.repo.log())
        gc.collect()
        tracemalloc.start()
        self.assertEqual(sum(1 for _ in self.repo.log()), 3000)
        peak = tracemalloc.get_traced_memory()[1]
        tracemalloc.stop()
        # 3,000 commits as objects are over 3 MB.
        self.assertLess(peak, 2_000_000)

    def test_threads_take_turns(self) -> None:
        ids = self.chain(50)
        wrong: List[str] = []

        def read(id: str) -> None:
            for _ in range(40):
                if self.repo.show(id).id != id:
                    wrong.append(id)

        threads = [threading.Thread(target=read, args=(it,)) for it in ids[:8]]
        for it in threads:
            it.start()
        for it in threads:
            it.join()
        self.assertEqual(wrong, [])


class Ends(WithRepo):
    def test_a_killed_engine_is_told_and_opened_again(self) -> None:
        ids = self.chain(3)
        os.kill(self.repo.pid, signal.SIGKILL)
        with self.assertRaises(wunthavel.EngineDied) as met:
            self.repo.show()
        self.assertIn("SIGKILL", str(met.exception))
        self.assertTrue(self.repo.closed)
        with self.assertRaises(wunthavel.EngineDied):
            self.repo.show()
        self.repo.reopen()
        self.assertEqual(self.repo.resolve(), ids[-1])

    def test_kills_lose_nothing_that_was_acknowledged(self) -> None:
        for delay in (0.01, 0.05, 0.1, 0.2):
            made = self.repo.resolve()
            timer = threading.Timer(delay, os.kill, (self.repo.pid, signal.SIGKILL))
            timer.start()
            try:
                for number in range(10000):
                    made = self.repo.commit(f"{number}").put(f"d/{number}", b"%d" % number).run()
            except wunthavel.EngineDied:
                pass
            timer.join()
            self.repo.reopen()
            self.assertTrue(made is None or made in self.repo.log_ids())
        self.repo.close()
        wunthavel.Repo.check(self.store)

    def test_a_batch_whose_engine_dies(self) -> None:
        self.chain(1)
        sent = [self.repo.send(protocol.show("HEAD")) for _ in range(2000)]
        self.repo.kill()
        with self.assertRaises(wunthavel.EngineDied):
            sent[-1].result()
        with self.assertRaises(wunthavel.EngineDied):
            list(self.repo.batch(protocol.show("HEAD") for _ in range(3)))

    def test_unfinished_offers_to_recover(self) -> None:
        id = self.chain(1)[0]
        self.repo.close()
        lock = os.path.join(self.store, "refs/heads/main.lock")
        open(lock, "w").close()
        with self.assertRaises(wunthavel.Unfinished) as met:
            wunthavel.Repo(self.store)
        self.assertEqual((met.exception.cause, met.exception.values[0]), ("Unfinished", "refs/heads/main.lock"))
        met.exception.recover()
        wunthavel.Repo(self.store).close()
        open(lock, "w").close()
        with wunthavel.Repo(self.store, recover=True) as repo:
            self.assertEqual(repo.resolve(), id)

    def test_folders_that_are_none(self) -> None:
        with self.refused("NoHead"):
            wunthavel.Repo(self.room)
        self.repo.close()
        with self.refused("NotEmpty"):
            wunthavel.Repo.create(self.store)
        with self.assertRaises(wunthavel.HistoryError):
            wunthavel.Repo(os.path.join(self.room, "nothing"))
        with open(os.path.join(self.store, "README"), "w", encoding="ascii") as it:
            it.write("hello")
        with self.refused("Stray"):
            wunthavel.Repo.check(self.store)

    def test_another_process_is_waited_for(self) -> None:
        busy = os.path.join(self.room, "busy")
        program = self.fake("sys.stdin.read()")
        with open(program, encoding="utf-8") as it:
            body = it.read()
        with open(program, "w", encoding="utf-8") as it:
            it.write(body.replace("folder =", f"if os.path.exists({busy!r}): sys.exit('fault File\\nnote: store: another process works there')\nfolder ="))
        open(busy, "w").close()
        with self.assertRaises(wunthavel.Busy) as met:
            wunthavel.Repo(self.store, engine=program, wait=0)
        self.assertIn("another process", str(met.exception))
        timer = threading.Timer(0.3, os.unlink, (busy,))
        timer.start()
        wunthavel.Repo(self.store, engine=program, wait=PATIENCE).close()
        timer.join()

    def test_no_engine(self) -> None:
        with self.assertRaises(wunthavel.EngineError):
            wunthavel.Repo(self.store, engine="/nothing/here")

    def impatient(self, body: str, seconds: float = 1.0) -> wunthavel.Repo:
        """Returns a repository over an engine that does this once it is open, and may be silent for some seconds then."""
        repo = wunthavel.Repo(self.store, engine=self.fake(body))
        self.addCleanup(repo.kill)
        repo._engine.timeout = seconds
        return repo

    def test_engines_that_misbehave(self) -> None:
        for body, said in [
            ("os.write(1, b'hello\\n'); time.sleep(600)", "can't be read"),
            ("os.write(1, b'ok show content file 1 3\\nabcd\\n'); time.sleep(600)", "can't be read"),
            ("os.write(1, b'ok show content file 1 x\\nabcd\\n'); time.sleep(600)", "can't be read"),
            ("os.write(1, b'ok show content file 1 3\\nab'); sys.exit(3)", "ended"),
            ("os.close(0); os.write(2, b'fault Write\\n'); sys.exit(1)", "fault Write"),
            ("time.sleep(600)", "didn't answer"),
        ]:
            with self.subTest(body=body):
                # A reply belongs to a command that was sent.
                repo = self.impatient(f"sys.stdin.buffer.readline(); {body}", 1.0 if "answer" in said else PATIENCE)
                with self.assertRaises(wunthavel.EngineDied) as met:
                    repo.run(protocol.content("a", "b"))
                self.assertIn(said, str(met.exception))
                repo.close()

    def test_a_fault_then_the_end(self) -> None:
        body = "sys.stdin.buffer.readline(); os.write(1, b'fault File\\n'); sys.exit('note: objects/unfinished: No space left on device')"
        repo = wunthavel.Repo(self.store, engine=self.fake(body))
        with self.assertRaises(wunthavel.Fault) as met:
            repo.pack()
        fault = met.exception
        self.assertEqual((fault.cause, fault.path, fault.reason, fault.errno), ("File", "objects/unfinished", "No space left on device", errno.ENOSPC))
        self.assertTrue(repo.closed)
        with self.assertRaises(wunthavel.EngineDied) as died:
            repo.pack()
        self.assertIn("No space left on device", str(died.exception))
        self.assertIn("reopen() recovers the folder", str(died.exception))
        repo.close()

    def test_faults_of_questions_each_with_its_note(self) -> None:
        body = "for it in range(300):\n  sys.stdin.buffer.readline(); os.write(1, b'fault File\\n'); time.sleep(0.001); os.write(2, b'note: objects/%d: Permission denied\\n' % it)"
        with wunthavel.Repo(self.store, engine=self.fake(body)) as repo:
            found = list(repo.results(protocol.show("HEAD") for _ in range(300)))
        self.assertEqual([getattr(it, "path", None) for it in found], [f"objects/{it}" for it in range(300)])
        self.assertEqual({getattr(it, "errno", None) for it in found}, {errno.EACCES})

    def test_a_fault_of_the_engine_itself(self) -> None:
        first = self.repo.commit("Begin").put("a", b"1").run()
        file = self.repo.show(first).tree
        os.unlink(os.path.join(self.store, "objects", file[:2], file[2:]))
        with self.assertRaises(wunthavel.Fault) as met:
            self.repo.files(first)
        self.assertEqual((met.exception.path, met.exception.errno), (f"objects/{file[:2]}/{file[2:]}", errno.ENOENT))
        self.assertEqual(self.repo.show().id, first)

    def test_an_engine_that_ended_is_known_to_have(self) -> None:
        os.kill(self.repo.pid, signal.SIGKILL)
        wait_until(lambda: self.repo.closed)

    def test_a_fork(self) -> None:
        first = self.chain(1)[0]
        child = os.fork()
        if not child:
            # Nothing of the tests is to run here.
            status = 1
            try:
                self.repo.show()
            except wunthavel.EngineError as error:
                status = 0 if "open the folder anew after fork" in str(error) else 2
            self.repo.close()
            os._exit(status)
        self.assertEqual(self.repo.show().id, first)
        begun = time.monotonic()
        self.repo.close()
        self.assertLess(time.monotonic() - begun, 20)
        self.assertEqual(self.repo._engine.over and self.repo._engine.over.status, 0)
        self.assertEqual(os.waitpid(child, 0)[1], 0)

    def test_closing_beside_a_child_that_lives_on(self) -> None:
        child = os.fork()
        if not child:
            time.sleep(PATIENCE)
            os._exit(0)
        begun = time.monotonic()
        self.repo.close()
        self.assertLess(time.monotonic() - begun, 20)
        self.assertEqual(self.repo._engine.over and self.repo._engine.over.status, 0)
        os.kill(child, signal.SIGKILL)
        os.waitpid(child, 0)

    def test_an_interrupted_wait_leaves_it_in_step(self) -> None:
        self.chain(1)
        self.repo.close()
        code = (
            "import os, signal, sys, threading, time, wunthavel\n"
            "from wunthavel import protocol\n"
            # A shell's background jobs begin with the signal ignored.
            "signal.signal(signal.SIGINT, signal.default_int_handler)\n"
            f"repo = wunthavel.Repo({self.store!r})\n"
            "until = time.monotonic() + 20\n"
            "try:\n"
            "    threading.Timer(0.3, os.kill, (os.getpid(), signal.SIGINT)).start()\n"
            "    while time.monotonic() < until:\n"
            "        assert repo.show().title == 'Page 0'\n"
            "except KeyboardInterrupt:\n"
            "    pass\n"
            "if repo.closed:\n"
            "    repo.reopen()\n"
            "print(repo.show().title)\n"
            "repo.close()\n"
        )
        done = subprocess.run([sys.executable, "-c", code], stdout=subprocess.PIPE, timeout=PATIENCE, check=True)
        self.assertEqual(done.stdout, b"Page 0\n")

    def is_in_step(self, ids: List[str]) -> None:
        """Each commit is shown, or the engine is known to have ended."""
        for id in ids:
            try:
                self.assertEqual(self.repo.show(id).id, id)
            except wunthavel.EngineDied as died:
                self.assertNotIn("answer", str(died))
                self.assertTrue(self.repo.closed)
                self.repo.reopen()
            self.repo._engine.timeout = PATIENCE

    def test_an_interruption_where_bytes_are_read_and_not_kept(self) -> None:
        ids = self.chain(3)
        self.repo._engine.timeout = PATIENCE
        read = os.read

        def interrupted(file: int, most: int) -> bytes:
            if read(file, most):
                raise KeyboardInterrupt
            return b""

        sent = self.repo.send(protocol.show(ids[0]))
        with mock.patch("os.read", interrupted), self.assertRaises(KeyboardInterrupt):
            sent.result()
        with self.assertRaises(wunthavel.EngineDied) as met:
            sent.result()
        self.assertIn("interrupted", str(met.exception))
        self.is_in_step(ids)

    def test_an_interruption_at_any_line(self) -> None:
        ids = self.chain(3)
        place, interrupted = 0, True
        while interrupted:
            place, interrupted = place + 1, False
            self.is_in_step(ids)
            left = itertools.count(1)

            def trace(frame: Any, event: str, _: Any) -> Any:
                if event == "line" and next(left) == place:
                    raise KeyboardInterrupt
                return trace if os.path.basename(frame.f_code.co_filename) in ("engine.py", "transport.py", "wire.py") else None

            sys.settrace(trace)
            try:
                self.repo.show(ids[0])
            except KeyboardInterrupt:
                interrupted = True
            finally:
                sys.settrace(None)
        self.assertGreater(place, 50)

    def test_an_interruption_of_the_end_is_gone_on_with(self) -> None:
        ids = self.chain(3)
        for part in ("_kill", "_ended"):
            with mock.patch.object(self.repo._engine.transport, part, side_effect=KeyboardInterrupt), self.assertRaises(KeyboardInterrupt):
                self.repo.kill()
            self.assertTrue(self.repo.closed)
            self.is_in_step(ids)

    def test_closing_with_replies_that_came_and_werent_looked_at(self) -> None:
        self.chain(1)
        sent = [self.repo.send(protocol.show("HEAD")) for _ in range(200)]
        time.sleep(0.5)
        self.assertEqual(sent[0].result().title, "Page 0")
        self.repo.close()
        self.assertEqual(sent[-1].result().title, "Page 0")

    def test_closing_twice_and_at_the_end_of_a_block(self) -> None:
        with self.repo as repo:
            id = repo.send(repo.commit("Sent and not looked at").command())
        self.assertEqual(len(id.result()), 40)
        self.repo.close()
        with wunthavel.Repo(self.store) as repo:
            self.assertEqual(repo.show().title, "Sent and not looked at")

    def test_a_block_that_raises_doesnt_do_what_isnt_sent(self) -> None:
        with self.assertRaises(KeyError), self.repo as repo:
            for it in range(30):
                repo.send(repo.commit(f"{it}").put("a", b"%d" % it + bytes(1 << 17)).command())
            raise KeyError
        wunthavel.Repo.check(self.store)
        with wunthavel.Repo(self.store) as repo:
            self.assertLess(len(repo.log_ids()) if repo.resolve() else 0, 30)

    def test_waiting_takes_no_time_of_the_processor(self) -> None:
        repo = self.impatient("time.sleep(600)")
        begun = time.thread_time()
        with self.assertRaises(wunthavel.EngineDied):
            repo.pack()
        self.assertLess(time.thread_time() - begun, 0.5)


class OnTheClientsSide(WithRepo):
    def test_list(self) -> None:
        self.repo.commit("Begin").put("b", b"").put("a/x/y", b"").put("a/z", b"", "exec").put("a.c", b"").run()
        self.assertEqual([(it.name, it.kind) for it in self.repo.list()], [("a", "folder"), ("a.c", "file"), ("b", "file")])
        self.assertEqual([(it.path, it.kind) for it in self.repo.list("a/")], [("a/x", "folder"), ("a/z", "exec")])
        for it in ("b", "c", "a/z"):
            with self.refused("NoSuchPath"):
                self.repo.list(it)

    def test_diff_names(self) -> None:
        first = self.repo.commit("Begin").put("same", b"").put("goes", b"").put("kind", b"").put("content", b"1").run()
        self.repo.commit("Go on").remove("goes").put("kind", b"", "exec").put("content", b"2").put("a b", b"").run()
        self.assertEqual([(it.kind, it.path) for it in self.repo.diff_names(first)], [("added", "a b"), ("changed", "content"), ("removed", "goes"), ("changed", "kind")])
        self.assertEqual([it.kind for it in self.repo.diff_names(None, first)], ["added"] * 4)
        self.assertEqual(self.repo.diff_names("HEAD", "main"), [])
        self.assertEqual(self.repo.changed_by(), self.repo.diff_names(first))
        self.assertIsInstance(self.repo.changed_by(first)[0], Change)

    def test_blame(self) -> None:
        self.repo.commit("one").put("p", b"a\nb\nc\n").run()
        self.repo.commit("two").put("p", b"a\nB\nc\nd").run()
        self.repo.commit("elsewhere").put("q", b"").run()
        self.assertEqual([(it.number, it.data, it.commit.title) for it in self.repo.blame("p")], [(1, b"a\n", "one"), (2, b"B\n", "two"), (3, b"c\n", "one"), (4, b"d", "two")])
        for path, cause in (("none", "NoSuchPath"), ("", "BadPath")):
            with self.refused(cause):
                self.repo.blame(path)

    def test_blame_asks_a_few_times(self) -> None:
        for number in range(3):
            self.repo.commit(f"{number}").put("p", b"".join(b"%d\n" % it for it in range(number + 1))).run()
            list(self.repo.batch(self.repo.commit("other").put("q", b"%d %d" % (number, it)).command() for it in range(200)))
        with mock.patch.object(self.repo._engine, "wait", wraps=self.repo._engine.wait) as wait:
            self.assertEqual([it.commit.title for it in self.repo.blame("p")], ["0", "1", "2"])
        self.assertLess(wait.call_count, 30)

    def test_diff(self) -> None:
        first = self.repo.commit("Begin").put("p", b"a\nb\nc\n").put("z", b"\0").put("q", b"1").run()
        self.repo.commit("Go on").put("p", b"a\nB\nc\nd").put("z", b"\0\0").remove("q").run()
        self.assertEqual(self.repo.diff(first, "HEAD", "p"), b"--- a/p\n+++ b/p\n@@ -1,3 +1,4 @@\n a\n-b\n+B\n c\n+d\n\\ No newline at end of file\n")
        self.assertEqual(self.repo.diff(first, "HEAD", "q"), b"--- a/q\n+++ /dev/null\n@@ -1 +0,0 @@\n-1\n\\ No newline at end of file\n")
        self.assertEqual(self.repo.diff(first, "HEAD", "z"), b"Binary files a/z and b/z differ\n")
        self.assertEqual(self.repo.diff(first, first, "p"), b"")

    @unittest.skipUnless(shutil.which("git"), "there is no git")
    def test_git_applies_a_diff(self) -> None:
        chance = random.Random(5)
        for _ in range(40):
            old, new = (b"".join(chance.choice([b"a\n", b"b\n", b"c\r\n", b"\n"]) for _ in range(chance.randrange(12))) + chance.choice([b"", b"end"]) for _ in range(2))
            with open(os.path.join(self.room, "p"), "wb") as it:
                it.write(old)
            patch = unified(old, new, "p")
            if old and new and patch:
                subprocess.run(["git", "apply", "--whitespace=nowarn", "-"], input=patch, cwd=self.room, check=True, env={**os.environ, "GIT_DIR": "/nowhere"})
                with open(os.path.join(self.room, "p"), "rb") as it:
                    self.assertEqual(it.read(), new)

    def test_what_a_name_was_at(self) -> None:
        made = {}
        for seconds in (100, 200, 300):
            made[seconds] = self.repo.commit(f"{seconds}", author=wunthavel.Actor("A", "", seconds)).put("a", b"%d" % seconds).run()
        for seconds, wanted in ((250, made[200]), (300, made[300]), (10**9, made[300]), (100, made[100])):
            self.assertEqual(self.repo.as_of("main", seconds), wunthavel.AsOf(wanted, "log"))
        self.assertEqual(self.repo.as_of("main", 99), wunthavel.AsOf(None, "time"))
        self.repo.close()
        os.unlink(os.path.join(self.store, "logs/refs/heads/main"))
        self.repo = wunthavel.Repo(self.store)
        self.assertEqual(self.repo.as_of("main", 250), wunthavel.AsOf(made[200], "time"))
        self.assertEqual(self.repo.as_of("main", 99), wunthavel.AsOf(None, "time"))

    def test_bytes_that_are_not_what_was_stored(self) -> None:
        id = "ce013625030ba8dba906f756967f9e9ca394464a"
        body = f"for _ in range(4):\n  sys.stdin.buffer.readline(); sys.stdin.buffer.readline(); os.write(1, b'ok show content file {id} 6\\nhallo\\n\\n')"
        with wunthavel.Repo(self.store, engine=self.fake(body)) as repo:
            for ask in (repo.read, repo.content):
                with self.assertRaises(wunthavel.Damaged) as met:
                    ask("greeting")
                self.assertEqual((met.exception.path, met.exception.id), ("greeting", id))
                self.assertIn("wunthavel verify", str(met.exception))
            self.assertEqual(repo.read("greeting", check=False), b"hallo\n")
            self.assertEqual(repo.content("greeting", check=False).data, b"hallo\n")

    def test_contents(self) -> None:
        self.repo.commit("Begin").put("a", b"1").put("d/b", b"2").put("d/c", b"3", "exec").run()
        self.assertEqual([(file.path, content.data) for file, content in self.repo.contents()], [("a", b"1"), ("d/b", b"2"), ("d/c", b"3")])
        self.assertEqual([(file.path, content.kind) for file, content in self.repo.contents("d/", "main")], [("d/b", "file"), ("d/c", "exec")])

    def test_blame_through_merges_agrees_with_a_walk_over_all_commits(self) -> None:
        for seed in range(6):
            if self.repo.resolve():
                self.repo.delete("refs/heads/main")
            self.merges(random.Random(seed))
            with self.subTest(seed=seed):
                self.assertEqual([it.commit.id for it in self.repo.blame("p")], self.plain_blame("p"))

    def merges(self, chance: random.Random) -> None:
        """Makes a history in which each line is written once, and files have their lines in one order."""
        tips: Dict[str, List[bytes]] = {"refs/heads/main": []}
        for step in range(40):
            name, other = chance.choice(sorted(tips)), chance.choice(sorted(tips))
            lines = sorted(tips[name] + [b"%09d of %d\n" % (chance.randrange(10**9), step) for _ in range(chance.randrange(4))])
            if lines and chance.random() < 0.3:
                lines.pop(chance.randrange(len(lines)))
            merges = chance.random() < 0.4 and self.repo.resolve(other) != self.repo.resolve(name)
            edit = self.repo.commit(f"{step}", name=name, parents=[other] if merges else [])
            if merges:
                lines = sorted({*tips[name], *tips[other]})
            else:
                edit.put("other", b"%d" % step)
            edit.put("p", b"".join(lines)) if lines else edit.remove("p")
            edit.run()
            tips[name] = lines
            if len(tips) < 3 and chance.random() < 0.2:
                self.repo.move({f"refs/heads/fork{step}": name})
                tips[f"refs/heads/fork{step}"] = lines
        self.repo.commit("last").put("p", b"".join(tips["refs/heads/main"]) + b"end\n").run()
        for it in sorted(tips)[:-1]:
            self.repo.delete(it)

    def plain_blame(self, path: str) -> List[str]:
        """The oldest commits that have each line, since a line is written once."""
        found = {}
        for commit in self.repo.log():
            try:
                for line in self.repo.read(path, commit.id).splitlines(keepends=True):
                    found[line] = commit.id
            except wunthavel.Refused:
                pass
        return [found[it] for it in self.repo.read(path).splitlines(keepends=True)]

    def test_same_lines(self) -> None:
        chance = random.Random(3)
        for _ in range(300):
            old = [b"%d" % chance.randrange(5) for _ in range(chance.randrange(9))]
            new = [b"%d" % chance.randrange(5) for _ in range(chance.randrange(9))]
            pairs = list(same_lines(old, new))
            self.assertEqual([old[it] for it, _ in pairs], [new[it] for _, it in pairs])
            self.assertTrue(all(a[0] < b[0] and a[1] < b[1] for a, b in zip(pairs, pairs[1:])))


if __name__ == "__main__":
    unittest.main()
