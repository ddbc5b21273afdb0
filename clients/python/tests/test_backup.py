"""`wunthavel backup`: the copy is whole while others work, what is new alone is copied, and a copy that isn't whole doesn't replace the last one."""
import json
import os
import subprocess
import sys
import threading
import unittest
from typing import Any, Dict, List
from unittest import mock

import wunthavel
from tests.support import ADA, PATIENCE, WithRepo, wait_until
from wunthavel import NotHeld, backup, protocol
from wunthavel.objects import stored

PACKAGE = os.path.dirname(os.path.dirname(os.path.abspath(__file__)))


def all_files(folder: str) -> Dict[str, bytes]:
    """Returns the bytes of the files by their paths."""
    found = {}
    for at, _, names in os.walk(folder):
        for name in names:
            with open(os.path.join(at, name), "rb") as it:
                found[os.path.relpath(os.path.join(at, name), folder)] = it.read()
    return found


class WithBackup(WithRepo):
    def setUp(self) -> None:
        super().setUp()
        self.dest = os.path.join(self.room, "backup")
        self.chain(5)
        self.repo.tag("v1", "HEAD", "First")

    def beside(self) -> List[str]:
        """Returns what is beside the backup."""
        return sorted(it for it in os.listdir(self.room) if it.startswith("backup"))


class Backup(WithBackup):
    def test_the_copy_has_the_same_bytes(self) -> None:
        self.repo.close()
        told = backup.backup(self.store, self.dest)
        self.assertEqual(all_files(self.dest), all_files(self.store))
        self.assertEqual(told["objects"], len(list(stored(os.fsencode(self.store)))))
        self.assertEqual(self.beside(), ["backup", "backup.lock"])

    def test_what_is_new_alone_is_copied(self) -> None:
        self.repo.close()
        backup.backup(self.store, self.dest)
        self.repo.reopen()
        self.repo.pack()
        # A commit, its tree and its content.
        self.repo.commit("More").put("more", b"more").run()
        self.repo.close()
        self.assertEqual(backup.backup(self.store, self.dest)["objects"], 3)
        self.assertEqual(all_files(self.dest), all_files(self.store))

    def test_a_folder_that_an_engine_has(self) -> None:
        with mock.patch("wunthavel.bridge_folder.WAIT", 0.1), self.assertRaisesRegex(wunthavel.errors.HistoryError, "another process works there"):
            backup.backup(self.store, self.dest)

    def test_damage_is_not_copied_over_the_last_backup(self) -> None:
        self.repo.close()
        backup.backup(self.store, self.dest)
        before = all_files(self.dest)
        self.repo.reopen()
        id = self.repo.commit("More").put("page", b"more").run()
        self.repo.close()
        place = os.path.join(self.store, "objects", id[:2], id[2:])
        os.truncate(place, 0)
        with self.assertRaisesRegex(backup.BackupError, f"objects/{id[:2]}/{id[2:]}"):
            backup.backup(self.store, self.dest)
        after = all_files(self.dest)
        self.assertEqual({it: data for it, data in after.items() if it in before}, before)
        wunthavel.Repo.check(self.dest)
        os.remove(place)
        with self.assertRaisesRegex(backup.BackupError, "isn't whole"):
            backup.backup(self.store, self.dest)
        self.assertEqual({it: data for it, data in all_files(self.dest).items() if it in before}, before)

    def test_a_stop_at_each_rename_leaves_the_last_backup_or_the_next(self) -> None:
        self.repo.close()
        backup.backup(self.store, self.dest)
        for stop in range(3):
            self.repo.reopen()
            self.repo.commit(f"More {stop}").put("page", b"more %d" % stop).run()
            self.repo.close()
            renames, real = [], os.rename

            def rename(old: Any, new: Any) -> None:
                if not os.fsencode(old).endswith(b"unfinished"):
                    renames.append(new)
                    if len(renames) > stop:
                        raise KeyboardInterrupt
                real(old, new)

            with mock.patch("os.rename", rename), self.assertRaises(KeyboardInterrupt):
                backup.backup(self.store, self.dest)
            backup.backup(self.store, self.dest)
            self.assertEqual(all_files(self.dest), all_files(self.store))
            self.assertEqual(self.beside(), ["backup", "backup.lock"])

    def test_a_folder_that_is_no_backup_stays(self) -> None:
        self.repo.close()
        os.mkdir(self.dest)
        with open(os.path.join(self.dest, "mine"), "wb"):
            pass
        with self.assertRaisesRegex(backup.BackupError, "is no backup"):
            backup.backup(self.store, self.dest)
        self.assertEqual(os.listdir(self.dest), ["mine"])

    def test_the_command(self) -> None:
        self.repo.close()
        env = {**os.environ, "PYTHONPATH": PACKAGE}
        words = [sys.executable, "-m", "wunthavel", "backup", self.store, self.dest, "--json"]
        done = subprocess.run(words, env=env, stdout=subprocess.PIPE, timeout=PATIENCE)
        # HEAD, two names, two logs.
        self.assertEqual((done.returncode, json.loads(done.stdout)["names"]), (0, len([it for it in all_files(self.store) if not it.startswith("objects")])))
        wunthavel.Repo.check(self.dest)


class OfSha256(WithBackup):
    sha256 = True

    def test_ids_of_sha256(self) -> None:
        self.repo.close()
        backup.backup(self.store, self.dest)
        self.assertEqual(all_files(self.dest), all_files(self.store))


class BesideAServer(WithBackup):
    def setUp(self) -> None:
        super().setUp()
        self.repo.close()
        self.socket = os.path.join(self.room, "s")
        words = [sys.executable, "-m", "wunthavel", "serve", self.socket, self.store, "--quiet"]
        process = subprocess.Popen([*words, "--read-only", self.socket + ".r"], env={**os.environ, "PYTHONPATH": PACKAGE})
        self.addCleanup(process.wait)
        self.addCleanup(process.terminate)
        wait_until(lambda: os.path.exists(self.socket + ".r"))

    def connect(self) -> wunthavel.ServedRepo:
        repo = wunthavel.connect(self.socket, actor=ADA, wait=PATIENCE)
        self.addCleanup(repo.close)
        return repo

    def test_a_backup_while_others_commit(self) -> None:
        done, counts = threading.Event(), []

        def work(name: str) -> None:
            repo = self.connect()
            while not done.is_set():
                # Two names that are moved together are always at the same commit.
                id = repo.commit("On", name=name).put("page", b"%d" % len(counts)).run()
                repo.move({f"{name}-a": id, f"{name}-b": id})
                counts.append(id)

        threads = [threading.Thread(target=work, args=(f"refs/heads/w{it}",)) for it in range(3)]
        for it in threads:
            it.start()
        try:
            for _ in range(3):
                seen = len(counts)
                wait_until(lambda: len(counts) > seen + 5)
                acknowledged = list(counts)
                backup.backup(self.store, self.dest, self.socket)
                with wunthavel.Repo(self.dest) as copy:
                    names = {it.name: it.commit for it in copy.names()}
                    copied = set(copy.log_ids([it for it in names]))
                self.assertEqual([names[f"refs/heads/w{it}-a"] for it in range(3)], [names[f"refs/heads/w{it}-b"] for it in range(3)])
                self.assertLessEqual(set(acknowledged), copied)
        finally:
            done.set()
            for it in threads:
                it.join()

    def test_changes_wait_and_questions_do_not(self) -> None:
        holder, other, reader = self.connect(), self.connect(), self.connect()
        holder.run(protocol.hold(60_000))
        sent = other.send(other.commit("Later").put("page", b"later").command())
        for _ in range(20):
            self.assertEqual(reader.show().title, "Page 4")
        with self.assertRaises(wunthavel.Busy):
            reader.run(protocol.hold(1))
        self.assertFalse(sent.done)
        holder.run(protocol.release())
        self.assertEqual(reader.show(sent.result()).title, "Later")

    def test_a_hold_ends_with_its_time_or_its_client(self) -> None:
        holder, other = self.connect(), self.connect()
        holder.run(protocol.hold(1))
        other.commit("After its time").run()
        with self.assertRaises(NotHeld):
            holder.run(protocol.release())
        holder.run(protocol.hold(60_000))
        holder.close()
        other.commit("After its end").run()
        with self.assertRaises(NotHeld):
            other.run(protocol.release())

    def test_who_only_reads_holds_nobody_up(self) -> None:
        with wunthavel.connect(self.socket + ".r") as reader, self.refused("ReadOnly"):
            reader.run(protocol.hold(1))


if __name__ == "__main__":
    unittest.main()
