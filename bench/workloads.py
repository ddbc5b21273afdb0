"""The workloads: each with its size, what the program does, and what others do of the same."""
import functools
import random

import facts
import streams
from measure import Workload

LARGE = 16 * 1024 * 1024


class Workloads:
    """Of the greatest size, or small ones that show whether all works."""

    def __init__(self, ours, git, others, is_small):
        self.ours, self.git, self.others = ours, git, others
        self.commits, self.history, self.names, self.part = (60, 200, 400, 10) if is_small else (1600, 4000, 10_000, 100)
        self.trees = (100, 400) if is_small else (1000, 10_000)
        self.large = LARGE // 64 if is_small else LARGE

    def table(self):
        """What makes the workloads, in their order, with its words."""
        few, many = self.trees
        return [(self.committing, few), (self.committing, many),
                (self.log, "topological", "--topo-order"), (self.log, "newest"), (self.log_indexed,), (self.index,),
                (self.opening, "run"), (self.opening, "check"), (self.files,), (self.show,),
                (self.list_names, "loose"), (self.list_names, "packed"), (self.move_names, "loose"), (self.move_names, "packed"),
                (self.make_names,), (self.pack_names,), (self.rename_names,), (self.delete_names, "loose"), (self.delete_names, "packed"),
                (self.tiny, True, self.history // 2), (self.tiny, True, self.history * 2), (self.tiny, False, self.history * 2),
                (self.content, "sha1"), (self.content, "sha256"), (self.start,)]

    # Commits.

    def committing(self, files):
        history = streams.changing(files, self.commits)
        ours = self.ours.run(self.ours.kept("empty"), streams.ours(history), {"tip": facts.tip, "files": facts.contents})
        imports = [self.git.importing(how, streams.fast_import(history)) for how in ("loose", "pack")]
        return Workload(f"commits of 3 changes, after one of {files:,} files", self.commits, ours,
                        [self.others.bare_way("write", self.ours.kept("empty"), {"files": facts.contents}, facts.records), *imports])

    def tiny(self, has_file, count):
        commits = streams.tiny(count, has_file)
        ours = self.ours.whole([], {"tip": facts.tip}, streams.ours(commits))
        return Workload(f"commits of {'one file' if has_file else 'no file'}, in memory", count, ours,
                        [self.git.importing("pack", streams.fast_import(commits))])

    # Logs, of a history with merges.

    @functools.cached_property
    def merging(self):
        """A folder and a repository with the same history."""
        commits = streams.merging(self.history)
        return self.ours.kept("log", streams.ours(commits)), self.git.kept("log", streams.fast_import(commits))

    def log(self, order, *flags):
        folder, repository = self.merging
        ours, peers = self.log_ways(order, flags, folder, repository)
        return Workload(f"log {order}, from files", self.history, ours, [self.reading("read", folder), *peers])

    def log_indexed(self):
        folder, _ = self.merging
        repository = self.git.kept("graph", streams.fast_import(streams.merging(self.history)))
        self.git.call(repository, "commit-graph", "write", "--reachable")
        ours, peers = self.log_ways("topological", ["--topo-order"], folder, repository, 50, first=b"index\n")
        return Workload("log topological, after index", self.history, ours, peers)

    def log_ways(self, order, flags, folder, repository, times=5, **words):
        """So many logs."""
        says = {"list": lambda it: facts.reply(it.output, b"log"), "objects": facts.objects}
        ours = self.ours.run(folder, b"log %s all +main\n" % order.encode() * times, says, times, **words)
        says = {"list": lambda it: facts.lines(it, times)}
        return ours, [self.git.run(repository, ["log", "--format=%H", *flags, "main"], says, b"", times, times),
                      *self.others.libgit2_ways(order, repository, says, b"", times, times)]

    def reading(self, action, folder):
        """The bare reading of all objects."""
        paths = b"".join(b"%s\n" % str(it.relative_to(folder)).encode() for it in sorted(folder.glob("objects/??/*")))
        return self.others.bare_way(action, folder, {"objects": facts.number}, paths)

    def index(self):
        folder, repository = self.merging
        ours = self.ours.run(folder, b"index\n", {"commits": facts.number})
        return Workload("index", self.history, ours, [self.git.run(repository, ["commit-graph", "write", "--reachable"], {"commits": facts.graphed})])

    # Opening and checking.

    def opening(self, action):
        commits = streams.deep(self.history // 5)
        folder, repository = self.ours.kept("deep", streams.ours(commits)), self.git.kept("deep", streams.fast_import(commits))
        says, peers = {"objects": facts.objects}, [self.reading("digest", folder)]
        peers += [self.git.run(repository, ["fsck"], says), *self.others.libgit2_ways("check", repository, {"objects": facts.number})]
        name = {"run": "opening objects", "check": "check of objects"}[action]
        return Workload(name, self.history, self.ours.whole([action, "FOLDER"], says, b"", folder), peers)

    # Files.

    def tree(self, files):
        """A folder and a repository with so many files."""
        commits = [streams.first(files)]
        return self.ours.kept(f"tree-{files}", streams.ours(commits)), self.git.kept(f"tree-{files}", streams.fast_import(commits))

    def files(self):
        (folder, repository), times = self.tree(self.trees[1]), 10
        ours = self.ours.run(folder, b"files main\n" * times, {"files": lambda it: facts.files_in(facts.reply(it.output, b"files"))}, times)
        says = {"files": lambda it: facts.tree_rows(facts.lines(it, times))}
        return Workload("files", self.trees[1], ours, [self.git.run(repository, ["ls-tree", "-r", "main"], says, b"", times, times)])

    def show(self):
        (folder, repository), paths = self.tree(self.trees[0]), streams.paths(self.trees[0])
        ours = self.ours.run(folder, b"".join(b"show main path %d\n%s\n" % (len(it), it) for it in paths), {"contents": facts.shown})
        says, given = {"contents": lambda it: it.output}, b"".join(b"main:%s\n" % it for it in paths)
        return Workload("show of a path", self.trees[0], ours, [self.git.run(repository, ["cat-file", "--batch"], says, given),
                                                                  *self.others.libgit2_ways("show", repository, says, given)])

    # Names.

    def named(self, state):
        """A folder and a repository with many names at a hundred commits, loose or packed."""
        bases, names = streams.bases(self.part), streams.names(self.names)
        given = streams.ours(bases) + streams.spread(names, self.part)
        pack = b"pack\n" if state == "packed" else b""
        repository = self.git.kept(f"names-{state}", streams.fast_import(bases)[:-5] + streams.resets(names, self.part))
        if pack:
            self.git.call(repository, "pack-refs", "--all")
        return self.ours.kept(f"names-{state}", given + pack), repository

    def our_names(self, result):
        return facts.ids_and_names(facts.reply(self.ours.call("run", result.folder, b"names refs\n"), b"names"))

    def git_names(self, result):
        return facts.ids_and_names(self.git.call(result.folder, "for-each-ref", "--format=%(objectname) %(refname)").splitlines())

    def list_names(self, state):
        (folder, repository), times = self.named(state), 10
        ours = self.ours.run(folder, b"names refs\n" * times, {"names": lambda it: facts.ids_and_names(facts.reply(it.output, b"names"))}, times)
        says = {"names": lambda it: facts.ids_and_names(facts.lines(it, times))}
        # The reply names the commit of each name, for which an object is read; the others do so only if they are asked.
        peers = [*self.listing(repository, says, times, "", "names"), *self.listing(repository, says, times, "%(*objectname) ", "names-peeled")]
        return Workload(f"list of names, {state}", self.names, ours, peers)

    def listing(self, repository, says, times, peeled, action):
        git = self.git.run(repository, ["for-each-ref", f"--format=%(objectname) {peeled}%(refname)"], says, b"", times, times)
        for way in [git, *self.others.libgit2_ways(action, repository, says, b"", times, times)]:
            way.label += ", peeled" if peeled else ""
            yield way

    def change_names(self, name, size, state, commands, words, given, action, parts=1):
        """Commands that change names, after which all names have to be the same."""
        folder, repository = self.named(state)
        ours = self.ours.run(folder, commands, {"names": self.our_names, "files": facts.loose_names}, parts)
        says = {"names": self.git_names, "files": facts.loose_names}
        peers = [self.git.run(repository, words, says, given, 1, parts), *self.others.libgit2_ways(action, repository, says, given, 1, parts)]
        return Workload(name, size, ours, peers)

    def move_names(self, state):
        # Those at the first base, moved to the second, the third and so on.
        some, times = streams.names(self.names)[::self.part], 9
        commands = b"".join(streams.move(some, base) for base in range(1, times + 1))
        return self.change_names(f"move of names, {state}, of {self.names:,}", len(some), state, commands,
                                 ["update-ref", "-m", "Move", "--stdin"], streams.updates(some, times), "move", times)

    def make_names(self):
        some = [it.replace(b"topic", b"other") for it in self.some_names()]
        return self.change_names(f"names made, beside {self.names:,} loose", len(some), "loose", streams.move(some, 1),
                                 ["update-ref", "-m", "Move", "--stdin"], streams.updates(some, 1), "move")

    def pack_names(self):
        return self.change_names("pack of names", self.names, "loose", b"pack\n", ["pack-refs", "--all"], b"", "pack")

    def some_names(self):
        """Names at all bases in turn."""
        return streams.names(self.names)[::self.names // self.part]

    def rename_names(self):
        # What git has for it are an update and a deletion in one transaction.
        some = [(it, it.replace(b"topic", b"other")) for it in self.some_names()]
        commands = b"".join(b"rename %s %s\n" % it for it in some)
        given = b"".join(b"start\ncreate %s %s\ndelete %s\ncommit\n" % (new, old, old) for old, new in some)
        return self.change_names(f"renames of loose names, of {self.names:,}", len(some), "loose", commands, ["update-ref", "-m", "rename", "--stdin"],
                                 given, "rename")

    def delete_names(self, state):
        some = self.some_names()
        commands = b"".join(b"delete %s any\n" % it for it in some)
        given = b"".join(b"start\ndelete %s\ncommit\n" % it for it in some)
        return self.change_names(f"deletions of {state} names, of {self.names:,}", len(some), state, commands, ["update-ref", "--stdin"],
                                 given, "delete")

    # Contents, and the program's start.

    def content(self, kind):
        content, flag = random.Random(1).randbytes(self.large), ("--sha256",) if kind == "sha256" else ()
        given = streams.ours([streams.Commit(b"main", 1, [(b"a", content)])]) + b"files main\n"
        says = {"id": lambda it: facts.files_in(facts.reply(it.output, b"files"))[0][0]}
        ours = self.ours.run(self.ours.kept(f"empty-{kind}", kind=flag), given, says, kind=flag)
        says = {"id": lambda it: it.output.split()[0]}
        repository = self.git.kept(f"empty-{kind}", kind=(f"--object-format={kind}",))
        peers = [self.others.plain([f"{kind}sum"], says, b"blob %d\0%s" % (len(content), content)),
                 self.git.run(repository, ["hash-object", "-w", "--stdin"], says, content)]
        return Workload(f"{kind} of a content, KiB", self.large // 1024, ours, peers)

    def start(self):
        says = {"output": lambda it: it.output}
        peers = [self.others.plain(["/bin/true"], says, times=100), self.git.whole(self.git.kept("empty"), ["cat-file", "--batch"], says, times=100)]
        return Workload("start", 100, self.ours.whole([], says, times=100), peers)
