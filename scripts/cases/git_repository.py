"""A repository of git, of which generators of cases have ids and contents of trees: cases.py."""
import os, subprocess, tempfile

LENGTH = {"sha1": 40, "sha256": 64}


class Git:
    """A repository of one hash function, with nine blobs."""

    def __init__(self, kind):
        self.kind, self.null = kind, "0" * LENGTH[kind]
        folder = tempfile.mkdtemp()
        self.env = dict(os.environ, GIT_DIR=folder + "/.git")
        subprocess.run(["git", "init", "-q", "--object-format=" + kind, folder], check=True)
        self.blobs = [self.id("hash-object", "-w", "--stdin", data=b"%d" % n) for n in range(9)]
        self.known = {}

    def run(self, *words, data=b""):
        return subprocess.run(["git", *words], input=data, capture_output=True, env=self.env, check=True).stdout

    def id(self, *words, data=b""):
        """The id that this command of git prints."""
        return self.run(*words, data=data).decode().strip()

    def tree(self, files):
        """The id of the tree of these files, by their paths, which git writes from an index."""
        lines = b"".join(f"{mode} {oid}\t".encode() + path + b"\0" for path, (mode, oid) in sorted(files.items()))
        if lines not in self.known:
            index = self.env["GIT_DIR"] + "/index"
            if os.path.exists(index):
                os.remove(index)
            self.run("update-index", "-z", "--index-info", data=lines)
            self.known[lines] = self.id("write-tree")
        return self.known[lines]

    def odd(self, content):
        """The id of a tree that git itself wouldn't write."""
        return self.id("hash-object", "-t", "tree", "--literally", "-w", "--stdin", data=content)

    def content(self, oid):
        return self.run("cat-file", "tree", oid)

    def listed(self, oid):
        """All below a tree: mode, id and path."""
        for part in self.run("ls-tree", "-z", "-r", "-t", oid).split(b"\0")[:-1]:
            words, _, path = part.partition(b"\t")
            mode, _, found = words.decode().split()
            yield mode, found, path

    def entry(self, oid, path):
        """The mode and id of what is at a path, by git ls-tree."""
        words = self.run("ls-tree", "-z", oid, "--", path).split(b"\t")[0].decode().split()
        return (words[0], words[2]) if words else None
