"""Repositories that git makes, the cases that look up their references, and what git says of these."""
import os
import subprocess
import tempfile

rows = []
base = tempfile.mkdtemp()
env = dict(os.environ, GIT_AUTHOR_NAME="A", GIT_AUTHOR_EMAIL="a@b", GIT_AUTHOR_DATE="@1 +0000", GIT_COMMITTER_NAME="A",
           GIT_COMMITTER_EMAIL="a@b", GIT_COMMITTER_DATE="@1 +0000", GIT_CONFIG_GLOBAL="/dev/null", GIT_CONFIG_NOSYSTEM="1", HOME=base)


def run(folder, *words, ok=True, **more):
    return subprocess.run(["git", *words], cwd=folder, env=env, check=ok, capture_output=True, text=True, **more)


class Repository:
    def __init__(self, name):
        self.folder = os.path.join(base, name)
        os.mkdir(self.folder)
        self.git("init", "-q", "-b", "main")
        tree = self.git("mktree", input="")
        self.commits = []
        for k in range(4):
            parents = ["-p", self.commits[-1]] if self.commits else []
            self.commits.append(self.git("commit-tree", tree, "-m", f"c{k}", *parents))

    def git(self, *words, **more):
        return run(self.folder, *words, **more).stdout.strip()

    def path(self, path):
        return os.path.join(self.folder, ".git", path)

    def write(self, path, text):
        os.makedirs(os.path.dirname(self.path(path)), exist_ok=True)
        with open(self.path(path), "w") as file:
            file.write(text)

    def files(self, logs=False):
        """The files of references, or of them and of logs, as the program reads them."""
        found = []
        for place, _, names in sorted(os.walk(self.path(""))):
            for name in sorted(names):
                path = os.path.relpath(os.path.join(place, name), self.path(""))
                inner = path.split("/", 2)[2] if path.startswith("worktrees/") else path
                if inner.split("/")[0] in (["logs"] if logs else ["refs", "packed-refs"]) or inner.endswith("HEAD") and "/" not in inner:
                    with open(os.path.join(place, name), "rb") as file:
                        found.append(f"{path}={file.read().hex()}")
        return ";".join(found)

    def target(self, name, folder=None):
        """What git says that a full name points to."""
        folder = folder or self.folder
        symbolic = run(folder, "symbolic-ref", "-q", name, ok=False)
        if symbolic.returncode == 0:
            return "ref: " + symbolic.stdout.strip()
        return run(folder, "rev-parse", "--verify", name).stdout.strip()

    def peeled(self, name):
        """The id that a tag's record has: of a tag without a file of its own, what it points to in the end."""
        if os.path.exists(self.path(name)) or self.git("cat-file", "-t", name) != "tag":
            return ""
        return " ^" + self.git("rev-parse", name + "^{}")

    def shown(self, name):
        return f"{name} {self.target(name)}{self.peeled(name)}"

    def names(self):
        return self.git("for-each-ref", "--format=%(refname)").split()

    def ask(self, operation, asked, answer, folder="-"):
        rows.append((f"{operation} {folder} {asked or '-'} {self.files(operation == 'log')}", answer))

    def loose(self, id):
        """The text of an object as its id is the digest of."""
        kind = self.git("cat-file", "-t", id)
        content = subprocess.run(["git", "cat-file", kind, id], cwd=self.folder, env=env, check=True, capture_output=True).stdout
        return (f"{kind} {len(content)}\0".encode() + content).hex()

    def lead(self, operation, asked, answer, objects=()):
        """What the reference of a word leads to, by these objects."""
        text = " " + ";".join(map(self.loose, objects)) if objects else ""
        logs = ";" + self.files(True) if operation == "lines" else ""
        rows.append((f"{operation} - {asked} {self.files()}{logs}{text}", answer))

    def peel(self, name, objects):
        """The object that git peels a name to, and the last name on the way, which then prints it."""
        id = self.git("rev-parse", name + "^{}")
        last = self.git("rev-parse", "--symbolic-full-name", name)
        self.lead("peel", name, f"{id} {id} {last} {id} ^{id}", objects)

    def list(self, prefix):
        """Lists by prefix: the lines of `git for-each-ref` that begin so, in its order."""
        names = [name for name in self.names() if name.startswith(prefix)]
        self.ask("prefixed", prefix, "".join(self.shown(name) + ";" for name in names))
        loose = [name for name in names if os.path.exists(self.path(name))]
        self.ask("files", prefix, "".join(f"{name} {self.target(name)};" for name in loose))

    def within(self, folder):
        """Lists a name and those below it: the lines of `git for-each-ref` with it as a pattern, in its order."""
        names = self.git("for-each-ref", "--format=%(refname)", folder).split()
        self.ask("within", folder, "".join(self.shown(name) + ";" for name in names))

    def find(self, word, name=None, operation="find"):
        """A word: git says its full name, but for a symbolic one, which the caller gives by the rules of gitrevisions."""
        if name is None:
            name = self.git("rev-parse", "--symbolic-full-name", word)
        self.ask(operation, word, self.shown(name) if operation != "loose" else f"{name} {self.target(name)}")

    def lacks(self, word, operation="find"):
        assert run(self.folder, "rev-parse", "--verify", "-q", word, ok=False).returncode != 0, word
        self.ask(operation, word, "none")
