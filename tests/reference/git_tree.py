"""A folder with a repository, and random texts for its files: for tests of diffs that git writes."""

import os
import subprocess
from pathlib import Path


class Tree:
    """A folder with a repository."""

    def __init__(self, folder, chance):
        self.folder, self.chance = Path(folder), chance
        self.git("init", "-q", "-b", "main")
        self.git("config", "user.name", "tester")
        self.git("config", "user.email", "tester@example.com")
        self.git("config", "commit.gpgsign", "false")

    def git(self, *words, fails=False):
        """What git writes."""
        done = subprocess.run(
            ["git", *words], cwd=self.folder, capture_output=True, env={**os.environ, "GIT_CONFIG_GLOBAL": os.devnull,
            "GIT_CONFIG_NOSYSTEM": "1", "GIT_PAGER": "cat"})
        if done.returncode and not fails:
            raise SystemExit("git %s: %s" % (" ".join(words), done.stderr.decode(errors="replace")))
        return done.stdout

    def commit(self, message="m"):
        """Commits all."""
        self.git("add", "-A")
        self.git("commit", "-q", "--allow-empty", "-m", message)

    def write(self, name, data):
        """Writes a file."""
        path = self.folder / name
        path.parent.mkdir(parents=True, exist_ok=True)
        path.write_bytes(data)

    def text(self, end=b"\n"):
        """A text of lines, of which some are alike or look like lines of a diff."""
        words = [b"x", b"y", b"", b" z", b"--- a", b"+++ b", b"@@ -1 +1 @@", b"\\ no", b"def f():", b"}", b"diff --git a/q b/q"]
        lines = [self.chance.choice(words) + (b"%d" % self.chance.randrange(9)) * self.chance.randrange(2)
                 for _ in range(self.chance.randrange(1, 40))]
        return end.join(lines) + (end if self.chance.randrange(4) else b"")

    def edited(self, data):
        """The text with some lines removed, replaced or added."""
        lines = data.split(b"\n")
        for _ in range(self.chance.randrange(1, 5)):
            place = self.chance.randrange(len(lines) + 1)
            kind = self.chance.randrange(3)
            lines[place:place + (kind > 0) * self.chance.randrange(1, 4)] = [b"new %d" % place] * (kind < 2)
        return b"\n".join(lines)
