"""A small tree in which each analyser of docs/analysers.md finds something."""

# The token is written in two parts, so that no scanner finds a secret in this file.
TREE = {
    "site.yml": """\
- hosts: all
  tasks:
    - shell: echo hello
    - name: copy
      copy: src=a dest=/b
""",
    "src/copy.c": """\
#include <stdio.h>
#include <string.h>

static int copy(char *to, const char *from) {
    int unused = 1;
    int *none = 0;
    strcpy(to, from);
    if (from[0] == 'x')
        return *none;
    return 0;
}

int main(int argc, char **argv) {
    char buffer[8];
    int n;
    if (argc > 1)
        copy(buffer, argv[1]);
    printf("%d %s\\n", n, buffer);
    return 0;
}
""",
    "src/list.c": """\
#include <stdlib.h>

int *list(int n) {
    int *made = malloc(n * sizeof(int));
    for (int i = 0; i <= n; i++)
        made[i] = i;
    free(made);
    return made;
}
""",
    "app/run.py": """\
import pickle
import subprocess


def run(name, data):
    subprocess.call("ls " + name, shell=True)
    return pickle.loads(data)
""",
    "app/Main.hs": """\
module Main where

main :: IO ()
main = do
  putStrLn (concat (map show [1, 2, 3 :: Int]))
  if null (filter even [1 :: Int]) == True then return () else return ()
""",
    "keys/token.txt": 'github = "gh' + 'p_wWPw5k4aXcaT4fNP0UcnZwJUVFk6LO0pINUx"\n',
}


def write_tree(folder):
    """Writes the tree into a folder."""
    for name, text in TREE.items():
        (folder / name).parent.mkdir(parents=True, exist_ok=True)
        (folder / name).write_text(text)
