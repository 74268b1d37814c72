"""Tests the library that is installed under PREFIX, by C, Python, Rust and behind Redis, and what docs/LIBRARY.md has as printed: `all.py PREFIX`.

Each test is a line, `test WHAT: NAME ... ok`, `FAILED` or `skipped: ` and what the machine lacks. What answers have to be comes from the program, by
`./livemap`. The status is 1 where a test failed."""

import os
import pathlib
import re
import shutil
import subprocess
import sys
import tempfile
import time

TESTS = pathlib.Path(__file__).resolve().parent
TOP = TESTS.parent
PREFIX = pathlib.Path(sys.argv[1]).resolve()
CC = os.environ.get("CC", "cc")
SERVER = os.environ.get("LIVEMAP_SERVER", "redis-server")
ROUNDS = 10_000
FLAGS = ["-std=c11", "-O2", "-g", "-Wall", "-Wextra", "-I", str(PREFIX / "include")]
failed = []


def tell(test, how, said=""):
    print(f"test {test} ... {how}", flush=True)
    if how == "FAILED":
        failed.append(test)
        print(said[-2000:], flush=True)


def ran(*words, **how):
    """What a command writes and its status, or what it says where it doesn't end well."""
    it = subprocess.run([str(word) for word in words], capture_output=True, **how)
    return it.stdout, it.returncode, (it.stdout + it.stderr).decode(errors="replace")


def judge(test, *words, **how):
    _, status, said = ran(*words, **how)
    tell(test, "FAILED" if status else "ok", said)


def by_program(folder):
    """Has the program answer the worked scripts and a made one, into a folder."""
    for name in ("town", "refusals"):
        shutil.copy(TOP / f"crates/measure/data/{name}.livemap", folder)
    (folder / "made.livemap").write_bytes(ran(sys.executable, TESTS / "made.py", 7, ROUNDS)[0])
    for script in folder.glob("*.livemap"):
        with script.open("rb") as lines:
            wrote, status, said = ran(TOP / "livemap", stdin=lines)
        if status > 1:
            sys.exit(f"tests/all.py: the program doesn't answer {script.name}: {said[-2000:]}")
        script.with_suffix(".out").write_bytes(wrote)
    (folder / "made.summary").write_bytes(ran(TOP / "livemap", "--make", 7, "--size", ROUNDS, stdin=subprocess.DEVNULL)[0])


def compile_c(folder, name, *flags):
    _, status, said = ran(CC, *FLAGS, *flags, "-o", folder / name, TESTS / "library.c", PREFIX / "lib/liblivemap.a")
    return "" if status == 0 else said


def try_c(folder, answers):
    said = compile_c(folder, "c")
    if said:
        return tell("c", "FAILED", said)
    for script in sorted(answers.glob("*.livemap")):
        for how in ("lines", "script"):
            wrote, status, said = ran(folder / "c", how, input=script.read_bytes())
            is_same = status == 0 and wrote == script.with_suffix(".out").read_bytes()
            tell(f"c: {script.stem} by {how} as the program", "ok" if is_same else "FAILED", said)
    forward([folder / "c"])
    try_c_watched(folder, answers)
    judge("c: the header is C++ too", CC, "-x", "c++", "-Wall", "-Wextra", "-I", PREFIX / "include", "-fsyntax-only", "-", input=b'#include "livemap.h"')


def try_c_watched(folder, answers):
    """The same under ASan and valgrind."""
    script = (answers / "made.livemap").read_bytes()
    if compile_c(folder, "c_asan", "-fsanitize=address,undefined"):
        tell("c: under ASan", "skipped: no ASan")
    else:
        judge("c: under ASan", folder / "c_asan")
        judge("c: made under ASan", folder / "c_asan", "lines", input=script)
    if not shutil.which("valgrind"):
        return tell("c: under valgrind", "skipped: no valgrind")
    watch = ["valgrind", "--quiet", "--error-exitcode=9", "--leak-check=full"]
    judge("c: under valgrind", *watch, folder / "c", "watched")
    judge("c: made under valgrind", *watch, folder / "c", "lines", input=script)


def forward(words, **how):
    """Runs tests that tell themselves."""
    it = subprocess.run([str(word) for word in words], stdout=subprocess.PIPE, text=True, **how)
    print(it.stdout, end="", flush=True)
    if it.returncode:
        failed.append(words[-1])
    if it.returncode and "FAILED" not in it.stdout:
        tell(pathlib.Path(words[-1]).name, "FAILED", f"its status is {it.returncode}")


# ---- what docs/LIBRARY.md prints


def printed():
    """The code of each language in the document, and what it has to print."""
    text = (TOP / "docs/LIBRARY.md").read_text().replace("PREFIX", str(PREFIX))
    blocks = re.findall(r"```(\w+)\n(.*?)```", text, re.S)
    return {kind: (code, wanted) for (kind, code), (after, wanted) in zip(blocks, blocks[1:]) if after == "text"}


def try_printed(folder, kind, name, build, run, env):
    code, wanted = printed()[kind]
    (folder / name).write_text(code)
    for words in filter(None, [build, run]):
        if not shutil.which(words[0]):
            return tell(f"docs: {kind} as printed", f"skipped: no {words[0]}")
        wrote, status, said = ran(*words, cwd=folder, env={**os.environ, "LD_LIBRARY_PATH": str(PREFIX / "lib"), **env})
        if status:
            return tell(f"docs: {kind} as printed", "FAILED", said)
    tell(f"docs: {kind} as printed", "ok" if wrote.decode() == wanted else "FAILED", said)


def try_printed_redis(folder):
    """The first line starts a server, which the others may have to wait for."""
    code, wanted = printed()["sh"]
    if not (shutil.which("redis-cli") and shutil.which("redis-server")):
        return tell("docs: sh as printed", "skipped: no redis-server")
    if ran("redis-cli", "PING")[1] == 0:
        return tell("docs: sh as printed", "skipped: the port is taken")
    start, *rest = code.splitlines()
    with subprocess.Popen(start.rstrip("&").split(), cwd=folder, stdout=subprocess.DEVNULL) as server:
        for _ in range(200):
            if ran("redis-cli", "PING")[1] == 0:
                break
            time.sleep(0.05)
        wrote, _, said = ran("sh", "-c", "\n".join(rest))
        server.terminate()
    tell("docs: sh as printed", "ok" if wrote.decode() == wanted else "FAILED", said)


def main():
    with tempfile.TemporaryDirectory() as name:
        folder = pathlib.Path(name)
        answers = folder / "answers"
        answers.mkdir()
        by_program(answers)
        env = {**os.environ, "LIVEMAP_BY_PROGRAM": str(answers), "LIVEMAP_LIBRARY": str(PREFIX / "lib/liblivemap.so.1")}
        if shutil.which(CC):
            try_c(folder, answers)
        else:
            tell("c", "skipped: no C compiler")
        forward([sys.executable, TESTS / "library.py"], env=env)
        paths = ["-I", PREFIX / "include", "-L", PREFIX / "lib"]
        try_printed(folder, "c", "example.c", [CC, "example.c", *paths, "-llivemap"], [folder / "a.out"], {})
        try_printed(folder, "python", "example.py", None, [sys.executable, "example.py"], {"PYTHONPATH": str(PREFIX / "share/livemap")})
        try_printed(folder, "rust", "example.rs", ["rustc", "--edition", "2024", "example.rs", "-L", PREFIX / "lib"], [folder / "example"], {})
        if shutil.which(SERVER):
            forward([sys.executable, TESTS / "redis.py", PREFIX / "lib/livemap/redis.so"], env=env)
        else:
            tell("redis", "skipped: no redis-server")
        try_printed_redis(folder)
    return 1 if failed else 0


if __name__ == "__main__":
    sys.exit(main())
