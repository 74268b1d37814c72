"""Tests of redis/livemap.c by a real server: `redis.py MODULE`. Each server has a port and a folder of its own. LIVEMAP_BY_PROGRAM is the folder of
what the program answers, LIVEMAP_SERVER the server (`redis-server`)."""

import os
import pathlib
import signal
import socket
import subprocess
import sys
import tempfile
import threading
import time
import unittest

from plain_map import PlainMap, random_lines
from told import BY_PROGRAM, run

MODULE = os.path.abspath(sys.argv[1])
SERVER = os.environ.get("LIVEMAP_SERVER", "redis-server")


class Refused(Exception):
    pass


class Client:
    """A connection that speaks the server's protocol."""

    def __init__(self, port):
        self.socket = socket.create_connection(("127.0.0.1", port))
        self.file = self.socket.makefile("rb")

    def send(self, *words):
        words = [str(word).encode() for word in words]
        self.socket.sendall(b"*%d\r\n" % len(words) + b"".join(b"$%d\r\n%s\r\n" % (len(word), word) for word in words))

    def read(self):
        line = self.file.readline()
        if not line:
            raise ConnectionError
        kind, rest = line[:1], line[1:-2]
        if kind == b"-":
            raise Refused(rest.decode())
        if kind == b":":
            return int(rest)
        if kind == b"+":
            return rest.decode()
        if kind == b"$":
            return None if rest == b"-1" else self.file.read(int(rest) + 2)[:-2].decode()
        return None if rest == b"-1" else [self.read() for _ in range(int(rest))]

    def __call__(self, *words):
        self.send(*words)
        return self.read()

    def line(self, key, line):
        """The answer to a line, as the program would write it."""
        try:
            return self("LM.LINE", key, line)
        except Refused as refused:
            return str(refused).removeprefix("ERR ")

    def info(self, name):
        return next(row.split(":")[1] for row in self("INFO").splitlines() if row.startswith(name + ":"))


class Server:
    """A server in a folder, with an append-only file or without."""

    def __init__(self, folder, *words):
        with socket.socket() as free:
            free.bind(("127.0.0.1", 0))
            self.port = free.getsockname()[1]
        self.folder = folder
        self.words = [SERVER, "--port", str(self.port), "--dir", folder, "--loadmodule", MODULE, "--logfile", "log", *words]
        self.start()

    def start(self):
        self.process = subprocess.Popen(self.words)
        for _ in range(200):
            try:
                if Client(self.port)("PING") == "PONG":
                    return
            except (OSError, Refused):
                time.sleep(0.05)
        raise RuntimeError(pathlib.Path(self.folder, "log").read_text()[-2000:])

    def client(self):
        return Client(self.port)

    def kill(self):
        self.process.send_signal(signal.SIGKILL)
        self.process.wait()


class Redis(unittest.TestCase):
    def serve(self, *words, folder=None):
        folder = folder or self.folder()
        server = Server(folder, *words)
        self.addCleanup(server.kill)
        return server

    def folder(self):
        folder = tempfile.TemporaryDirectory()
        self.addCleanup(folder.cleanup)
        return folder.name

    def wait_for(self, holds):
        for _ in range(400):
            if holds():
                return
            time.sleep(0.05)
        self.fail("it didn't come in time")

    def test_commands(self):
        ask = self.serve("--save", "").client()
        for words, wanted in [
            ("LAYER t cars points range near top", "OK"), ("ADD t cars 1 100 50 3", "OK"), ("ADD t cars 7 100 90 2", "OK"),
            ("COUNT t cars 0 0 400 70", 1), ("SUM t cars 0 0 400 90", 5), ("LIST t cars 0 0 400 90", [1, 7]), ("LIST t cars 0 0 1 1", []),
            ("NEAR t cars 90 90", [7, 100]), ("NEAREST t cars 2 100 60", [1, 100, 7, 900]), ("TOP t cars 0 400", [7, 90]),
            ("TOP t cars 0 1", None), ("ABOVE t cars 0 400 60", [7]), ("GET t cars 1", [100, 50, 3]), ("SIZE t cars", 2),
            ("RECENT t cars 2", [7, 1]), ("LAYER t roads segments stab", "OK"), ("SEG t roads 4 100 400 0", "OK"), ("STAB t roads 380", [4]),
            ("STABCOUNT t roads 99", 0), ("DROP t cars 1", "OK"), ("ADD t cars 18446744073709551615 1 1 1", "OK"),
            ("RECENT t cars 1", ["18446744073709551615"]), ("MOVE t cars 7 100 90 3", "OK"), ("RECENT t cars 1", [7]),
            ("LIVEMAP u 2", "OK"), ("LAYER u cars points near top", "OK"), ("ADD u cars 1 -2147483648 -2147483648 5", "OK"),
            ("NEAR u cars 2147483647 2147483647", [1, "36893488130239234050"]), ("MOVE u cars 1 -3 -4 5", "OK"), ("TOP u cars -9 0", [1, -4]),
            ("GET u cars 1", [-3, -4, 5]),
        ]:
            self.assertEqual(ask(*("LM." + words).split()), wanted, words)
        self.assertEqual([ask("LM.LINE", "t", line) for line in ("count cars 0 0 400 90", "# nothing", "drop cars 7")], ["count 2", None, "ok"])
        for words, wanted in [
            ("LM.ADD t cars 18446744073709551615 1 1 1", "ERR no duplicate 18446744073709551615"), ("LM.DROP t cars 1", "ERR no unknown 1"),
            ("LM.LIVEMAP u 1", "ERR no version"), ("LM.MOVE t cars 1 1 1 1", "ERR no unknown 1"),
            ("LM.ADD other cars 1 1 1 1", "ERR no layer"), ("LM.STAB t cars 1", "ERR no kind"), ("LM.COUNT t cars 1", "ERR no fields"),
            ("LM.SIZE t " + "x" * 300, "ERR no line"), ("LM.SIZE text x", "WRONGTYPE the key holds no map"),
        ]:
            ask("SET", "text", 1)
            with self.assertRaises(Refused) as refused:
                ask(*words.split())
            self.assertEqual(str(refused.exception), wanted)
        with self.assertRaises(Refused):
            ask("LM.COUNT", "t", "cars 0 0", "400", "70")
        self.assertEqual((ask("EXISTS", "other"), ask("TYPE", "t")), (0, "livemap-1"))

    def test_by_program(self):
        """A map answers as the program does."""
        ask = self.serve("--save", "").client()
        for script in sorted(BY_PROGRAM.glob("*.livemap")):
            answers = [ask.line(script.stem, line) for line in script.read_text().splitlines()]
            self.assertEqual([it for it in answers if it is not None], script.with_suffix(".out").read_text().splitlines(), script.stem)

    def test_random_lines(self):
        ask, plain = self.serve("--save", "").client(), PlainMap()
        for line in random_lines(11, 5000):
            self.assertEqual(ask.line("map", line), plain.answer(line))

    def fill(self, ask, plain, seed, count=3000):
        for line in random_lines(seed, count, -100):
            self.assertEqual(ask.line("map", line), plain.answer(line))

    def compare(self, ask, plain, seed=99):
        for line in random_lines(seed, 600, -100):
            if line.split()[0] not in ("livemap", "layer", "add", "seg", "move", "drop"):
                self.assertEqual(ask.line("map", line), plain.answer(line))

    def test_dump(self):
        server, plain = self.serve("--save", "", "--enable-debug-command", "yes"), PlainMap()
        ask = server.client()
        self.fill(ask, plain, 21)
        self.assertEqual(ask("DEBUG", "RELOAD"), "OK")
        self.compare(ask, plain)
        self.fill(ask, plain, 22)
        ask("SAVE")
        server.kill()
        server.start()
        self.compare(server.client(), plain)

    def test_append_only(self):
        server, plain = self.serve("--save", "", "--appendonly", "yes", "--aof-use-rdb-preamble", "no"), PlainMap()
        ask = server.client()
        self.fill(ask, plain, 31)
        ask("BGREWRITEAOF")
        self.fill(ask, plain, 32)
        self.wait_for(lambda: ask.info("aof_rewrite_in_progress") == "0" and ask.info("aof_rewrite_scheduled") == "0")
        self.fill(ask, plain, 33)
        server.kill()
        server.start()
        ask = server.client()
        self.compare(ask, plain)
        self.assertNotIn("is refused", pathlib.Path(server.folder, "log").read_text())

    def test_late_index(self):
        """By the commands themselves a further index waits as it did. What is dumped or rewritten makes it with its layer, so that it doesn't wait,
        and there is room for it however long the layer's line was."""
        dumped = self.serve("--save", "", "--enable-debug-command", "yes").client()
        server = self.serve("--save", "", "--appendonly", "yes", "--aof-use-rdb-preamble", "no")
        written = server.client()
        for ask in (dumped, written):
            self.assertEqual(ask.line("map", "layer cars points range".ljust(256) + "\r"), "ok")
            self.assertEqual(ask("LM.LAYER", "map", "roads", "segments", "stab"), "OK")
            for id in range(1, 11):
                ask("LM.ADD", "map", "cars", id, id, id, 1)
            self.assertEqual((ask("LM.INDEX", "map", "cars", "near"), ask.line("map", "near cars 0 0")), ("OK", "no building 10"))
            ask("LM.DROP", "map", "cars", 1)
            for words, wanted in [
                ("LM.NEAR map cars 0 0", "ERR no building 6"), ("LM.INDEX map cars near", "ERR no taken"), ("LM.INDEX map cars far", "ERR no index"),
                ("LM.INDEX map roads near", "ERR no kind"), ("LM.INDEX map shops near", "ERR no layer"), ("LM.INDEX map cars", "ERR no fields"),
            ]:
                with self.subTest(words), self.assertRaises(Refused) as refused:
                    ask(*words.split())
                self.assertEqual(str(refused.exception), wanted)
        self.assertEqual(dumped("DEBUG", "RELOAD"), "OK")
        self.assertEqual((dumped.line("map", "index cars near"), dumped("LM.NEAR", "map", "cars", 0, 0)), ("no taken", [2, 8]))
        self.assertEqual((dumped.line("map", "index cars top\r"), dumped.line("map", "top cars 0 99")), ("ok", "no building 9"))
        self.assertEqual((dumped("DEBUG", "RELOAD"), dumped.line("map", "top cars 0 99")), ("OK", "top 10 10"))

        server.kill()
        server.start()
        ask = server.client()
        self.assertEqual(ask.line("map", "near cars 0 0"), "no building 6")
        ask("LM.ADD", "map", "cars", 11, 11, 11, 1)
        self.assertEqual(ask.line("map", "near cars 0 0"), "no building 3")
        ask("BGREWRITEAOF")
        self.wait_for(lambda: ask.info("aof_rewrite_in_progress") == "0" and ask.info("aof_rewrite_scheduled") == "0")
        server.kill()
        server.start()
        ask = server.client()
        self.assertEqual((ask("LM.NEAR", "map", "cars", 0, 0), ask("LM.RECENT", "map", "cars", 1)), ([2, 8], [11]))
        ask("LM.ADD", "map", "cars", 12, 12, 12, 1)
        self.assertEqual(ask("LM.NEAR", "map", "cars", 12, 12), [12, 0])
        self.assertNotIn("is refused", pathlib.Path(server.folder, "log").read_text())

    def test_killed(self):
        """Of 30,000 updates each that was acknowledged is there after the server is killed, and at most one more."""
        def update(i):
            return f"drop cars {i - 1}" if i % 3 == 2 else f"add cars {i} {i} 7 1"

        def live(count):
            return [i for i in range(count) if i % 3 == 0 or (i % 3 == 1 and i + 1 == count)]

        server = self.serve("--save", "", "--appendonly", "yes", "--appendfsync", "always")
        ask, done = server.client(), 0
        ask("LM.LAYER", "map", "cars", "points", "range", "near")
        for stop in range(5000, 30001, 5000):
            killer = threading.Timer(0.01, server.kill)
            try:
                while done < stop or killer.is_alive():
                    if done == stop - 100:
                        killer.start()
                    self.assertEqual(ask.line("map", update(done)), "ok")
                    done += 1
            except OSError:
                pass
            killer.join()
            server.start()
            ask = server.client()
            ids = ask("LM.LIST", "map", "cars", 0, 0, 40000, 7)
            self.assertIn(ids, (live(done), live(done + 1)))
            done += ids != live(done)

    def test_replica(self):
        server, plain = self.serve("--save", ""), PlainMap()
        ask = server.client()
        self.fill(ask, plain, 41)
        other = self.serve("--save", "", "--replicaof", "127.0.0.1", str(server.port)).client()
        self.wait_for(lambda: other.info("master_link_status") == "up")
        self.fill(ask, plain, 42)
        ask("WAIT", 1, 5000)
        self.wait_for(lambda: other.info("master_repl_offset") == ask.info("master_repl_offset"))
        for name in plain.layers:
            self.assertEqual(other("LM.RECENT", "map", name, 64), ask("LM.RECENT", "map", name, 64))
        self.assertEqual(other("LM.LIST", "map", "cars", 0, 0, 200, 200), plain.list(plain.layers["cars"][2], 0, 0, 200, 200))

    def test_memory(self):
        ask = self.serve("--save", "").client()
        ask("LM.LAYER", "map", "cars", "points", "range")
        before, free = ask("MEMORY", "USAGE", "map"), int(ask.info("used_memory"))
        for id in range(5000):
            ask("LM.ADD", "map", "cars", id, id, id, 1)
        grown, used = ask("MEMORY", "USAGE", "map") - before, int(ask.info("used_memory")) - free
        self.assertTrue(5000 * 40 < grown <= used + 65536, (grown, used))
        ask("UNLINK", "map")
        self.wait_for(lambda: int(ask.info("used_memory")) < free + 65536)

    def test_eight_clients(self):
        server, failures = self.serve("--save", ""), []
        server.client()("LM.LAYER", "map", "cars", "points", "near")

        def add(first):
            try:
                ask = server.client()
                for id in range(first, first + 1000):
                    ask("LM.ADD", "map", "cars", id, id, id, 1)
                    if ask("LM.NEAR", "map", "cars", id, id) != [id, 0]:
                        failures.append(id)
            except Exception as failure:
                failures.append(failure)

        threads = [threading.Thread(target=add, args=(1000 * k,)) for k in range(8)]
        for thread in threads:
            thread.start()
        for thread in threads:
            thread.join()
        self.assertEqual(failures, [])
        self.assertEqual(server.client()("LM.SIZE", "map", "cars"), 8000)


if __name__ == "__main__":
    run("redis", Redis)
