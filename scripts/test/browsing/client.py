"""Asks the server of the page without a browser: what it answers, what it refuses, and what it ends."""
import concurrent.futures
import hashlib
import http.client
import json
import pathlib
import re
import socket
import subprocess
import time

from browsing.browser import PATIENCE
from browsing.starts import SMALL, Start, image_of
from common import ROOT


class Client:
    def __init__(self, page):
        self.page = page

    def request(self, method, path, body=None, headers=(), token=None):
        """Asks the server once: the status, and the answer."""
        host, port = re.match(r"http://([\d.]+):(\d+)/", self.page.address).groups()
        connection = http.client.HTTPConnection(host, int(port), timeout=PATIENCE)
        try:
            connection.request(method, f"/{self.page.address.split('/')[3] if token is None else token}/{path}", body, dict(headers))
            answer = connection.getresponse()
            return answer.status, answer.read()
        finally:
            connection.close()

    def question(self, path, **said):
        status, answer = self.request("POST", path, json.dumps(said))
        return status, json.loads(answer)

    def asks_all(self):
        files = [image_of(1, 400, 1), image_of(2, 300, 2)]
        digests = []
        for data in files:
            status, answer = self.request("POST", "file", data)
            self.page.same("a file is kept", (status, json.loads(answer)), (200, {"digest": hashlib.sha256(data).hexdigest(), "size": len(data)}))
            digests.append(json.loads(answer)["digest"])
        start = Start(self.page.library, SMALL, files)
        words = ["replay", *start.layout, *start.source, *start.rules, "--schedule", "9.4"]
        wanted = {"status": 0, "out": start.say("replay", "--schedule", "9.4"), "err": ""}
        self.page.same("a command", self.question("run", words=words, files=digests), (200, wanted))
        self.draws(start, words, digests)
        self.refuses_strangers(words, digests)
        self.refuses_questions(words, digests)
        self.refuses_sizes()
        self.serves_many(words, digests, wanted)
        self.ends_what_nobody_awaits()
        self.flashes(start, digests)
        self.makes(start, digests)
        self.reads_documents()
        self.page.same("a command after all that", self.question("run", words=words, files=digests), (200, wanted))

    def draws(self, start, words, digests):
        """Frames and a picture, of so many operations of each boot."""
        for command in ("frames", "picture"):
            span = ["--schedule", "9.4", "--from", "1", "--to", "12"]
            wanted = {"status": 0, "out": start.say(command, *span), "err": ""}
            self.page.same(command, self.question("run", words=[command, *words[1:], *span[2:]], files=digests), (200, wanted))

    def refuses_strangers(self, words, digests):
        body = json.dumps({"words": words, "files": digests})
        self.page.same("no token", self.request("GET", "", token="")[0], 403)
        self.page.same("a wrong token", self.request("POST", "run", body, token="A" * 32)[0], 403)
        self.page.same("a strange token", self.request("GET", "", token="%C3%A9")[0], 403)
        self.page.same("another host", self.request("POST", "run", body, {"Host": "rebound.example:80"})[0], 403)
        self.page.same("another name of this host", self.request("POST", "run", body, {"Host": "localhost"})[0], 403)
        self.page.same("another origin", self.request("POST", "run", body, {"Origin": "http://rebound.example"})[0], 403)
        self.page.same("no origin to name", self.request("POST", "run", body, {"Origin": "null"})[0], 403)
        self.page.same("another site", self.request("GET", "", headers={"Sec-Fetch-Site": "cross-site"})[0], 403)

    def refuses_questions(self, words, digests):
        for name, body in (("bad JSON", "{"), ("a list", "[]"), ("an unknown field", json.dumps({"words": words, "files": digests, "more": 1})),
                           ("a missing field", json.dumps({"words": words})), ("deep JSON", "[" * 60000), ("no bytes of text", b"\xff\xfe")):
            self.page.same(name, self.request("POST", "run", body)[0], 400)
        for name, line in (("create", ["create", "a", "out"]), ("life", ["life"]), ("--out", [*words, "--out", "out"]), ("no words", []),
                           ("--at-cut", [*words, "--at-cut=out"]), ("vectors", ["vectors", "--dir", "x"]), ("a number", ["explain", 31]),
                           ("all tears", ["tears", *words[1:-2], "--all"]), ("a torn flash", ["tears", *words[1:-2], "--at", "5", "--reading", "data", "--out", "out"]),
                           ("a zero byte", ["explain", "3\x001"]),
                           ("half a letter", ["explain", "\ud800"]), ("all rows", ["explore", *words[1:-2], "--cuts", "16", "--all"]),
                           ("too many rows", ["explore", *words[1:-2], "--cuts", "16", "--limit", "99999999"]),
                           ("a picture of all operations", ["picture", *words[1:]]),
                           *((f"too many operations of {name}", [name, *words[1:], "--from", "0", "--to", "4000000000"]) for name in ("trace", "frames", "picture"))):
            self.page.same(f"{name} is refused", self.question("run", words=line, files=digests)[0], 400)
        unknown = "0" * 64
        self.page.same("an unknown digest", self.question("run", words=words, files=[digests[0], unknown]), (409, {"unknown": [unknown]}))
        self.page.same("an unknown file", self.request("GET", f"file/{unknown}")[0], 409)
        self.page.same("no digest", self.question("run", words=words, files=[1])[0], 400)
        self.page.same("no such path", self.request("GET", "../scripts/serve")[0], 404)
        self.page.same("no such path, hidden", self.request("GET", "%2e%2e%2fserve")[0], 404)
        self.page.same("a wrong path", self.request("POST", "create", "{}")[0], 404)
        self.page.same("a wrong method", self.request("PUT", "run", "{}")[0], 501)
        self.page.same("another wrong method", self.request("DELETE", "file")[0], 501)

    def refuses_sizes(self):
        host, port = re.match(r"http://([\d.]+):(\d+)/", self.page.address).groups()
        for path, length, wanted in (("file", 100_000_000, b" 413 "), ("run", 70_000, b" 413 "), ("file", "-1", b" 411 "), ("file", "x", b" 411 ")):
            with socket.create_connection((host, int(port)), timeout=PATIENCE) as line:
                line.sendall(f"POST /{self.page.address.split('/')[3]}/{path} HTTP/1.1\r\nHost: {host}:{port}\r\nContent-Length: {length}\r\n\r\n".encode())
                self.page.same(f"a length of {length} for {path}", wanted in line.recv(100), True)
        try:
            status = self.request("POST", "file", bytes(100_000_000))[0]
        except OSError:
            status = 413  # the server hung up before all was sent
        self.page.same("a body of 100 MB", status, 413)

    def serves_many(self, words, digests, wanted):
        with concurrent.futures.ThreadPoolExecutor(20) as many:
            answers = list(many.map(lambda _: self.question("run", words=words, files=digests), range(20)))
        self.page.same("twenty at once", answers, [(200, wanted)] * 20)

    def ends_what_nobody_awaits(self):
        """A long count whose browser hangs up is ended."""
        files = [image_of(1, 300000, 1), image_of(2, 300000, 2)]
        digests = [json.loads(self.request("POST", "file", data)[1])["digest"] for data in files]
        long = Start(self.page.library, (65536, 1, 8, 1024, 8, 8), files, kind="revert", grain="unit")
        body = json.dumps({"words": ["census", *long.layout, *long.source, *long.rules, "--cuts", "16"], "files": digests}).encode()
        host, port = re.match(r"http://([\d.]+):(\d+)/", self.page.address).groups()
        with socket.create_connection((host, int(port)), timeout=PATIENCE) as line:
            line.sendall(f"POST /{self.page.address.split('/')[3]}/run HTTP/1.1\r\nHost: {host}:{port}\r\nContent-Length: {len(body)}\r\n\r\n".encode() + body)
            self.page.same("a long count runs by itself", self.comes_to_run(True), True)
        self.page.same("a count that nobody awaits is ended", self.comes_to_run(False), True)

    def comes_to_run(self, wanted):
        """Whether a process of the server comes to run, or to end, before patience does."""
        end = time.monotonic() + PATIENCE
        while time.monotonic() < end:
            running = subprocess.run(["pgrep", "-P", str(self.page.server.pid)], capture_output=True, check=False).stdout
            if (running != b"") == wanted:
                return True
            time.sleep(0.1)
        return False

    def reads_documents(self):
        """The documents that the page links to, as texts."""
        for path in ("README.md", "docs/MODEL.md"):
            self.page.same(path, self.request("GET", pathlib.Path(path).name), (200, (ROOT / path).read_bytes()))

    def makes(self, start, digests):
        """Files that command lines make are kept; no other command makes one."""
        create, life = ["create", "--version", "3", "--header-size", "32", "--pad-header", "a", "out"], ["life", *start.layout, "--image", "a", "--out", "out", "c"]
        script = b"boot\ndownload b\nrequest test\nboot 9.4\n"
        digest = json.loads(self.request("POST", "file", script)[1])["digest"]
        for name, words, files, data in (("create", create, digests[:1], start.files[:1]), ("life", life, [*digests, digest], [*start.files, script])):
            _, out, _, file = self.page.library.run(words, *data)
            wanted = {"status": 0, "out": out.decode(), "err": "", "digest": hashlib.sha256(file).hexdigest(), "size": len(file)}
            self.page.same(f"{name} makes a file", self.question("make", words=words, files=files), (200, wanted))
            self.page.same(f"the file of {name}", self.request("GET", f"file/{wanted['digest']}"), (200, file))
        refused = self.question("make", words=[*create[:2], "x", *create[3:]], files=digests[:1])[1]
        self.page.same("what is refused makes no file", (refused["status"], sorted(refused)), (2, ["err", "out", "status"]))
        for name, words in (("replay", ["replay", "--out", "out"]), ("vectors", ["vectors", "--dir", "x"]), ("--flash", [*life, "--flash", "a"]),
                            ("no words", []), ("a number", ["create", 1])):
            self.page.same(f"{name} makes nothing", self.question("make", words=words, files=digests)[0], 400)

    def flashes(self, start, digests):
        said = {"numbers": list(SMALL), "kind": "test", "grain": "call", "profile": 1, "files": digests, "cuts": [9, 4], "end": False}
        for end in (False, True):
            data = start.flash([9, 4], end)
            answer = {"status": 0, "digest": hashlib.sha256(data).hexdigest(), "size": len(data)}
            self.page.same("a flash", self.question("flash", **{**said, "end": end}), (200, answer))
            self.page.same("its bytes", self.request("GET", f"file/{answer['digest']}"), (200, data))
            self.page.same("a part of them", self.request("GET", f"file/{answer['digest']}?from=200&to=300"), (200, data[200:300]))
        self.page.same("a schedule that cannot occur", self.question("flash", **{**said, "cuts": [99]})[1]["status"], 1)
        for name, value in (("numbers", [1, 2]), ("numbers", [256, 8, 4, 128, 4, -3]), ("kind", "life"), ("grain", 1), ("profile", "1"),
                            ("cuts", [1] * 17), ("cuts", [True]), ("cuts", [2**32]), ("end", 0), ("files", "x")):
            self.page.same(f"a flash with {name} {value}", self.question("flash", **{**said, name: value})[0], 400)


def server(page):
    Client(page).asks_all()
