"""A server on loopback that is a registry for Cargo, its API, and a proxy; it remembers what it was asked.

The path of a request begins with the tree's name and the place where the index was set: /TREE/PLACE/config.json. A place
FAILS answers with the status 500. A proxy is told apart by the user's name in its URL.
"""
import base64
import collections
import http.server
import json
import re
import threading
import urllib.parse

FAILS = "fails"
# a request: the place of its index, the rest of its path, and what its headers have
Request = collections.namedtuple("Request", "place rest token agent proxy")


class Answers(http.server.BaseHTTPRequestHandler):
    """Answers each request, and remembers it."""

    protocol_version = "HTTP/1.1"

    def do_GET(self):
        """Answers as an index, or with no owners."""
        tree, place, rest = (*urllib.parse.urlsplit(self.path).path.strip("/").split("/", 2), "", "")[:3]
        user = re.fullmatch("Basic (.*)", self.headers.get("Proxy-Authorization", ""))
        proxy = base64.b64decode(user[1]).decode().rstrip(":") if user else None
        asked = Request(place, rest, self.header("Authorization"), self.header("User-Agent"), proxy)
        with self.server.lock:
            self.server.asked[tree].append(asked)
        top = f"http://127.0.0.1:{self.server.server_port}/{tree}/{place}"
        said = {"dl": f"{top}/dl", "api": top} if rest == "config.json" else {"users": []}
        body = json.dumps(said).encode()
        self.send_response(500 if place == FAILS else 200)
        self.send_header("Content-Length", str(len(body)))
        self.end_headers()
        self.wfile.write(body)

    def header(self, name):
        """The value of a header, which may have UTF-8."""
        value = self.headers.get(name)
        return value and value.encode("latin-1").decode(errors="replace")

    def log_message(self, *_):
        """Writes no log."""


class Server(http.server.ThreadingHTTPServer):
    """The server, which runs until it is closed."""

    daemon_threads = True
    request_queue_size = 64

    def __init__(self):
        super().__init__(("127.0.0.1", 0), Answers)
        self.asked, self.lock = collections.defaultdict(list), threading.Lock()
        threading.Thread(target=self.serve_forever, daemon=True).start()

    def __exit__(self, *_):
        self.shutdown()
        self.server_close()

    def take(self, tree):
        """The requests of a tree since the last time."""
        with self.lock:
            return self.asked.pop(tree, [])

    def index(self, tree, place):
        """The URL of the index of a place."""
        return f"sparse+http://127.0.0.1:{self.server_port}/{tree}/{place}/"

    def proxy(self, place):
        """The URL of this server as a proxy."""
        return f"http://{place}@127.0.0.1:{self.server_port}"
