#!/usr/bin/env python3
"""Serves index.html, and carries the datagrams of the pages that show it. Each third is lost.

    examples/page/serve.py PORT PACKAGE     # then open http://127.0.0.1:PORT/#7 and, in another window, #8

PACKAGE is the folder of the package for browsers, as node_modules/wb."""
import base64, http.server, pathlib, queue, random, sys
from urllib.parse import urlsplit

PORT, PACKAGE = int(sys.argv[1]), pathlib.Path(sys.argv[2])
HERE = pathlib.Path(__file__).resolve().parent
KINDS = {".html": "text/html; charset=utf-8", ".js": "text/javascript", ".wasm": "application/wasm"}
hearing = {}


class Served(http.server.BaseHTTPRequestHandler):
    def log_message(self, form, *words):
        pass

    def answer(self, status, kind, body=b""):
        self.send_response(status)
        self.send_header("Content-Type", kind)
        self.send_header("Content-Length", str(len(body)))
        self.end_headers()
        self.wfile.write(body)

    def do_POST(self):
        """A datagram goes to all others, but for a third."""
        datagram = self.rfile.read(int(self.headers["Content-Length"]))
        for who, waiting in list(hearing.items()):
            if who != urlsplit(self.path).query and random.random() >= 1 / 3:
                waiting.put(datagram)
        self.answer(204, "text/plain")

    def do_GET(self):
        path, query = urlsplit(self.path)[2:4]
        if path == "/hear":
            return self.stream(query)
        file = (PACKAGE / path[4:] if path.startswith("/wb/") else HERE / "index.html").resolve()
        if file.suffix not in KINDS or not file.is_file() or not (HERE in file.parents or PACKAGE.resolve() in file.parents):
            return self.answer(404, "text/plain")
        self.answer(200, KINDS[file.suffix], file.read_bytes())

    def stream(self, who):
        """What comes for a page, until it is closed or opened anew."""
        self.send_response(200)
        self.send_header("Content-Type", "text/event-stream")
        self.end_headers()
        hearing[who] = waiting = queue.Queue()
        while hearing[who] is waiting:
            try:
                told = b"data: %s\n\n" % base64.b64encode(waiting.get(timeout=5))
            except queue.Empty:
                told = b": still there\n\n"
            try:
                self.wfile.write(told)
                self.wfile.flush()
            except OSError:
                return


http.server.ThreadingHTTPServer(("127.0.0.1", PORT), Served).serve_forever()
