#!/usr/bin/env python3
"""Drives a server of nginx that was built in this folder: requests, a reload, its upgrade while it serves, and its end.

usage: cd SOURCES && nginx.py
"""

import gzip
import http.client
import os
import shutil
import signal
import socket
import ssl
import subprocess
from concurrent.futures import ThreadPoolExecutor
from typing import Any, List, NamedTuple

from steps import Steps, comes_to, text_of

HERE = f"{os.getcwd()}/there"
NGINX = f"{os.getcwd()}/objs/nginx"
PAGE = "<p>page</p>\n" * 500

CONFIGURATION = """
user root;
worker_processes 2;
pid nginx.pid;
error_log error.log info;
events { worker_connections 64; }
http {
    client_body_temp_path body; proxy_temp_path proxy; fastcgi_temp_path fastcgi; uwsgi_temp_path uwsgi;
    scgi_temp_path scgi;
    access_log access.log;
    types { text/html html; }
    proxy_cache_path cache keys_zone=kept:1m;
    limit_req_zone $binary_remote_addr zone=few:1m rate=1r/m;
    server {
        listen 127.0.0.1:PORT;
        listen 127.0.0.1:SECURE ssl;
        ssl_certificate own.pem;
        ssl_certificate_key own.key;
        root html;
        error_page 404 /missing.html;
        add_header Version "VERSION";
        location /all/ { alias html/; index none; autoindex on; }
        location /packed/ { alias html/; gzip on; }
        location /parts/ { alias parts/; ssi on; types { text/html html; } }
        location /twice/ { proxy_pass http://127.0.0.1:PORT/; proxy_cache kept; proxy_cache_valid 200 1m; }
        location /upstream/ { proxy_pass http://127.0.0.1:PORT/echo/; proxy_http_version 1.1; }
        location /echo/ { client_max_body_size 2m; return 200 $request_method; }
        location /few/ { alias html/; limit_req zone=few; limit_req_status 429; }
        location /old { rewrite ^ /index.html permanent; }
    }
}
"""


class Answer(NamedTuple):
    status: int
    body: bytes
    headers: Any


def free_port() -> int:
    with socket.socket() as one:
        one.bind(("127.0.0.1", 0))
        return int(one.getsockname()[1])


PORT, SECURE = free_port(), free_port()


def ask(path: str, method: str = "GET", body: Any = None, connection: Any = None, **headers: str) -> Answer:
    own = connection or http.client.HTTPConnection("127.0.0.1", PORT, timeout=60)
    own.request(method, path, body, {name.replace("_", "-"): value for name, value in headers.items()})
    answer = own.getresponse()
    found = Answer(answer.status, answer.read(), answer.headers)
    if connection is None:
        own.close()
    return found


def version() -> str:
    """Of the configuration by which a request is answered; nothing while nobody answers."""
    try:
        return str(ask("/index.html").headers["Version"])
    except OSError:
        return ""


def write(name: str, text: str) -> None:
    os.makedirs(os.path.dirname(f"{HERE}/{name}"), exist_ok=True)
    with open(f"{HERE}/{name}", "w", encoding="utf-8") as file:
        file.write(text)


def configure(of: str) -> None:
    text = CONFIGURATION.replace("VERSION", of).replace("PORT", str(PORT)).replace("SECURE", str(SECURE))
    write("nginx.conf", text)


def nginx(*words: str) -> int:
    argv = [NGINX, "-p", HERE, "-c", "nginx.conf", "-e", "error.log", *words]
    return subprocess.run(argv, stdin=subprocess.DEVNULL, check=False).returncode


def master(name: str = "nginx.pid") -> int:
    return int(text_of(f"{HERE}/{name}") or "0")


def is_alive(process: int) -> bool:
    try:
        os.kill(process, 0)
    except ProcessLookupError:
        return False
    return True


def requests(steps: Steps) -> None:
    steps.same("a file", ask("/index.html")[:2], (200, PAGE.encode()))
    steps.same("a part of it", ask("/index.html", Range="bytes=3-6")[:2], (206, b"page"))
    since = ask("/index.html").headers["Last-Modified"]
    steps.same("a file that has not changed", ask("/index.html", If_Modified_Since=since).status, 304)
    steps.same("a page that is missing", ask("/none")[:2], (404, b"nothing\n"))
    steps.expect("a listing", b'href="index.html"' in ask("/all/").body)
    packed = ask("/packed/index.html", Accept_Encoding="gzip")
    steps.same("packed", gzip.decompress(packed.body), PAGE.encode())
    steps.same("pages in a page", ask("/parts/whole.html").body, b"[one] [two]\n")
    steps.same("a rewritten place", ask("/old").status, 301)
    steps.same("by itself as a proxy", [ask("/twice/index.html").body for _ in range(3)], [PAGE.encode()] * 3)
    steps.same("a large body", ask("/upstream/", "POST", b"x" * 1_000_000)[:2], (200, b"POST"))
    steps.same("a body that is too large", ask("/echo/", "POST", b"x", Content_Length="9999999").status, 413)
    steps.same("too many requests", sorted(ask("/few/index.html").status for _ in range(3)), [200, 429, 429])


def more_requests(steps: Steps) -> None:
    one = http.client.HTTPConnection("127.0.0.1", PORT, timeout=60)
    steps.same("one connection", [ask("/index.html", connection=one).status for _ in range(20)], [200] * 20)
    one.close()
    with ThreadPoolExecutor(16) as pool:
        found = list(pool.map(lambda _: ask("/twice/index.html").status, range(200)))
    steps.same("many at once", found, [200] * 200)
    trusting = ssl._create_unverified_context()
    secure = http.client.HTTPSConnection("127.0.0.1", SECURE, context=trusting, timeout=60)
    steps.same("by TLS", ask("/index.html", connection=secure).body, PAGE.encode())
    secure.close()
    with socket.create_connection(("127.0.0.1", PORT)) as raw:
        raw.sendall(b"NONSENSE\r\n\r\n")
        steps.expect("nonsense", b"400 Bad Request" in raw.recv(4096))


def changes(steps: Steps) -> None:
    """While it serves: another configuration, other logs, and another binary."""
    configure("second")
    os.kill(master(), signal.SIGHUP)
    steps.comes("a reload", version, lambda seen: seen == "second")
    os.rename(f"{HERE}/access.log", f"{HERE}/access.old")
    os.kill(master(), signal.SIGUSR1)
    steps.comes("a new log", lambda: version() and text_of(f"{HERE}/access.log"), lambda seen: "/index.html" in seen)
    old = master()
    configure("third")
    os.kill(old, signal.SIGUSR2)
    steps.comes("an upgrade", lambda: (master("nginx.pid.oldbin"), master()), lambda it: it[0] == old != it[1] > 0)
    os.kill(old, signal.SIGQUIT)
    comes_to(lambda: is_alive(old), lambda it: not it)
    steps.same("the old one's end", (is_alive(old), version()), (False, "third"))


def main() -> None:
    shutil.rmtree(HERE, ignore_errors=True)
    write("html/index.html", PAGE)
    write("html/missing.html", "nothing\n")
    write("parts/one.html", "[one]")
    write("parts/two.html", "[two]")
    write("parts/whole.html", '<!--#include file="one.html" --> <!--#include virtual="/parts/two.html" -->\n')
    own: List[str] = ["openssl", "req", "-x509", "-newkey", "rsa:2048", "-nodes", "-subj", "/CN=localhost"]
    subprocess.run([*own, "-keyout", "own.key", "-out", "own.pem"], cwd=HERE, check=True, stderr=subprocess.DEVNULL)
    configure("first")
    steps = Steps()
    steps.same("the configuration", nginx("-t"), 0)
    steps.same("the start", nginx(), 0)
    try:
        steps.comes("an answer", version, lambda seen: seen == "first")
        requests(steps)
        more_requests(steps)
        changes(steps)
        last = master()
        steps.same("the signal to stop", nginx("-s", "quit"), 0)
        steps.comes("the end", lambda: is_alive(last), lambda it: not it)
        wrong = [it for it in text_of(f"{HERE}/error.log").splitlines() if "[alert]" in it or "[emerg]" in it]
        steps.same("no alert", wrong, [])
    finally:
        for process in {master(), master("nginx.pid.oldbin")} - {0}:
            if is_alive(process):
                os.kill(process, signal.SIGTERM)
    print(f"{steps.done} steps")


if __name__ == "__main__":
    main()
