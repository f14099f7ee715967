#!/usr/bin/env python3
"""Kills `talk --journal` at random moments, and asks the next one for all that its replies had told.

    bench/talk/kill.py PROGRAM [KILLS [SEED]]

Each time random requests are written to it at once, and it is killed (SIGKILL) while it answers them. Each reply has to be the
one that is due. Then the file is opened again, and HEAD and GET of all uploads have to tell the book after some first so many of
the requests: at least those of which a byte of a reply had come. It prints one line of figures, or where it found a fault.
"""
import base64
import contextlib
import hashlib
import os
import random
import subprocess
import sys
import tempfile
import threading
import time
from collections import namedtuple
from email.utils import formatdate

UPLOADS, LIFETIME = 12, 86400
Upload = namedtuple("Upload", "length is_part end body")
# A request, what is due for it, and the book after it: an upload under each tenant and id, None where it was deleted.
Request = namedtuple("Request", "method text status fields book body", defaults=[b""])


def message(method, path, fields=(), body=b""):
    return "\r\n".join([f"{method} /files/{path} HTTP/1.1", "Host: x", "Tus-Resumable: 1.0.0", *fields, "\r\n"]).encode() + body


def shown(upload):
    is_open = upload.is_part or len(upload.body) < upload.length
    return {"upload-offset": str(len(upload.body)), "upload-expires": formatdate(upload.end, usegmt=True) if is_open else None}


def create(rng, book, now, tenant, parts):
    ids = [number for name, number in book if name == tenant]
    joined = b"".join(book[part].body for part in parts)
    made, fields = Upload(len(joined), False, now + LIFETIME, joined), ["Upload-Concat: final;" + " ".join("/files/%s/%d" % part for part in parts)]
    if not parts:
        made = Upload(rng.randint(1, 20000), rng.random() < 0.4, now + LIFETIME, b"")
        fields = [f"Upload-Length: {made.length}"] + ["Upload-Concat: partial"] * made.is_part
    text = message("POST", tenant, fields)
    if sum(book[tenant, number] is not None for number in ids) >= UPLOADS:
        return Request("POST", text, "507", {}, book)
    due = {"location": f"/files/{tenant}/{len(ids) + 1}", "upload-expires": shown(made)["upload-expires"]}
    return Request("POST", text, "201", due, book | {(tenant, len(ids) + 1): made})


def send(rng, book, now, path):
    upload, wrong = book[path], rng.choice(["", "", "", "", "409", "460"])
    offset = len(upload.body)
    body = rng.randbytes(rng.choice([rng.randint(1, upload.length - offset), upload.length - offset]))
    digest = base64.b64encode(hashlib.sha1(body + (b"x" if wrong == "460" else b"")).digest()).decode()
    fields = ["Content-Type: application/offset+octet-stream", f"Upload-Offset: {offset + (wrong == '409')}",
              f"Content-Length: {len(body)}"] + [f"Upload-Checksum: sha1 {digest}"] * (wrong == "460" or rng.random() < 0.3)
    text = message("PATCH", "%s/%d" % path, fields, body)
    sent = upload._replace(body=upload.body + body, end=now + LIFETIME)
    return Request("PATCH", text, wrong, {}, book) if wrong else Request("PATCH", text, "204", shown(sent), book | {path: sent})


def ask(method, book, path):
    upload, text = book.get(path), message(method, "%s/%d" % path)
    if upload is None:
        return Request(method, text, "410" if path in book else "404", {}, book)
    if method == "GET":
        is_whole = len(upload.body) == upload.length
        return Request(method, text, "200" if is_whole else "409", {}, book, upload.body if is_whole else b"")
    return Request(method, text, "200", {"upload-offset": str(len(upload.body)), "upload-length": str(upload.length)}, book)


def any_request(rng, book, now):
    there = [path for path in book if book[path] is not None]
    unfinished = [path for path in there if len(book[path].body) < book[path].length]
    tenant, kind = rng.choice(["acme", "bolt"]), rng.random()
    parts = [path for path in there if path[0] == tenant and book[path].is_part and path not in unfinished]
    if kind < 0.5 and unfinished:
        return send(rng, book, now, rng.choice(unfinished))
    if kind < 0.6 and there:
        gone = rng.choice(there)
        return Request("DELETE", message("DELETE", "%s/%d" % gone), "204", {}, book | {gone: None})
    if kind < 0.7 and book:
        return ask(rng.choice(["HEAD", "GET"]), book, rng.choice(list(book)))
    return create(rng, book, now, tenant, rng.sample(parts, min(len(parts), 3)) if kind < 0.8 else [])


def replies_in(text, requests):
    """Each whole reply, as its status, fields and body, and whether a byte of one more came."""
    found = []
    for request in requests:
        head, end, rest = text.partition(b"\r\n\r\n")
        first, *lines = head.decode("latin-1").split("\r\n")
        fields = {line.split(": ")[0].lower(): line.split(": ", 1)[1] for line in lines if ": " in line}
        length = 0 if request.method == "HEAD" else int(fields.get("content-length", 0))
        if not end or len(rest) < length:
            break
        found.append((first.split()[1], fields, rest[:length]))
        text = rest[length:]
    return found, text != b""


def is_due(reply, request):
    is_body_due = request.method != "GET" or reply[0] != "200" or reply[2] == request.body
    return is_body_due and reply[0] == request.status and all(reply[1].get(name) == request.fields[name] for name in request.fields)


def killed(command, requests, wanted, delay):
    """What came of a process that is given these requests, and is killed so long after so many replies."""
    with subprocess.Popen(command, stdin=subprocess.PIPE, stdout=subprocess.PIPE, bufsize=0) as server:
        def feed():
            with contextlib.suppress(BrokenPipeError):
                server.stdin.write(b"".join(request.text for request in requests))
        feeder, text = threading.Thread(target=feed), b""
        feeder.start()
        while len(replies_in(text, requests)[0]) < wanted and (more := os.read(server.stdout.fileno(), 65536)):
            text += more
        time.sleep(delay)
        server.kill()
        feeder.join()
        return text + server.stdout.read()


def main(program, kills=100, seed=1):
    rng, book, sent, told, ahead, asked, compared = random.Random(int(seed)), {}, 0, 0, 0, 0, 0
    with tempfile.TemporaryDirectory() as folder:
        for kill in range(1, int(kills) + 1):
            now, books, requests = 1000 + 60 * kill, [book], []
            command = [program, "talk", "--journal", f"{folder}/uploads", "--uploads", str(UPLOADS), "--moment", str(now), "acme:1000", "bolt:1000"]
            for _ in range(rng.randint(1, 40)):
                requests.append(any_request(rng, books[-1], now))
                books.append(requests[-1].book)
            text = killed(command, requests, rng.randint(0, len(requests)), rng.random() * 0.004)
            replies, has_more = replies_in(text, requests)
            asks = [[ask(method, after, path) for path in books[-1] for method in ("HEAD", "GET")] for after in books]
            opened = subprocess.run(command, input=b"".join(request.text for request in asks[0]), capture_output=True, check=False)
            found, _ = replies_in(opened.stdout, asks[0])
            kept = [n for n in range(len(replies) + has_more, len(books)) if all(map(is_due, found, asks[n]))]
            if not all(map(is_due, replies, requests)) or opened.returncode != 0 or len(found) != len(asks[0]) or not kept:
                sys.exit(f"kill {kill}: not as told: {replies} {opened.stderr}")
            sent, told, ahead = sent + len(requests), told + len(replies), ahead + (books[kept[-1]] is not books[len(replies)])
            asked, compared, book = asked + len(books[-1]), compared + sum(len(reply[2]) for reply in found), books[kept[-1]]
        print(f"{kills} kills, {sent} requests sent, {told} replied to, {ahead} times more was kept than was told; {asked} uploads "
              f"asked for, {compared} bytes compared, a file of {os.path.getsize(folder + '/uploads/journal')} bytes: all was as told")


if __name__ == "__main__":
    main(*sys.argv[1:])
