"""Kinds of input for `tus-server talk`: each function gives the bytes of a conversation and the replies that it gets."""

import base64
import hashlib
import os
import random

KIB = 1024
MIB = 1024 * KIB
MESSAGES = 4096  # the most that a conversation has
UPLOAD_MAX = 16 * MIB  # the greatest --max-size
LETTERS = "abcdefghijklmnopqrstuvwxyz"



def post(length):
    return (
        "POST /files/acme HTTP/1.1\r\nHost: x\r\nTus-Resumable: 1.0.0\r\n"
        f"Upload-Length: {length}\r\n\r\n"
    ).encode()


def patch(upload, offset, body, field=""):
    head = (
        f"PATCH /files/acme/{upload} HTTP/1.1\r\nHost: x\r\nTus-Resumable: 1.0.0\r\n"
        f"Content-Type: application/offset+octet-stream\r\n{field}"
        f"Upload-Offset: {offset}\r\nContent-Length: {len(body)}\r\n\r\n"
    )
    return head.encode() + body


def checksum(body):
    """The field that tells the SHA-1 of these bytes."""
    return f"Upload-Checksum: sha1 {base64.b64encode(hashlib.sha1(body).digest()).decode()}\r\n"


def head(upload, padding):
    field = f"X-Padding: {'x' * padding}\r\n" if padding else ""
    return (
        f"HEAD /files/acme/{upload} HTTP/1.1\r\nHost: x\r\nTus-Resumable: 1.0.0\r\n{field}\r\n"
    ).encode()


def patches(total, piece, upload_size, field_of=lambda body: ""):
    """`total` bytes in pieces, into uploads of `upload_size` bytes, as far as the messages reach. Each piece comes
    with a field that is made of it, if any."""
    text, upload, sent, replies = [], 0, 0, {"201": 0, "204": 0}
    while sent < total:
        if sent % upload_size == 0:
            text.append(post(min(upload_size, total - sent)))
            upload += 1
            replies["201"] += 1
        if len(text) == MESSAGES:
            break
        body = os.urandom(piece)
        text.append(patch(upload, sent % upload_size, body, field_of(body)))
        sent += piece
        replies["204"] += 1
    return b"".join(text), replies


def heads(number, padding=0):
    """One POST, and then HEADs, each with a field of `padding` bytes that says nothing."""
    return post(10) + number * head(1, padding), {"201": 1, "200": number}


def creations(number, metadata):
    """POSTs with this metadata. A tenant has at most 64 uploads, so the later ones are refused, after it was read."""
    post = (
        "POST /files/acme HTTP/1.1\r\nHost: x\r\nTus-Resumable: 1.0.0\r\nUpload-Length: 10\r\n"
        f"Upload-Metadata: {metadata}\r\n\r\n"
    ).encode()
    return number * post, {"201": 64, "507": number - 64}


def keys(number):
    """Metadata of some keys, all different and in no order, filled up to 1,024 bytes by the last one."""
    names = [f"{first}{second}" for first in LETTERS for second in LETTERS][:number]
    random.Random(1).shuffle(names)
    text = "".join(f"{name}," for name in names)
    return text + "x" * (1024 - len(text))


def gets(size):
    """One upload, and 64 GETs of it."""
    get = b"GET /files/acme/1 HTTP/1.1\r\nHost: x\r\n\r\n"
    return post(size) + patch(1, 0, os.urandom(size)) + 64 * get, {"201": 1, "204": 1, "200": 64}


def created(number):
    """Creations of empty uploads, of which the first 64 find room, each with a name."""
    return creations(number, "filename d29ybGQucGRm")


def joins(number):
    """Two parts of 4 KiB, and then joins of them. With the parts a tenant has at most 64 uploads."""
    part = (
        "POST /files/acme HTTP/1.1\r\nHost: x\r\nTus-Resumable: 1.0.0\r\n"
        "Upload-Concat: partial\r\nUpload-Length: 4096\r\n\r\n"
    ).encode()
    join = (
        "POST /files/acme HTTP/1.1\r\nHost: x\r\nTus-Resumable: 1.0.0\r\n"
        "Upload-Concat: final;/files/acme/1 /files/acme/2\r\n\r\n"
    ).encode()
    text = 2 * part + patch(1, 0, os.urandom(4096)) + patch(2, 0, os.urandom(4096)) + number * join
    return text, {"201": 2 + number, "204": 2}
