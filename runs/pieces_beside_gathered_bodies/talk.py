import os
import sys
sys.path.insert(0, os.path.dirname(os.path.dirname(os.path.abspath(__file__))))
import base64
import hashlib
from clients import PATCH, Server, creation, patch, reply, request

MOST = 100000
BODY = b'x' * (2 * MOST)


def told(*messages):
    """Sends these over a connection of their own, and prints the statuses and the bodies of their replies."""
    with server.connect() as client:
        client.sendall(b''.join(messages))
        for _ in messages:
            head, body = reply(client)
            print(head.splitlines()[0], body)


def checksum(body):
    return f'Upload-Checksum: sha1 {base64.b64encode(hashlib.sha1(body).digest()).decode()}'


def checked(body):
    return request('PATCH', '/files/acme/2', *PATCH, 'Upload-Offset: 0', checksum(body), body=body)


def created(body, *fields):
    return request('POST', '/files/acme', f'Upload-Length: {len(BODY)}', *PATCH, *fields, body=body)


server = Server(sys.argv[1:])
told(creation('acme', len(BODY)), patch('/files/acme/1', 0, BODY), creation('acme', len(BODY)))
told(checked(BODY[:MOST + 1]))
told(checked(BODY[:MOST]))
told(created(BODY[:MOST + 1], checksum(BODY[:MOST + 1])))
told(created(BODY[:MOST], checksum(BODY[:MOST])))
told(created(BODY))
server.end()
