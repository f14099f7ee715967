import os
import sys
sys.path.insert(0, os.path.dirname(os.path.dirname(os.path.abspath(__file__))))
import re
from base64 import b64encode
from clients import Server, asked_at, free_port, reply, request

FILES = [
    {},
    {'filetype': b'image/png', 'filename': b'cat.png'},
    {'filename': 'Übersicht 1.pdf'.encode(), 'filetype': b'application/pdf'},
    {'filetype': b'text/html'},
    {'filetype': b'text/plain;charset=utf-8', 'filename': b'a "quoted" name'},
    {'filetype': b'text/plain\r\nSet-Cookie: a=b', 'filename': b'a\r\nb'},
]

program, port = sys.argv[1], free_port()


def tell(client):
    """Creates an empty upload with the metadata of each file, and prints what a GET tells of it."""
    for place, file in enumerate(FILES, 1):
        metadata = ','.join(f'{key} {b64encode(value).decode()}' for key, value in file.items())
        told = [f'Upload-Metadata: {metadata}'] if metadata else []
        client.sendall(request('POST', '/files/acme', 'Upload-Length: 0', *told))
        reply(client)
        client.sendall(request('GET', f'/files/acme/{place}'))
        head, _ = reply(client, True)
        print('; '.join(line for line in head.splitlines() if re.match('Content-[DT]|X-', line)))


server = Server([*sys.argv[1:], '--metrics', str(port)])
with server.connect() as client:
    tell(client)
print(asked_at(port, 'POST /stop', 'Content-Length: 0').splitlines()[0])
print(server.process.stdout.read(), end='')
server = Server([program, 'serve', '--port', '0', '--workers', '1', '--connections', '1', 'acme:16MiB'])
with server.connect() as client:
    tell(client)
server.end()
