import os
import sys
sys.path.insert(0, os.path.dirname(os.path.dirname(os.path.abspath(__file__))))
import time
from clients import Server, asked_at, creation, free_port, patch, reply, request


def told(text, client, data, has_body=True):
    """Prints the first line of the reply to a request, and whether it tells when the upload expires."""
    client.sendall(data)
    head, _ = reply(client, has_body)
    print(text, '->', head.splitlines()[0][9:], 'Upload-Expires' in head)


port = free_port()
server = Server([*sys.argv[1:], '--metrics', str(port)])
with server.connect() as client:
    told('POST', client, creation('acme', 5))
    told('PATCH of 5 bytes', client, patch('/files/acme/1', 0, b'hello'))
    told('GET', client, request('GET', '/files/acme/1'))
    told('POST of a part', client, request('POST', '/files/acme', 'Upload-Length: 0', 'Upload-Concat: partial'))
    told('POST of a final', client, request('POST', '/files/acme', 'Upload-Concat: final;/files/acme/2'))
    time.sleep(3.5)
    told('HEAD', client, request('HEAD', '/files/acme/1'), False)
    told('HEAD of the part', client, request('HEAD', '/files/acme/2'), False)
    told('HEAD of the final', client, request('HEAD', '/files/acme/3'), False)
print(asked_at(port, 'POST /stop', 'Content-Length: 0').splitlines()[0])
server.end()
