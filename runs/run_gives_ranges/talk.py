import os
import sys
sys.path.insert(0, os.path.dirname(os.path.dirname(os.path.abspath(__file__))))
import re
from clients import Server, asked_at, creation, free_port, patch, reply, request

BODY = bytes(place * place // 251 % 256 for place in range(700001))


def told(client, method, *fields, wanted=b''):
    """Prints what the reply to a request for the upload says of its bytes, and whether they are these."""
    client.sendall(request(method, '/files/acme/1', *fields))
    head, body = reply(client, method != 'HEAD')
    lines = head.splitlines()
    told = [line for line in lines if re.match('Accept-Ranges|Content-Range', line)]
    print(' '.join(fields), '->', '; '.join([lines[0][9:], *told]), len(body), body == wanted)


port = free_port()
server = Server([*sys.argv[1:], '--metrics', str(port)])
with server.connect() as client:
    client.sendall(creation('acme', len(BODY)))
    reply(client)
    told(client, 'GET', 'Range: bytes=0-', wanted=b'unfinished\n')
    client.sendall(patch('/files/acme/1', 0, BODY))
    reply(client)
    told(client, 'GET', wanted=BODY)
    told(client, 'GET', 'Range: bytes=0-0', wanted=BODY[:1])
    told(client, 'GET', 'Range: bytes=262143-262145', wanted=BODY[262143:262146])
    told(client, 'GET', 'Range: bytes=100000-650000', wanted=BODY[100000:650001])
    told(client, 'GET', 'range: Bytes=1-', wanted=BODY[1:])
    told(client, 'GET', 'Range: bytes=-300000', wanted=BODY[-300000:])
    told(client, 'GET', 'Range: bytes=-700002', wanted=BODY)
    told(client, 'GET', 'Range: bytes=700000-700001', wanted=BODY[700000:])
    for none in 'bytes=700001-', 'bytes=700001-700002', 'bytes=-0':
        told(client, 'GET', f'Range: {none}', wanted=b'range\n')
    for other in 'bytes=0-1,3-4', 'bytes=2-1', 'bytes=1', 'lines=0-1', 'bytes=0-18446744073709551616':
        told(client, 'GET', f'Range: {other}', wanted=BODY)
    told(client, 'GET', 'Range: bytes=0-1', 'Range: bytes=0-1', wanted=BODY)
    told(client, 'GET', 'Range: bytes=0-1', 'If-Range: "a"', wanted=BODY)
    told(client, 'HEAD', 'Range: bytes=0-1')
print(asked_at(port, 'POST /stop', 'Content-Length: 0').splitlines()[0])
server.end()
