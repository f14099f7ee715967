import os
import sys
sys.path.insert(0, os.path.dirname(os.path.dirname(os.path.abspath(__file__))))
import socket
import time
from clients import Server, creation, everything, request

with socket.create_server(('127.0.0.1', 0)) as free:
    port = free.getsockname()[1]
server = Server([*sys.argv[1:], '--metrics', str(port)])
with server.connect() as client:
    client.sendall(creation('acme', 5) + request('HEAD', '/files/acme/1', 'Connection: close'))
    print(everything(client).count('HTTP/1.1 20'), 'requests were answered')
time.sleep(0.5)
with socket.create_connection(('127.0.0.1', port), timeout=30) as client:
    client.sendall(b'GET /metrics HTTP/1.1\r\n\r\n')
    print([line for line in everything(client).splitlines() if line.startswith('cadrusmo_log_lines_lost_total')])
with server.connect() as client:
    client.sendall(request('OPTIONS', '*', 'Connection: close'))
    everything(client)
server.end()
