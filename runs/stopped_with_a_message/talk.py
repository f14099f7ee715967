import os
import sys
sys.path.insert(0, os.path.dirname(os.path.dirname(os.path.abspath(__file__))))
from clients import Server, asked_at, creation, everything, free_port, patch, reply

port = free_port()
server = Server([*sys.argv[1:], '--metrics', str(port)])
silent = server.connect()
busy = server.connect()
busy.sendall(creation('acme', 10))
print(reply(busy)[0].splitlines()[0])
busy.sendall(patch('/files/acme/1', 0, b'hello', length=10))
while 'cadrusmo_connections_open 2' not in asked_at(port, 'GET /metrics'):
    pass
for _ in range(2):
    print('POST /stop', asked_at(port, 'POST /stop').splitlines()[0])
print('let go:', everything(silent))
print('GET /health', asked_at(port, 'GET /health'))
print('nobody listens:', server.is_closed())
busy.sendall(b'world')
print(everything(busy), end='')
server.end()
