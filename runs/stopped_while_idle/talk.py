import os
import sys
sys.path.insert(0, os.path.dirname(os.path.dirname(os.path.abspath(__file__))))
import time
from clients import Server, asked_at, creation, everything, free_port, other_address, patch, reply

port = free_port()
server = Server([*sys.argv[1:], '--address', '0.0.0.0', '--metrics', str(port)])
silent = server.connect()
served = server.connect()
served.sendall(creation('acme', 5) + patch('/files/acme/1', 0, b'hello'))
for _ in range(2):
    print(reply(served)[0].splitlines()[0])
print('GET /health', asked_at(port, 'GET /health').splitlines()[0])
print('GET /stop', asked_at(port, 'GET /stop'))
print('by a page', asked_at(port, 'POST /stop', 'Origin: http://x'))
# Who comes from an address that is neither of the loopback nor the one that is asked is as one on another machine.
address = other_address()
refused = asked_at(port, 'POST /stop', source=address).split(' ')[1] if address else '403'
print('from elsewhere', refused)
print('GET /health', asked_at(port, 'GET /health').splitlines()[0])
began = time.monotonic()
print('POST /stop', asked_at(port, 'POST /stop', 'Content-Length: 0'))
print('let go:', [everything(silent), everything(served)])
print(server.process.stdout.read(), end='')
status = server.process.wait()
print('at once:', time.monotonic() - began < 5)
print('nobody listens:', server.is_closed())
sys.exit(status)
