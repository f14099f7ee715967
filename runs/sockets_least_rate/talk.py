import os
import sys
sys.path.insert(0, os.path.dirname(os.path.dirname(os.path.abspath(__file__))))
import time
from clients import Server, creation, field, patch, reply, request, status

server = Server(sys.argv[1:])
slow, fast = server.connect(), server.connect()
for number, client in enumerate((slow, fast), 1):
    client.sendall(creation('acme', 100000))
    status(client)
    client.sendall(patch(f'/files/acme/{number}', 0, b'', length=100000))
begun, sent = time.monotonic(), 0
try:
    while time.monotonic() - begun < 30:
        fast.sendall(bytes(100))
        slow.sendall(bytes(2))
        sent += 1
        time.sleep(0.2)
except OSError:
    pass
took = time.monotonic() - begun
print('cut off in time' if 9 <= took < 15 else f'cut off after {took} seconds')
told = server.asked('HEAD', '/files/acme/1')
print('what came is kept' if 2 * sent - 20 <= int(field(told, 'Upload-Offset')) <= 2 * sent else told)
fast.sendall(bytes(100000 - 100 * sent))
print(status(fast))
fast.close()
slow.close()
server.end()
