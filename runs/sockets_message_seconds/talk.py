import os
import sys
sys.path.insert(0, os.path.dirname(os.path.dirname(os.path.abspath(__file__))))
import time
from clients import Server, everything, request, status

server = Server(sys.argv[1:])
slow, quick = server.connect(), server.connect()
begun = time.monotonic()
try:
    while time.monotonic() - begun < 20:
        slow.sendall(b'x')
        quick.sendall(request('HEAD', '/files/acme/1'))
        assert status(quick) == '404'
        time.sleep(0.1)
except OSError:
    pass
took = time.monotonic() - begun
print('cut off in time' if 1 <= took < 6 else f'cut off after {took} seconds')
quick.sendall(request('HEAD', '/files/acme/1'))
print(status(quick))
quick.close()
slow.close()
server.end()
