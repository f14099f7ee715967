import os
import sys
sys.path.insert(0, os.path.dirname(os.path.dirname(os.path.abspath(__file__))))
import os
import resource
import time
from clients import Server, request, status

server = Server(sys.argv[1:])
pid = server.process.pid
first = server.connect()
first.sendall(request('HEAD', '/files/acme/1'))
print(status(first))
opened = len(os.listdir(f'/proc/{pid}/fd'))
resource.prlimit(pid, resource.RLIMIT_NOFILE, (opened + 2, opened + 2))
clients = [server.connect() for _ in range(7)]
for client in clients:
    client.sendall(request('HEAD', '/files/acme/1'))
time.sleep(2.5)
first.close()
for client in clients:
    print(status(client))
    client.close()
server.end()
