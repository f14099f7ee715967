import os
import sys
sys.path.insert(0, os.path.dirname(os.path.dirname(os.path.abspath(__file__))))
import os
from clients import Server, request, status

server = Server(sys.argv[1:])
pid = server.process.pid
clients = []
for _ in range(200):
    clients.append(server.connect())
    clients[-1].sendall(request('HEAD', '/files/acme/1'))
    assert status(clients[-1]) == '404'
watched = []
for descriptor in os.listdir(f'/proc/{pid}/fd'):
    if os.readlink(f'/proc/{pid}/fd/{descriptor}') == 'anon_inode:[eventpoll]':
        with open(f'/proc/{pid}/fdinfo/{descriptor}') as information:
            watched.append(information.read().count('tfd:') - 2)
print(sum(watched), 'connections at', len(watched), 'workers')
print('none has few' if min(watched) >= 8 else watched)
for client in clients:
    client.close()
for _ in range(200):
    server.connect().close()
server.end()
