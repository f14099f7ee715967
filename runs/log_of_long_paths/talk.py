import os
import sys
sys.path.insert(0, os.path.dirname(os.path.dirname(os.path.abspath(__file__))))
import tempfile
import threading
from clients import Server, answered, request

CLIENTS = 64
REQUESTS = 64
replies = []


def talk(server):
    with server.connect() as client:
        replies.append(answered(client, request('HEAD', '/' + '%' * 1000), REQUESTS, b'HTTP/1.1 404 '))


with tempfile.TemporaryDirectory() as folder:
    path = os.path.join(folder, 'log')
    server = Server([*sys.argv[1:], '--log', path])
    clients = [threading.Thread(target=talk, args=(server,)) for _ in range(CLIENTS)]
    for client in clients:
        client.start()
    for client in clients:
        client.join()
    print(sum(replies), 'requests were answered')
    balance = server.process.stdout.read()
    lines = open(path).readlines()
    print(len(lines), 'lines, of', sum(line.endswith(' sent\n') for line in lines), 'that were sent')
print(balance, end='')
sys.exit(server.process.wait())
