import os
import sys
sys.path.insert(0, os.path.dirname(os.path.dirname(os.path.abspath(__file__))))
import resource
from clients import Server, creation, field, patch, reply, request, status

CLIENTS, WAVE = 2000, 500
most = resource.getrlimit(resource.RLIMIT_NOFILE)[1]
resource.setrlimit(resource.RLIMIT_NOFILE, (min(most, 8192), most))


def send(clients, texts):
    """Sends each client's text: every second one in one piece, and the others a byte at a time, all side by side."""
    for number, client in enumerate(clients):
        if number % 2:
            client.sendall(texts[number])
    for place in range(max(map(len, texts))):
        for number, client in enumerate(clients):
            if number % 2 == 0 and place < len(texts[number]):
                client.send(texts[number][place:place + 1])


server = Server(sys.argv[1:])
clients = [server.connect() for _ in range(CLIENTS)]
for start in range(0, CLIENTS, WAVE):
    wave = clients[start:start + WAVE]
    bodies = [b'upload %03d' % n for n in range(WAVE)]
    for number, client in enumerate(wave):
        client.sendall(creation(f't{number % 16}', 10))
    paths = [field(reply(client)[0], 'Location') for client in wave]
    send(wave, [patch(path, 0, body) for path, body in zip(paths, bodies)])
    assert all(status(client) == '204' for client in wave)
    for client, path in zip(wave, paths):
        client.sendall(request('GET', path))
    assert [reply(client)[1] for client in wave] == bodies
    for client, path in zip(wave, paths):
        client.sendall(request('DELETE', path))
    assert all(status(client) == '204' for client in wave)
    print(f'{start + WAVE} uploads were as they were sent')
for client in clients:
    client.close()
server.end()
