"""What the tries of proxies have in common: servers that are started, connections that are recorded, replies that are read."""
import atexit
import os
import re
import shutil
import socket
import ssl
import subprocess
import tempfile
import threading
import time

HERE = os.path.dirname(os.path.abspath(__file__))
TOP = os.path.dirname(os.path.dirname(HERE))
UPSTREAMS = [8081, 8082, 8083, 8084]  # of docs/scale.*
NGINX = shutil.which('nginx') or '/usr/sbin/nginx'


def free_port():
    with socket.create_server(('127.0.0.1', 0)) as listener:
        return listener.getsockname()[1]


def wait_for(port):
    for _ in range(100):
        try:
            socket.create_connection(('127.0.0.1', port)).close()
            return
        except ConnectionRefusedError:
            time.sleep(0.05)
    raise SystemExit(f'nothing listens at {port}')


class Server:
    """A tus-server that was started."""

    def __init__(self, program, *words):
        self.process = subprocess.Popen([program, 'serve', '--workers', '16', '--forever', *words], stdout=subprocess.PIPE, text=True)
        atexit.register(self.stop)
        self.port = int(self.process.stdout.readline().rsplit(':', 1)[1])

    def stop(self):
        self.process.kill()
        self.process.wait()


class Recorder:
    """Stands between nginx and the server, hands on all bytes, and keeps what was sent and what was answered."""

    def __init__(self, to):
        self.to, self.listener = to, socket.create_server(('127.0.0.1', 0), backlog=256)
        self.port = self.listener.getsockname()[1]
        self.clear()
        threading.Thread(target=self.accept, daemon=True).start()

    def clear(self):
        """Forgets the past. Connections that are open go on to be recorded, by what comes from now on."""
        self.connections = {}

    def accept(self):
        number = 0
        while True:
            near = self.listener.accept()[0]
            far = socket.create_connection(('127.0.0.1', self.to))
            for side in (near, far):
                side.setsockopt(socket.IPPROTO_TCP, socket.TCP_NODELAY, 1)
            number += 1
            for source, sink, which in ((near, far, 0), (far, near, 1)):
                threading.Thread(target=self.pump, args=(number, source, sink, which), daemon=True).start()

    def pump(self, number, source, sink, which):
        try:
            while piece := source.recv(65536):
                self.connections.setdefault(number, [bytearray(), bytearray()])[which] += piece
                sink.sendall(piece)
            sink.shutdown(socket.SHUT_WR)
        except OSError:
            for side in (source, sink):
                try:
                    side.shutdown(socket.SHUT_RDWR)
                except OSError:
                    pass

    def sent(self):
        return b''.join(bytes(c[0]) for c in self.connections.values())

    def answers(self):
        """How many replies the server gave, without `100 Continue`."""
        return sum(reply.status != 100 for c in self.connections.values() for reply in replies_in(bytes(c[1])))


class Nginx:
    """An nginx with docs/nginx.conf, in a folder of its own: the marked parts that are named, and other ports."""

    def __init__(self, upstream, marks=(), changes=()):
        self.folder, self.port = tempfile.mkdtemp(), free_port()
        os.chmod(self.folder, 0o755)
        text = open(f'{TOP}/docs/nginx.conf').read()
        for mark in marks:
            text = text.replace(f'#{mark} ', '')
        log = "log_format seen '$request_method $status $upstream_status'; access_log seen.log seen;"
        for old, new in (('127.0.0.1:8443', f'127.0.0.1:{self.port}'), ('server 127.0.0.1:8080', f'server 127.0.0.1:{upstream}'),
                         ('access_log off;', log), ('error_log stderr;', 'error_log error.log;'), *changes):
            assert old in text, old
            text = text.replace(old, new)
        open(f'{self.folder}/nginx.conf', 'w').write(text)
        certificate(self.folder)
        self.process = subprocess.Popen([NGINX, '-p', self.folder, '-c', 'nginx.conf', '-g', 'daemon off;'])
        atexit.register(self.stop)
        wait_for(self.port)
        self.trust = ssl.create_default_context(cafile=f'{self.folder}/cert.pem')

    def connect(self):
        return self.trust.wrap_socket(socket.create_connection(('127.0.0.1', self.port), timeout=30), server_hostname='127.0.0.1')

    def passed(self):
        """How many requests nginx says it handed on, since it started."""
        lines = open(f'{self.folder}/seen.log').read().splitlines()
        return sum(not line.endswith(' -') for line in lines)

    def stop(self):
        self.process.terminate()
        self.process.wait()
        shutil.rmtree(self.folder, ignore_errors=True)


class Proxies:
    """nginx and HAProxy with docs/scale.*, before servers at these four ports, at other ports than there, in a folder of their own."""

    def __init__(self, upstreams):
        self.folder, self.front = tempfile.mkdtemp(), {port: free_port() for port in (8090, 8091, 8092, 8093)}
        os.chmod(self.folder, 0o755)
        ports = {**self.front, **dict(zip(UPSTREAMS, upstreams))}
        for name in ('scale.nginx.conf', 'scale.haproxy.cfg', 'scale.tenants'):
            text = open(f'{TOP}/docs/{name}').read().replace('error_log stderr;', 'error_log error.log;')
            text = re.sub(r'127\.0\.0\.1:(\d+)', lambda m: f'127.0.0.1:{ports[int(m.group(1))]}', text)
            open(f'{self.folder}/{name}', 'w').write(text)
        self.nginx_words = [NGINX, '-p', self.folder, '-c', 'scale.nginx.conf']
        haproxy = [shutil.which('haproxy') or '/usr/sbin/haproxy', '-f', 'scale.haproxy.cfg']
        self.started = [subprocess.Popen([*self.nginx_words, '-g', 'daemon off;']), subprocess.Popen(haproxy, cwd=self.folder)]
        atexit.register(self.stop)
        self.nginx, self.haproxy = self.front[8090], self.front[8092]
        for port in self.front.values():
            wait_for(port)

    def change(self, old, new):
        """Changes nginx's file, and lets nginx read it again."""
        text = open(f'{self.folder}/scale.nginx.conf').read()
        assert old in text, old
        open(f'{self.folder}/scale.nginx.conf', 'w').write(text.replace(old, new))
        subprocess.run([*self.nginx_words, '-s', 'reload'], check=True, stderr=subprocess.DEVNULL)
        time.sleep(1)

    def stop(self):
        for process in self.started:
            process.terminate()
        for process in self.started:
            process.wait()
        shutil.rmtree(self.folder, ignore_errors=True)


def certificate(folder):
    subprocess.run(['openssl', 'req', '-x509', '-newkey', 'rsa:2048', '-nodes', '-days', '1', '-subj', '/CN=localhost', '-addext',
                    'subjectAltName=IP:127.0.0.1', '-keyout', f'{folder}/key.pem', '-out', f'{folder}/cert.pem'],
                   check=True, stderr=subprocess.DEVNULL)


class Reply:
    """A reply: its status, its fields in lower case, and its body."""

    def __init__(self, head, body):
        first, *lines = head.decode('latin-1').split('\r\n')
        self.status, self.body = int(first.split()[1]), body
        self.fields = {name.lower(): value.strip() for name, _, value in (line.partition(':') for line in lines)}


def replies_in(data, bare=False):
    """The whole replies of some bytes, in order; those to HEADs have no body."""
    found = []
    while match := re.match(rb'(HTTP/1\.1 \d+[^\r]*(?:\r\n[^\r]+)*)\r\n\r\n', data):
        head, data = match.group(1), data[match.end():]
        length = re.search(rb'(?i)\r\ncontent-length: *(\d+)', head)
        size = 0 if bare or not length else int(length.group(1))
        if len(data) < size:
            break
        found.append(Reply(head, data[:size]))
        data = data[size:]
    return found


def message(method, path, *lines, body=b''):
    """A request of tus. Its length is told where it has a body."""
    fields = ['Host: 127.0.0.1', 'Tus-Resumable: 1.0.0', *lines, *([f'Content-Length: {len(body)}'] if body else [])]
    return '\r\n'.join([f'{method} {path} HTTP/1.1', *fields]).encode('latin-1') + b'\r\n\r\n' + body


def patch(path, offset, body, *lines):
    return message('PATCH', path, f'Upload-Offset: {offset}', 'Content-Type: application/offset+octet-stream', *lines, body=body)


def ask(connect, request):
    """The one reply to a request, on a connection of its own."""
    with connect() as connection:
        connection.sendall(request)
        data = b''
        while not (found := replies_in(data, request.startswith(b'HEAD'))):
            piece = connection.recv(1 << 20)
            if not piece:
                raise ConnectionError(f'no reply to {request[:60]}')
            data += piece
        return found[0]


def all_replies(connect, data, silence=0.5):
    """The statuses of all replies to some bytes, until the other side closes or is silent."""
    with connect() as connection:
        got = b''
        connection.settimeout(silence)
        try:
            connection.sendall(data)
            while piece := connection.recv(1 << 20):
                got += piece
        except OSError:
            pass
        return [reply.status for reply in replies_in(got)]
