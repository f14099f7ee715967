#!/usr/bin/env python3
"""Tenants that are shared out over several servers get the same replies as from one server that holds all, and at which rate.

    bench/scale/try.py PROGRAM [REQUESTS]

takes a program that was built (`crates/tus_server/out/tus_server`), and wants nginx, haproxy and gcc (Debian's). The servers
stand behind docs/scale.nginx.conf, and then behind docs/scale.haproxy.cfg. A random client of each tenant, whose seed is the
tenant's number, sends so many requests (2,000 unless said). All bytes that it gets from one, two and four servers of two tenants each have
to be those that it gets from one server of eight; the clock stands still, so the dates are the same too. Then a tenant is moved,
and rates are measured.
"""
import base64
import collections
import concurrent.futures
import hashlib
import os
import random
import re
import socket
import subprocess
import sys
import time

HERE = os.path.dirname(os.path.abspath(__file__))
sys.path.insert(0, f'{HERE}/../proxy')
from parts import UPSTREAMS, Proxies, Server, ask, free_port, message, patch  # noqa: E402

NAMED = [['acme', 'beta'], ['gamma', 'delta']]
SECONDS = 3


def through(port, request):
    """The reply to a request through a proxy."""
    return ask(lambda: socket.create_connection(('127.0.0.1', port), timeout=30), request)


def told(port, tenant):
    """Which server holds a tenant, by the proxy that is asked: for nginx its address, for HAProxy its name."""
    return through(port, message('GET', f'/files/{tenant}')).fields['x-server']


class Client:
    """A random client of a tenant, and all bytes that it got. What it sends next depends on its seed and on what it got."""

    def __init__(self, port, tenant, seed, requests):
        self.port, self.tenant, self.requests = port, tenant, requests
        self.random = random.Random(seed)
        self.connection, self.got = None, []
        self.offsets = {}

    def send(self, request):
        """Gives the status and the fields of the reply, and keeps its bytes."""
        if self.connection is None:
            self.connection = socket.create_connection(('127.0.0.1', self.port), timeout=60)
        self.connection.sendall(request)
        data = b''
        while b'\r\n\r\n' not in data:
            data += self.piece()
        head = data[:data.index(b'\r\n\r\n')]
        length = re.search(rb'(?i)\r\ncontent-length: *(\d+)', head)
        size = 0 if request.startswith(b'HEAD') or not length else int(length.group(1))
        while len(data) < len(head) + 4 + size:
            data += self.piece()
        self.got.append(data)
        if re.search(rb'(?i)\r\nconnection: *close', head):
            self.connection.close()
            self.connection = None
        fields = dict(re.findall(r'\r\n([^:]+): *([^\r]*)', head.decode('latin-1').lower()))
        return int(head.split()[1]), fields

    def piece(self):
        piece = self.connection.recv(1 << 20)
        if not piece:
            raise ConnectionError(f'{self.tenant}: closed after {len(self.got)} replies')
        return piece

    def create(self):
        lines, body, dice = [], b'', self.random.random
        length = self.random.choice([0, 1, 4095, 4096, 4097, self.random.randrange(100000), 1 << 40])
        lines.append(self.random.choice(['Upload-Defer-Length: 1', 'Upload-Length: x', '']) if dice() < 0.1 else f'Upload-Length: {length}')
        if dice() < 0.4:
            lines.append('Upload-Concat: partial')
        if dice() < 0.3:
            lines.append('Upload-Metadata: filename ' + base64.b64encode(self.random.randbytes(9)).decode())
        if dice() < 0.2:
            body = self.random.randbytes(min(length, self.random.randrange(5000)))
            lines.append('Content-Type: application/offset+octet-stream')
        self.made(self.send(message('POST', f'/files/{self.tenant}', *filter(None, lines), body=body)))

    def made(self, reply):
        status, fields = reply
        if status == 201:
            self.offsets[fields['location']] = int(fields.get('upload-offset', 0))

    def patch(self, path):
        body = self.random.randbytes(self.random.choice([0, 1, 4096, self.random.randrange(60000)]))
        lines, at, dice = [], self.offsets[path], self.random.random()
        if dice < 0.2:
            digest = hashlib.sha1(body if dice < 0.15 else body + b'x').digest()
            lines.append('Upload-Checksum: sha1 ' + base64.b64encode(digest).decode())
        elif dice < 0.25:
            lines.append('Upload-Checksum: md5 AAAA')
        request = patch(path, at + (dice > 0.95), body, *lines)
        if 0.9 < dice < 0.93:
            request = request.replace(b'offset+octet', b'octet')
        if 0.93 < dice < 0.95:
            request = request.replace(b'Tus-Resumable: 1', b'Tus-Resumable: 2')
        status, fields = self.send(request)
        if status == 204:
            self.offsets[path] = int(fields['upload-offset'])

    def join(self, paths):
        parts = self.random.choices(paths, k=self.random.randrange(1, 4))
        self.made(self.send(message('POST', f'/files/{self.tenant}', 'Upload-Concat: final;' + ' '.join(parts))))

    def odd(self, path):
        self.send(self.random.choice([
            message('OPTIONS', f'/files/{self.tenant}'), message('PUT', path), message('HEAD', f'/files/{self.tenant}/99999'),
            message('POST', path, 'X-HTTP-Method-Override: HEAD'), message('GET', f'/files/{self.tenant}'),
            message('POST', f'/files/{self.tenant}', 'Upload-Concat: final;/files/other/1')]))

    def step(self):
        paths, what = list(self.offsets), self.random.random()
        if not paths or what < 0.2:
            return self.create()
        path = self.random.choice(paths)
        if what < 0.55:
            return self.patch(path)
        if what < 0.65:
            return self.join(paths)
        if what < 0.8:
            return self.send(message('HEAD', path))
        if what < 0.88:
            return self.send(message('GET', path))
        if what < 0.92:
            return self.odd(path)
        self.send(message('DELETE', path))
        # Some that were ended are asked for again.
        if self.random.random() < 0.8:
            del self.offsets[path]

    def run(self):
        while len(self.got) < self.requests:
            self.step()
        if self.connection:
            self.connection.close()
        return self.got


def talks(port, tenants, requests):
    """The bytes that a client of each tenant gets, all clients at the same time."""
    with concurrent.futures.ThreadPoolExecutor(len(tenants)) as threads:
        return dict(zip(tenants, threads.map(lambda seed: Client(port, tenants[seed], seed, requests).run(), range(len(tenants)))))


def start(program, port, tenants, quota=256, words=()):
    return Server(program, '--port', str(port), '--moment', '1000', *words, *(f'{tenant}:{quota}' for tenant in tenants))


def shares(kind):
    """Proxies, and the two tenants of each of four servers: those that are named, and of many names two for each of the others."""
    upstreams = [free_port() for _ in UPSTREAMS]
    proxies, found = Proxies(upstreams), collections.defaultdict(list)
    # HAProxy tries again and again where no server is, so there is one of no use while it is asked.
    asked = [start(sys.argv[1], port, ['none']) for port in upstreams[2:]]
    for name in (f'tenant-{number}' for number in range(1, 100)):
        found[told(proxies.front[8091 if kind == 'nginx' else 8093], name)].append(name)
    for server in asked:
        server.stop()
    third, fourth = [f'127.0.0.1:{port}' for port in upstreams[2:]] if kind == 'nginx' else ['three', 'four']
    return upstreams, proxies, [*NAMED, found[third][:2], found[fourth][:2]]


def equal(program, requests, kind):
    """Holds what each tenant gets from 1, 2 and 4 servers to what it gets from one that holds all."""
    upstreams, proxies, tenants = shares(kind)
    everyone = [tenant for share in tenants for tenant in share]
    alone = free_port()
    one = Proxies([alone] * 4)
    server = start(program, alone, everyone)
    wanted = talks(getattr(one, kind), everyone, requests)
    server.stop()
    one.stop()
    statuses = collections.Counter(reply.split(b' ', 2)[1].decode() for replies in wanted.values() for reply in replies)
    print(f'{kind}, one server of eight tenants: {sum(statuses.values())} replies,',
          ', '.join(f'{count} of {status}' for status, count in sorted(statuses.items())), flush=True)
    same = True
    for count in (1, 2, 4):
        servers = [start(program, upstreams[n], tenants[n]) for n in range(count)]
        got = talks(getattr(proxies, kind), [tenant for share in tenants[:count] for tenant in share], requests)
        for server in servers:
            server.stop()
        other = [tenant for tenant in got if got[tenant] != wanted[tenant]]
        same = same and not other
        print(f"{'FAIL' if other else 'ok  '} {kind}, {count} servers: {sum(map(len, got.values()))} replies, "
              f'{sum(len(r) for replies in got.values() for r in replies)} bytes, other than expected for {other or "no tenant"}', flush=True)
    proxies.stop()
    return same


def moved(program):
    """Moves the tenant beta to a server of its own, once its uploads have ended."""
    upstreams, new = [free_port() for _ in UPSTREAMS], free_port()
    proxies, servers = Proxies(upstreams), [start(program, port, tenants) for port, tenants in zip(upstreams, NAMED)]
    servers.append(start(program, new, ['beta']))

    def status(request):
        return through(proxies.nginx, request).status

    creation = message('POST', '/files/beta', 'Upload-Length: 5')
    path = through(proxies.nginx, creation).fields['location']
    proxies.change('# /files/beta 1;', '/files/beta 1;')
    done = [status(request) for request in (creation, patch(path, 0, b'hello'), message('GET', path), message('DELETE', path))]
    proxies.change('    upstream one {', f'    upstream five {{ server 127.0.0.1:{new} max_fails=0; }}\n    upstream one {{')
    proxies.change('beta one;', 'beta five;')
    proxies.change('/files/beta 1;', '# /files/beta 1;')
    done += [status(creation), told(proxies.front[8091], 'beta'), told(proxies.front[8091], 'acme')]
    for server in servers:
        server.stop()
    proxies.stop()
    holds = done == [503, 204, 200, 204, 201, f'127.0.0.1:{new}', f'127.0.0.1:{upstreams[0]}']
    print(f"{'ok  ' if holds else 'FAIL'} a tenant is moved: its next creation is refused, its upload ends, and then {done[4]}", flush=True)
    return holds


def loaders(folder, tenants):
    """The load of bench/serve, once for each tenant, with its name."""
    text, built = open(f'{HERE}/../serve/load.c').read(), {}
    for tenant in tenants:
        open(f'{folder}/{tenant}.c', 'w').write(text.replace('/files/acme', f'/files/{tenant}'))
        subprocess.run(['gcc', '-O2', '-pthread', '-o', f'{folder}/{tenant}', f'{folder}/{tenant}.c'], check=True)
        built[tenant] = f'{folder}/{tenant}'
    return built


def rate(port, built, tenants, kind):
    """What 16 connections, shared out over the tenants, get done in a second."""
    paths = {}
    for tenant in tenants:
        paths[tenant] = through(port, message('POST', f'/files/{tenant}', 'Upload-Length: 100')).fields['location']
    loads = [subprocess.Popen([built[tenant], kind, str(port), str(16 // len(tenants)), str(SECONDS), paths[tenant] if kind == 'heads' else '65536'],
                              stdout=subprocess.PIPE, text=True) for tenant in tenants]
    done = sum(int(load.communicate()[0]) for load in loads)
    return done / SECONDS


def rates(program):
    upstreams, proxies, tenants = shares('nginx')
    everyone = [tenant for share in tenants for tenant in share]
    built = loaders(proxies.folder, everyone)
    # nginx closes a client's connection after 1,000 requests unless it is told to keep it; load.c wants some 4,000.
    proxies.change('access_log off;', 'access_log off; keepalive_requests 1000000;')
    print('\n| servers | tenants | HEADs a second | PATCHes of 64 KiB |\n|---|---|---|---|')

    def row(what, port, shared, servers):
        heads, patches = rate(port, built, shared, 'heads'), rate(port, built, shared, 'patches')
        print(f'| {what} | {len(shared)} | {heads:,.0f} | {patches * 65536 / 1e6:,.0f} MB/s |', flush=True)
        for server in servers:
            server.stop()

    def some(count):
        return [start(program, upstreams[n], tenants[n], 8192, ['--max-size', '16777216', '--blocks', '65536']) for n in range(count)]

    row('1, with nothing before it', upstreams[0], tenants[0], some(1))
    for count in (1, 2, 4):
        row(f'{count} behind nginx', proxies.nginx, [tenant for share in tenants[:count] for tenant in share], some(count))
    proxies.stop()


def main():
    program, requests = sys.argv[1], int(sys.argv[2]) if len(sys.argv) > 2 else 2000
    same = [equal(program, requests, 'nginx'), equal(program, requests, 'haproxy'), moved(program)]
    rates(program)
    sys.exit(not all(same))


main()
