#!/usr/bin/env python3
"""What `serve` does beside nginx and beside the least server in C (least.c), on one machine, in one run.

    bench/serve/measure.py PROGRAM

needs nginx and gcc (Debian's), at least two processors, and 25,000 descriptors for a process (`ulimit -n`). It prints the table
of README.md: HEADs, PATCHes and connections a second, each beside what nginx does with a HEAD of a small file and a PUT of the
same bytes (to a file in memory), and, up to 64 connections, what the least server does with the same messages, as ratios of
rates and of requests for a processor second. Some are measured once more beside 10,000 connections that send a byte a second.
The servers have one half of the processors, and the clients the other.
"""
import multiprocessing
import os
import re
import shutil
import socket
import subprocess
import sys
import tempfile
import time

SECONDS = 2
MIB = 1048576
HERE = os.path.dirname(os.path.abspath(__file__))
SILENT = 8000
SLOW = 10000
NGINX = """worker_processes {workers};
worker_rlimit_nofile 30000;
daemon off;
pid {folder}/nginx.pid;
error_log {folder}/error.log;
events {{ worker_connections 20000; }}
http {{
    access_log off;
    keepalive_requests 1000000;
    client_body_temp_path {folder}/body;
    client_body_in_file_only off;
    client_max_body_size 16m;
    server {{
        listen 127.0.0.1:18081 reuseport backlog=4096;
        root {folder}/files;
        location / {{ dav_methods PUT DELETE; }}
    }}
}}
"""


class Server:
    """A server that was started, with its processes and where its small upload or file is."""

    def __init__(self, port, words, processors):
        self.port = port
        self.process = subprocess.Popen(words, stdout=subprocess.DEVNULL, preexec_fn=lambda: os.sched_setaffinity(0, processors))
        time.sleep(1)
        self.wait()
        children = subprocess.run(['pgrep', '-P', str(self.process.pid)], capture_output=True, text=True).stdout.split()
        self.pids = [self.process.pid, *map(int, children)]
        self.small = '/small'

    def wait(self):
        """Waits until it listens, ten seconds at most."""
        for _ in range(100):
            try:
                return socket.create_connection(('127.0.0.1', self.port)).close()
            except ConnectionRefusedError:
                time.sleep(0.1)

    def create(self):
        """Creates an upload of 100 bytes, which HEADs look at."""
        with socket.create_connection(('127.0.0.1', self.port)) as connection:
            made = exchange(connection, request('POST', '/files/beta', ['Upload-Length: 100']))
        self.small = re.search(rb'Location: (\S+)', made).group(1).decode()
        return self

    def processor_seconds(self):
        ticks = 0
        for pid in self.pids:
            with open(f'/proc/{pid}/stat') as stat:
                fields = stat.read().rsplit(')', 1)[1].split()
            ticks += int(fields[11]) + int(fields[12])
        return ticks / os.sysconf('SC_CLK_TCK')

    def resident(self):
        """How many bytes of memory its processes have."""
        pages = 0
        for pid in self.pids:
            with open(f'/proc/{pid}/statm') as statm:
                pages += int(statm.read().split()[1])
        return pages * os.sysconf('SC_PAGE_SIZE')

    def silent_connection(self):
        """How many bytes of memory a connection takes on which one HEAD was answered and no more comes."""
        before, data = self.resident(), request('HEAD', self.small, [])
        silent = []
        for _ in range(SILENT):
            silent.append(socket.create_connection(('127.0.0.1', self.port)))
            exchange(silent[-1], data)
        took = (self.resident() - before) / SILENT
        for connection in silent:
            connection.close()
        time.sleep(1)
        return took

    def measured(self, work):
        """What the work counts in a second, and for a processor second of the server."""
        before, start = self.processor_seconds(), time.monotonic()
        done = work()
        wall, used = time.monotonic() - start, self.processor_seconds() - before
        return done / wall, done / max(used, 0.01)


def exchange(connection, data):
    """Sends a request and reads its reply, whose body is passed over. Gives the reply's head."""
    connection.sendall(data)
    reply = b''
    while b'\r\n\r\n' not in reply:
        piece = connection.recv(65536)
        if not piece:
            raise ConnectionError('closed')
        reply += piece
    return reply


def request(method, path, fields, body=b''):
    lines = [f'{method} {path} HTTP/1.1', 'Host: x', 'Tus-Resumable: 1.0.0', *fields]
    if body or method in ('PUT', 'PATCH'):
        lines.append(f'Content-Length: {len(body)}')
    return '\r\n'.join(lines).encode() + b'\r\n\r\n' + body


def patches(port, end, number, note=lambda: None, size=16 * MIB):
    """Sends so many bytes again and again, each time to an upload of its own, which it then deletes, and notes each."""
    connection, body = socket.create_connection(('127.0.0.1', port)), bytes(size)
    while time.monotonic() < end:
        made = exchange(connection, request('POST', '/files/acme', [f'Upload-Length: {size}']))
        path = re.search(rb'Location: (\S+)', made).group(1).decode()
        fields = ['Upload-Offset: 0', 'Content-Type: application/offset+octet-stream']
        assert b' 204 ' in exchange(connection, request('PATCH', path, fields, body))
        note()
        exchange(connection, request('DELETE', path, []))


def puts(port, end, number):
    """Sends 16 MiB again and again to one file."""
    connection, data = socket.create_connection(('127.0.0.1', port)), request('PUT', f'/{number}.bin', [], bytes(16 * MIB))
    while time.monotonic() < end:
        exchange(connection, data)


def short(port, path, end, counts, number):
    """Makes a connection for each HEAD."""
    data, done = request('HEAD', path, ['Connection: close']), 0
    while time.monotonic() < end:
        with socket.create_connection(('127.0.0.1', port)) as connection:
            exchange(connection, data)
        done += 1
    counts[number] = done


def connections(server, count):
    """How many connections so many clients made for a HEAD each."""
    with multiprocessing.Manager() as manager:
        counts, end = manager.list([0] * count), time.monotonic() + SECONDS
        clients = [multiprocessing.Process(target=short, args=(server.port, server.small, end, counts, n)) for n in range(count)]
        for client in clients:
            client.start()
        for client in clients:
            client.join()
        return sum(counts)


def slow_heads(server, work):
    """The share of HEADs, in percent, that take more than a millisecond while four clients send 16 MiB at once."""
    end = time.monotonic() + SECONDS
    busy = [multiprocessing.Process(target=work, args=(server.port, end, n)) for n in range(4)]
    for client in busy:
        client.start()
    connection, data = socket.create_connection(('127.0.0.1', server.port)), request('HEAD', server.small, [])
    done = slow = 0
    while time.monotonic() < end and done < 4000:
        start = time.monotonic()
        exchange(connection, data)
        slow += time.monotonic() - start > 0.001
        done += 1
        time.sleep(0.001)
    for client in busy:
        client.join()
    return 100 * slow / done


def row(what, measured, scale=1, unit=''):
    """Prints what the servers did, the first of which is ours, and the ratios of ours to each of the others."""
    ours, *others = measured
    cells = [f'{m[0] * scale:,.0f}{unit}' if m else '' for m in measured]
    for other in others:
        cells += [f'{ours[0] / other[0]:.2f}', f'{ours[1] / other[1]:.2f}'] if other else ['', '']
    print(f"| {what} | {' | '.join(cells)} |", flush=True)


def built(folder, name):
    subprocess.run(['gcc', '-O2', '-pthread', '-o', f'{folder}/{name}', f'{HERE}/{name}.c'], check=True)
    return f'{folder}/{name}'


class Bench:
    """Three servers, and the programs that are their clients."""

    def __init__(self, folder, program):
        processors = sorted(os.sched_getaffinity(0))
        self.for_servers, self.for_clients = processors[:len(processors) // 2], processors[len(processors) // 2:]
        self.load, self.crowd, least = built(folder, 'load'), built(folder, 'crowd'), built(folder, 'least')
        workers = str(len(self.for_servers))
        open(f'{folder}/nginx.conf', 'w').write(NGINX.format(folder=folder, workers=workers))
        ours = [program, 'serve', '--port', '18080', '--workers', workers, '--forever', '--at-once', '12000', '--idle', '0',
                '--max-size', '16777216', '--blocks', '131073', 'acme:131072', 'beta:1']
        nginx = [shutil.which('nginx') or '/usr/sbin/nginx', '-p', folder, '-c', 'nginx.conf']
        self.ours = Server(18080, ours, self.for_servers)
        self.nginx = Server(18081, nginx, self.for_servers)
        self.least = Server(18082, [least, '18082', '64'], self.for_servers)
        self.servers = (self.ours, self.nginx, self.least)
        os.sched_setaffinity(0, self.for_clients)
        self.ours.create()
        self.least.create()

    def end(self):
        for server in self.servers:
            server.process.terminate()
            server.process.wait()

    def answered(self, program, server, kind, count, what):
        words = [program, kind, str(server.port), str(count), str(SECONDS), str(what)]
        return server.measured(lambda: int(subprocess.run(words, capture_output=True, check=True).stdout))

    def heads(self, server, count):
        if count <= 64:
            return self.answered(self.load, server, 'heads', count, server.small)
        return None if server is self.least else self.answered(self.crowd, server, 'heads', count, server.small)

    def patches(self, server, count, size):
        return self.answered(self.load, server, 'puts' if server is self.nginx else 'patches', count, size)

    def slow_beside_patches(self, server):
        return slow_heads(server, puts if server is self.nginx else patches)

    def beside_slow(self, server, work):
        """What the work measures, alone and then beside many connections that send a byte a second."""
        alone = work(server)
        words = [self.crowd, 'drips', str(server.port), str(SLOW), str(6 * SECONDS), server.small]
        with subprocess.Popen(words, stdout=subprocess.PIPE, text=True) as drips:
            assert drips.stdout.readline() == 'open\n'
            time.sleep(1)
            beside = work(server)
            assert drips.communicate()[0] == '0\n', 'a slow connection was closed'
        time.sleep(2)
        return alone, beside

    def rows(self):
        for count in (1, 4, 16, 64, 256, 4096):
            row(f'HEADs a second, {count} connections', [self.heads(s, count) for s in self.servers])
        for size, name in ((4096, '4 KiB'), (65536, '64 KiB'), (MIB, '1 MiB')):
            for count in (1, 4, 16, 64):
                measured = [self.patches(s, count, size) for s in self.servers]
                row(f'PATCHes of {name}, {count} connections', measured, size / 1e6, ' MB/s')
        row('a connection for each HEAD, 4 clients', [s.measured(lambda: connections(s, 4)) for s in self.servers])
        shares = [f'{self.slow_beside_patches(s):.1f} %' for s in self.servers]
        print(f"| HEADs slower than 1 ms while 4 clients send PATCHes of 16 MiB | {' | '.join(shares)} | | | | |")
        silent = [f'{s.silent_connection():,.0f} bytes' for s in (self.ours, self.nginx)]
        print(f"| memory of a silent connection, of {SILENT:,} | {' | '.join(silent)} | | | | | |", flush=True)

    def rows_beside_slow(self):
        for what, work, scale, unit in (('HEADs a second, 16 connections', lambda s: self.heads(s, 16), 1, ''),
                                        ('HEADs a second, 256 connections', lambda s: self.heads(s, 256), 1, ''),
                                        ('PATCHes of 64 KiB, 16 connections', lambda s: self.patches(s, 16, 65536), 0.065536, ' MB/s')):
            cells = []
            for alone, beside in (self.beside_slow(s, work) for s in (self.ours, self.nginx)):
                cells += [f'{alone[0] * scale:,.0f}{unit}', f'{beside[0] * scale:,.0f}{unit}', f'{beside[0] / alone[0]:.2f}']
            print(f"| {what} | {' | '.join(cells)} |", flush=True)


def measure(folder, program):
    bench = Bench(folder, program)
    try:
        print(f'{len(bench.for_servers)} processors for the servers, {len(bench.for_clients)} for the clients\n')
        print('| what | `serve` | nginx | least | to nginx: rate | for a processor second | to least: rate | for a processor second |')
        print('|---|---|---|---|---|---|---|---|')
        bench.rows()
        print(f'\n| beside {SLOW:,} connections that send a byte a second | `serve` alone | beside them | ratio | nginx alone | beside them | ratio |')
        print('|---|---|---|---|---|---|---|')
        bench.rows_beside_slow()
    finally:
        bench.end()


def main():
    folder = tempfile.mkdtemp(dir='/dev/shm')
    try:
        os.makedirs(f'{folder}/files')
        os.chmod(folder, 0o777)
        os.chmod(f'{folder}/files', 0o777)
        open(f'{folder}/files/small', 'w').write('x' * 100)
        measure(folder, sys.argv[1])
    finally:
        shutil.rmtree(folder, ignore_errors=True)


if __name__ == '__main__':
    main()
