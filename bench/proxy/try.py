#!/usr/bin/env python3
"""Tries docs/nginx.conf before a server, and requests that one of the two might read in another way than the other.

    bench/proxy/try.py PROGRAM

takes a program that was built (`crates/tus_server/out/tus_server`), and wants nginx, haproxy and openssl (Debian's). It prints
a line for each check and a table of odd requests, which go through docs/scale.haproxy.cfg too. It fails where a check does, or
where one request became two at the server.
"""
import http.server
import re
import socket
import sys
import threading
import time

from parts import Nginx, Proxies, Recorder, Server, all_replies, ask, free_port, message, patch, replies_in

TUS_FIELDS = ['Location', 'Tus-Resumable', 'Tus-Version', 'Tus-Extension', 'Tus-Max-Size', 'Tus-Checksum-Algorithm', 'Upload-Offset',
              'Upload-Length', 'Upload-Defer-Length', 'Upload-Metadata', 'Upload-Concat', 'Upload-Expires']
FILE_FIELDS = ['Content-Disposition', 'Content-Range']
OTHER_ORIGIN = 'Origin: https://app.example'
failures = []


def check(what, holds, told=''):
    print(f"{'ok  ' if holds else 'FAIL'} {what}{': ' if told != '' else ''}{told}", flush=True)
    if not holds:
        failures.append(what)


def created(connect, length, *lines, path='/files/acme'):
    """The path of a new upload."""
    reply = ask(connect, message('POST', path, f'Upload-Length: {length}', *lines))
    assert reply.status == 201, (reply.status, reply.body)
    return reply.fields['location']


def offset(connect, path):
    return int(ask(connect, message('HEAD', path)).fields['upload-offset'])


def to(port):
    """How to connect to a port of this machine."""
    return lambda: socket.create_connection(('127.0.0.1', port), timeout=30)


def waited(what, wanted):
    """What a call gives in the end, which is waited for."""
    for _ in range(100):
        if (got := what()) == wanted:
            break
        time.sleep(0.05)
    return got


def transfers(nginx, recorder):
    body = bytes(range(256)) * 1024
    path = created(nginx.connect, len(body))
    statuses = [ask(nginx.connect, patch(path, at, body[at:at + 131072])).status for at in (0, 131072)]
    check('TLS: an upload is sent in two PATCHes, and read again', statuses == [204, 204] and ask(nginx.connect, message('GET', path)).body == body)

    path = created(nginx.connect, len(body))
    recorder.clear()
    with nginx.connect() as connection:
        connection.sendall(patch(path, 0, body)[:100000])
        # The head goes on too, so the half that was sent is there without its end.
        came = waited(lambda: len(recorder.sent()) > 90000, True)
        check('bodies go on as they come', came, f'{len(recorder.sent())} bytes of 100000 reached the server before the end of the body')
    head = patch(path, 0, body).index(b'\r\n\r\n') + 4
    check('what came before a break is kept', waited(lambda: offset(nginx.connect, path), 100000 - head) == 100000 - head,
          f'offset {offset(nginx.connect, path)}')

    recorder.clear()
    with nginx.connect() as connection:
        for _ in range(50):
            connection.sendall(message('HEAD', path))
            connection.recv(65536)
    check('connections to the server are kept', len(recorder.connections) == 1, f'50 HEADs over {len(recorder.connections)} connection')


def pages(nginx, recorder):
    path = created(nginx.connect, 5)
    recorder.clear()
    question = ['Access-Control-Request-Method: PATCH', 'Access-Control-Request-Headers: tus-resumable, upload-offset']
    reply = ask(nginx.connect, message('OPTIONS', path, OTHER_ORIGIN, *question))
    allowed = reply.fields.get('access-control-allow-headers', '').lower()
    check("CORS: a browser's question is answered by nginx", reply.status == 204 and not recorder.connections
          and reply.fields['access-control-allow-origin'] == 'https://app.example' and 'PATCH' in reply.fields['access-control-allow-methods']
          and all(name in allowed for name in ('tus-resumable', 'upload-offset', 'upload-checksum', 'upload-concat', 'upload-metadata')))
    stranger = ask(nginx.connect, message('OPTIONS', path, 'Origin: https://stranger.example', *question))
    check('CORS: a page of an origin that is not named gets no leave', 'access-control-allow-origin' not in stranger.fields
          and 'access-control-allow-origin' not in ask(nginx.connect, message('HEAD', path, 'Origin: https://stranger.example')).fields)
    reply = ask(nginx.connect, message('HEAD', path, OTHER_ORIGIN))
    exposed = [name.strip() for name in reply.fields['access-control-expose-headers'].split(',')]
    check("CORS: tus's fields and those of a file are exposed, in errors too", sorted(exposed) == sorted(TUS_FIELDS + FILE_FIELDS)
          and 'access-control-allow-origin' in ask(nginx.connect, message('HEAD', '/files/acme/999', OTHER_ORIGIN)).fields)
    reply = ask(nginx.connect, message('OPTIONS', '/files/acme', OTHER_ORIGIN))
    told = {name for name in map(str.lower, TUS_FIELDS) if name in reply.fields}
    check('another OPTIONS goes to the server', reply.status == 204 and {'tus-version', 'tus-extension'} <= told)
    check('a tenant may be named with a slash behind it', re.fullmatch(r'/files/acme/\d+', created(nginx.connect, 1, path='/files/acme/')) is not None)


def chunked(connect, pause):
    """What is answered to a chunked PATCH whose body comes so long after its head, and what the upload has then."""
    path = created(connect, 5)
    fields = ['Upload-Offset: 0', 'Content-Type: application/offset+octet-stream', 'Transfer-Encoding: chunked']
    with connect() as connection:
        pieces = [message('PATCH', path, *fields), b'5\r\nhello\r\n', b'0\r\n\r\n']
        for piece in pieces if pause else [b''.join(pieces)]:
            connection.sendall(piece)
            time.sleep(pause)
        status = replies_in(connection.recv(65536))[0].status
    return status, offset(connect, path)


def lengths(plain, buffered):
    check('a chunked body: 411', chunked(plain.connect, 0.3) == (411, 0))
    check('a chunked body that comes with its head: 204', chunked(plain.connect, 0) == (204, 5))
    check('a chunked body where nginx buffers it: 204', chunked(buffered.connect, 0.3) == (204, 5))


def overrides(nginx, restricted):
    path = created(nginx.connect, 5)
    as_delete = message('POST', path, 'X-HTTP-Method-Override: DELETE')
    check('restricted methods: GET and DELETE 403, HEAD 200, PATCH 204',
          [ask(restricted.connect, request).status for request in (message('GET', path), message('DELETE', path), message('HEAD', path),
                                                                   patch(path, 0, b'hello'))] == [403, 403, 200, 204])
    check('restricted methods: a POST that names DELETE is a POST', ask(restricted.connect, as_delete).status == 405
          and offset(nginx.connect, path) == 5)
    check('else it is a DELETE', ask(nginx.connect, as_delete).status == 204 and ask(nginx.connect, message('HEAD', path)).status == 410)


class Application(http.server.BaseHTTPRequestHandler):
    """Says who may reach which tenant: a client with `Bearer NAME` the tenant NAME."""
    asked = []

    def do_GET(self):
        who = self.headers.get('Authorization', '').removeprefix('Bearer ')
        self.asked.append((self.headers['X-Tenant'], self.headers['X-Method'], self.headers.get('X-HTTP-Method-Override')))
        self.send_response(401 if not who else 204 if who == self.headers['X-Tenant'] else 403)
        self.end_headers()

    def log_message(self, *words):
        pass


def tenants(nginx, recorder):
    acme, beta = 'Authorization: Bearer acme', 'Authorization: Bearer beta'
    recorder.clear()
    refused = [ask(nginx.connect, message('POST', '/files/acme', 'Upload-Length: 5', *lines)).status for lines in ([], [beta])]
    check('the application: 401 without a name, 403 for the tenant of another, and neither reaches the server',
          refused == [401, 403] and not recorder.connections)
    path = created(nginx.connect, 5, acme)
    reply = ask(nginx.connect, patch(path, 0, b'hello', acme))
    check('the application: 204 for its own', reply.status == 204 and Application.asked[-1] == ('acme', 'PATCH', None))
    check('the name does not reach the server', b'Bearer' not in recorder.sent() and b'PATCH' in recorder.sent())
    # Paths that nginx may read as beta's and the server as acme's, or the other way.
    number = path.rsplit('/', 1)[1]
    odd = [f'/files/beta/../acme/{number}', f'/files/acme/../beta/../acme/{number}', f'/files//acme/{number}', f'/files/./acme/{number}',
           f'/files/acm%65/{number}', f'/files/beta%2f..%2facme/{number}', f'/files/acme/{number}%00', f'/files/acme/{number}?tenant=beta',
           f'/files/acme/{number}/', f'/files/acme/{number}%0a', f'/files/acme\\{number}', f'http://beta/files/acme/{number}']
    statuses = [ask(nginx.connect, message('DELETE', target, beta)).status for target in odd]
    check('odd paths lead nobody to the tenant of another', all(400 <= status < 500 for status in statuses)
          and ask(nginx.connect, message('HEAD', path, acme)).status == 200, ' '.join(map(str, statuses)))
    reply = ask(nginx.connect, message('POST', path, acme, 'X-HTTP-Method-Override: DELETE'))
    check('the application is asked about the method that counts', reply.status == 405 and Application.asked[-1] == ('acme', 'POST', None))
    reply = ask(nginx.connect, message('OPTIONS', path, OTHER_ORIGIN, 'Access-Control-Request-Method: PATCH'))
    check("a browser's question needs no name", reply.status == 204 and reply.fields['access-control-allow-credentials'] == 'true')


def mounts(nginx):
    name = 'Authorization: Bearer acme'
    path = created(nginx.connect, 5, name, path='/uploads/acme')
    check('mount: Location names the path that the client sees', re.fullmatch(r'/uploads/acme/\d+', path) is not None, path)
    check('mount: /files/ stays as it is', created(nginx.connect, 5, name).startswith('/files/acme/'))
    check('mount: an upload is sent', ask(nginx.connect, patch(path, 0, b'hello', name)).status == 204)
    for tree in ('/files', '/uploads'):
        for count in (1, 4, 32):
            parts = [created(nginx.connect, 1, name, 'Upload-Concat: partial', path=f'{tree}/acme') for _ in range(count)]
            text = bytes(range(65, 65 + count))
            for part, byte in zip(parts, text):
                ask(nginx.connect, patch(part, 0, bytes([byte]), name))
            joined = []
            for named in (parts, [f'https://127.0.0.1:{nginx.port}{part}' for part in parts]):
                reply = ask(nginx.connect, message('POST', f'{tree}/acme', name, 'Upload-Concat: final;' + ' '.join(named)))
                joined.append(ask(nginx.connect, message('GET', reply.fields.get('location', '/files/acme/0'), name)).body)
            check(f'{count} parts in {tree} are joined, named by their paths and by their addresses', joined == [text] * 2)
            for part in parts:
                ask(nginx.connect, message('DELETE', part, name))


def limits(nginx, server_alone):
    path = created(server_alone, 1 << 20)
    held = []
    for _ in range(64):
        held.append(nginx.connect())
        held[-1].sendall(patch(path, 0, bytes(100))[:-1])
    time.sleep(1)
    status = ask(nginx.connect, message('HEAD', path)).status
    for connection in held:
        connection.close()
    check('the 65th connection of an address at a time: 503', status == 503)
    check('and 200 once the others are over', waited(lambda: ask(nginx.connect, message('HEAD', path)).status, 200) == 200)
    time.sleep(2.5)
    with nginx.connect() as connection:
        connection.sendall(message('HEAD', path) * 900 + message('HEAD', path, 'Connection: close'))
        data = b''
        while piece := connection.recv(1 << 20):
            data += piece
    statuses = [reply.status for reply in replies_in(data, bare=True)]
    check('too many requests of an address: 503 for some', statuses.count(200) >= 400 and statuses.count(503) > 0
          and len(statuses) == 901, f'{statuses.count(200)} of 901 were answered 200 and {statuses.count(503)} 503')


TYPE = 'Content-Type: application/offset+octet-stream'


def odd_requests(path, victim):
    """Odd requests, each with how many requests it is at most. The one that is hidden in a single one deletes the victim."""
    hidden = message('DELETE', victim)
    size, body, end = len(hidden), b'0\r\n\r\n', '\r\n\r\n'

    def head(*lines, method='PATCH', target=path, line_end='\r\n'):
        first = [f'{method} {target} HTTP/1.1', 'Host: 127.0.0.1', 'Tus-Resumable: 1.0.0', 'Upload-Offset: 0', TYPE, *lines]
        return (line_end.join(first) + 2 * line_end).encode('latin-1')

    yield 'Content-Length twice, the same', 1, head(f'Content-Length: {size}', f'Content-Length: {size}') + hidden
    yield 'Content-Length twice, 0 first', 1, head('Content-Length: 0', f'Content-Length: {size}') + hidden
    yield 'Content-Length twice, 0 last', 1, head(f'Content-Length: {size}', 'Content-Length: 0') + hidden
    for text in (f'{size}, {size}', f'+{size}', f'0x{size:x}', f'{size} 0', '-1', f'{size}\t', f'000{size}', '18446744073709551616'):
        yield f'Content-Length: {text!r}', 1, head(f'Content-Length: {text}') + hidden
    yield 'Content-Length, spelled with _', 1, head(f'Content-Length: {size}', 'Content_Length: 0') + hidden
    both = [f'Content-Length: {len(body) + size}', 'Transfer-Encoding: chunked']
    yield 'Transfer-Encoding with a Content-Length', 1, head(*both) + body + hidden
    yield 'Content-Length after the Transfer-Encoding', 1, head(*both[::-1]) + body + hidden
    yield 'Transfer-Encoding and Content-Length: 0', 1, head('Content-Length: 0', 'Transfer-Encoding: chunked') + body + hidden
    for text in ('xchunked', 'identity', 'gzip, chunked', 'chunked, identity', 'Chunked', '\x0bchunked', '"chunked"', ''):
        yield f'Transfer-Encoding: {text!r} with a length', 1, head(both[0], f'Transfer-Encoding: {text}') + body + hidden
    yield 'Transfer-Encoding twice', 1, head(both[0], both[1], 'Transfer-Encoding: identity') + body + hidden
    yield 'Transfer_Encoding with a length', 1, head(both[0], 'Transfer_Encoding: chunked') + body + hidden
    yield 'chunked, a chunk with an odd size line', 1, head(both[1]) + b'%x;a="\r\n' % size + hidden + b'\r\n0\r\n\r\n'
    yield 'chunked, a chunk size past 64 bits', 1, head(both[1]) + b'10000000000000000\r\n' + hidden
    yield 'chunked, line ends LF', 1, head(both[1]) + b'%x\n' % size + hidden + b'\n0\n\n'
    # Such a line belongs to the field before it, so here two requests are one way to read it, and 400 the other (obs-fold in RFC 9112).
    yield 'a folded line that looks like a length', 2, head('X-Odd: a', f' Content-Length: {size}') + hidden
    yield 'a folded Transfer-Encoding', 1, head(both[0], 'Transfer-Encoding:', ' chunked') + body + hidden
    yield 'a folded line with a tab', 1, head(both[0], 'X-Odd: a', '\tTransfer-Encoding: chunked') + body + hidden
    yield 'a folded first line', 1, head(both[0]).replace(b'\r\nHost', b'\r\n X: y\r\nHost') + body + hidden
    yield 'line ends LF', 1, head(f'Content-Length: {size}', line_end='\n') + hidden
    yield 'an LF that ends one line', 1, head(f'X-Odd: a\nContent-Length: {size}') + hidden
    yield 'LF LF within the head', 1, head(f'X-Odd: a\n\nContent-Length: {size}') + hidden
    yield 'a CR within a value', 1, head(f'X-Odd: a\rContent-Length: {size}') + hidden
    yield 'CR CR LF at an end', 1, head(f'Content-Length: {size}\r') + hidden
    yield 'a NUL within a value', 1, head(f'Content-Length: {size}', 'X-Odd: a\0b') + hidden
    yield 'a space before the colon of a length', 1, head(f'Content-Length : {size}') + hidden
    yield 'a space before the colon of a Transfer-Encoding', 1, head(both[0], 'Transfer-Encoding : chunked') + body + hidden
    yield 'a tab before the colon', 1, head(both[0], 'Transfer-Encoding\t: chunked') + body + hidden
    yield 'a line without a colon', 1, head(f'Content-Length: {size}', 'X-Odd') + hidden
    yield 'no Host', 1, head(f'Content-Length: {size}').replace(b'Host: 127.0.0.1\r\n', b'') + hidden
    yield 'Host twice', 1, head('Host: other', f'Content-Length: {size}') + hidden
    yield 'HTTP/1.0 that asks to be kept', 1, head('Connection: keep-alive', f'Content-Length: {size}').replace(b'/1.1', b'/1.0') + hidden
    yield 'HTTP/1.2', 1, head(f'Content-Length: {size}').replace(b'/1.1', b'/1.2') + hidden
    yield 'HTTP/0.9', 1, f'GET {path}\r\n\r\n'.encode() + hidden
    yield 'two spaces in the first line', 1, head(f'Content-Length: {size}').replace(b'PATCH ', b'PATCH  ') + hidden
    yield 'a target with a space', 1, head(f'Content-Length: {size}', target=f'{path} x') + hidden
    yield 'an encoded line end in the target', 1, head(f'Content-Length: {size}', target=f'{path}%0d%0aX: y') + hidden
    yield 'an absolute target of another host', 1, head(f'Content-Length: {size}', target=f'http://other{path}') + hidden
    for method in ('GET', 'HEAD', 'DELETE', 'OPTIONS', 'TRACE'):
        yield f'{method} with a body', 1, head(f'Content-Length: {size}', method=method, target='/files/acme/999') + hidden
    yield 'Expect with a body', 1, head('Expect: 100-continue', f'Content-Length: {size}') + hidden
    yield 'Connection names Content-Length', 1, head('Connection: Content-Length', f'Content-Length: {size}') + hidden
    yield "a browser's question with a body", 1, head('Access-Control-Request-Method: PATCH', f'Content-Length: {size}', method='OPTIONS') + hidden
    yield 'a path that nginx refuses, with a body', 1, head(f'Content-Length: {size}', target='/files/acme/x') + hidden
    yield 'a body above --max-size', 1, head('Content-Length: 200000') + (hidden * 2000)[:200000]
    yield 'a body for a lost upload', 1, head(f'Content-Length: {size}', target='/files/acme/999') + hidden
    yield 'a body without the version of tus', 1, head(f'Content-Length: {size}').replace(b'Tus-R', b'Not-R') + hidden
    yield 'a body that is a request', 1, head(f'Content-Length: {size}') + hidden
    yield 'a pipelined second request', 2, head('Content-Length: 5') + b'hello' + message('HEAD', victim).replace(b'HEAD', b'GET')
    yield 'a pipelined second request, after a refusal', 2, head('Content-Length: 5', target='/files/acme/999') + b'hello' + message('GET', victim)


def counts_settled(nginx, recorder, before):
    """How many requests nginx handed on since then, and how many the server answered, once both are at rest."""
    now = None
    for _ in range(40):
        time.sleep(0.05)
        last, now = now, (nginx.passed() - before, recorder.answers())
        if now == last and now[0] == now[1]:
            break
    return now


def smuggle(nginx, haproxy, recorder, alone):
    """Sends each odd request through nginx, through HAProxy and to the server alone. The victim has to live, the server gives no
    more replies than there are requests, and as many as nginx says it handed on."""
    print('\n| request | nginx answers | handed on | replies of the server | HAProxy answers | replies of the server | the server alone '
          'answers |\n|---|---|---|---|---|---|---|', flush=True)
    names = [name for name, _, _ in odd_requests('', '')]
    for place, name in enumerate(names):
        lives, cells, fits = [], [name], True
        for connect in (nginx.connect, haproxy, alone):
            path, victim = created(alone, 131072), created(alone, 0)
            _, most, data = list(odd_requests(path, victim))[place]
            recorder.clear()
            before = nginx.passed()
            cells.append(' '.join(map(str, all_replies(connect, data))) or 'none')
            if connect == nginx.connect:
                handed, answered = counts_settled(nginx, recorder, before)
                cells += [handed, answered]
                fits = handed == answered <= most
            elif connect == haproxy:
                cells.append(recorder.answers())
                fits = fits and recorder.answers() <= most
            lives.append(most == 2 or ask(alone, message('HEAD', victim)).status == 200)
            for upload in (path, victim):
                ask(alone, message('DELETE', upload))
        print('|', ' | '.join(map(str, cells)), '|', flush=True)
        if not all(lives) or not fits:
            check(f'{name}: one request stays one (the hidden one was not done: {lives})', False)
    print()


def main():
    server = Server(sys.argv[1], '--max-size', '16777216', '--blocks', '16384', 'acme:8192', 'beta:4096')
    small = Server(sys.argv[1], '--max-size', '131072', '--blocks', '16384', 'acme:8192')
    recorder, second = Recorder(server.port), Recorder(small.port)
    application = http.server.ThreadingHTTPServer(('127.0.0.1', 0), Application)
    threading.Thread(target=application.serve_forever, daemon=True).start()
    started = [
        Nginx(recorder.port), Nginx(recorder.port, changes=[('proxy_request_buffering off', 'proxy_request_buffering on')]),
        Nginx(recorder.port, ['methods']),
        Nginx(recorder.port, ['auth', 'mount'], [('127.0.0.1:9000', f'127.0.0.1:{application.server_port}')]),
        Nginx(second.port)]
    plain, buffered, restricted, asking, odd = started
    haproxy = Proxies([second.port] * 4)
    try:
        transfers(plain, recorder)
        pages(plain, recorder)
        lengths(plain, buffered)
        overrides(plain, restricted)
        tenants(asking, recorder)
        mounts(asking)
        smuggle(odd, to(haproxy.haproxy), second, to(small.port))
        limits(plain, to(server.port))
    finally:
        for proxy in (*started, haproxy):
            proxy.stop()
        server.stop()
        small.stop()
    print(f'{len(failures)} failed' if failures else 'all as expected')
    sys.exit(bool(failures))


main()
