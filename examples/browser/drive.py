#!/usr/bin/python3
"""Drives the page in a browser: it sends a file in one part, in parts and in one PATCH, is paused, is loaded anew, and goes on.

    examples/browser/drive.py PROGRAM [PICTURE]

takes a program that was built (`crates/tus_server/out/tus_server`), and wants nginx, openssl, chromium, chromium-driver and
python3-selenium (Debian's). nginx stands before the server with docs/nginx.conf, once with the page from nginx itself, and
once with the page from another origin, so that the browser asks for leave. After each run the bytes that the server has are
compared with those of the file. It writes a picture of the page to a file that is named.
"""
import functools
import http.server
import json
import os
import shutil
import ssl
import sys
import tempfile
import threading
import time
import urllib.request

from selenium import webdriver
from selenium.webdriver.chrome.service import Service
from selenium.webdriver.common.by import By

HERE = os.path.dirname(os.path.abspath(__file__))
sys.path.insert(0, f'{HERE}/../../bench/proxy')
from parts import Nginx, Server, ask, message, wait_for  # noqa: E402

SIZE = 6_000_001
SLOW = 1_500_000  # bytes a second, so that there is time for a pause
LARGE = 100 << 20


class Files(http.server.SimpleHTTPRequestHandler):
    """Serves the page from another origin, and says nothing of it."""

    def log_message(self, *words):
        pass


class Page:
    """The page in a browser, at an address."""

    def __init__(self, driver, address, file):
        self.driver, self.file = driver, file
        driver.get(address)

    def __getitem__(self, name):
        return self.driver.find_element(By.ID, name)

    def told(self):
        return self['told'].text

    def choose(self, parts):
        self['parts'].clear()
        self['parts'].send_keys(str(parts))
        self['file'].send_keys(self.file)

    def press(self, text):
        assert self['go'].text == text, (self['go'].text, text, self.told())
        self['go'].click()

    def wait(self, what, holds):
        """Waits until something holds of the page."""
        end = time.monotonic() + 60
        while not holds():
            assert time.monotonic() < end, f'{what}: the page says {self.told()!r}'
            time.sleep(0.05)

    def wait_for_share(self, share):
        self.wait(f'{share} of the file', lambda: float(self['progress'].get_attribute('value')) >= share)

    def wait_for_end(self):
        self.wait('the end', lambda: self.told() == 'All bytes are there.')
        return self['done'].get_attribute('href')

    def stored(self):
        """The addresses of the parts that the browser keeps."""
        kept = self.driver.execute_script('return Object.entries(localStorage).filter(([key]) => key.startsWith("tus "))')
        return [url for _, urls in kept for url in json.loads(urls)]


def browser():
    options = webdriver.ChromeOptions()
    for word in ('--headless', '--no-sandbox', '--disable-dev-shm-usage', '--window-size=640,560', '--hide-scrollbars'):
        options.add_argument(word)
    options.accept_insecure_certs = True
    return webdriver.Chrome(service=Service(shutil.which('chromedriver')), options=options)


def speed(driver, upload):
    """Lets the browser send so many bytes a second; -1 is no bound."""
    driver.execute_cdp_cmd('Network.enable', {})
    driver.execute_cdp_cmd('Network.emulateNetworkConditions',
                           {'offline': False, 'latency': 0, 'downloadThroughput': -1, 'uploadThroughput': upload})


def offsets(nginx, urls):
    return [int(ask(nginx.connect, message('HEAD', '/' + url.split('/', 3)[3])).fields['upload-offset']) for url in urls if url]


def compare(url, data, what):
    with urllib.request.urlopen(url, context=ssl._create_unverified_context()) as reply:
        got = reply.read()
    assert got == data, f'{what}: {len(got)} bytes, which are not those of the file'
    print(f'ok   {what}: {len(got)} bytes at {url.split("/", 3)[3]}', flush=True)


def drive(driver, nginx, address, file, data, origin, picture):
    speed(driver, -1)
    page = Page(driver, address, file)
    page.choose(1)
    page.press('Upload')
    compare(page.wait_for_end(), data, f'{origin}, one part')

    for parts, reloads in ((1, False), (3, False), (3, True)):
        page = Page(driver, address, file)
        speed(driver, SLOW)
        page.choose(parts)
        page.press('Upload')
        page.wait_for_share(0.3)
        if picture and parts == 3:
            driver.save_screenshot(picture)
        if not reloads:
            page.press('Pause')
            page.wait('the pause', lambda: page.told() == 'Paused.')
        urls = page.stored()
        if reloads:
            page = Page(driver, address, file)
            page.choose(1)
            assert page.told() == 'A part of it was sent before.', page.told()
        time.sleep(0.5)
        before = offsets(nginx, urls)
        assert len(before) == parts and 0 < sum(before) < SIZE, before
        time.sleep(1)
        assert offsets(nginx, urls) == before, 'bytes came during the pause'
        speed(driver, -1)
        page.press('Go on')
        url = page.wait_for_end()
        assert parts > 1 or url == urls[0], 'it began anew'
        compare(url, data, f'{origin}, {parts} part{"s" * (parts > 1)}, {"loaded anew" if reloads else "paused"} at {sum(before)} bytes')
        assert page.stored() == [], 'something is kept of what is done'


def drive_large(driver, nginx, address, file, data):
    """One PATCH of the whole file, without a checksum, and another of what was missing after a pause."""
    page = Page(driver, address, file)
    speed(driver, LARGE // 4)
    page['checked'].click()
    page.choose(1)
    page.press('Upload')
    time.sleep(2)
    page.press('Pause')
    page.wait('the pause', lambda: page.told() == 'Paused.')
    urls = page.stored()
    before = offsets(nginx, urls)
    assert 0 < before[0] < LARGE, before
    speed(driver, -1)
    page.press('Go on')
    assert page.wait_for_end() == urls[0], 'it began anew'
    compare(urls[0], data, f'one PATCH, paused at {before[0]} bytes, and another')


def main():
    program, picture = sys.argv[1], os.path.abspath(sys.argv[2]) if len(sys.argv) > 2 else None
    folder, data = tempfile.mkdtemp(), os.urandom(SIZE)
    file = f'{folder}/holiday pictures.bin'
    open(file, 'wb').write(data)
    large = f'{folder}/film.bin'
    open(large, 'wb').write(os.urandom(LARGE))
    server = Server(program, '--pieces', '262144', '--max-size', str(LARGE), '--blocks', '65536', 'acme:65536')
    elsewhere = http.server.ThreadingHTTPServer(('127.0.0.1', 0), functools.partial(Files, directory=f'{folder}/page'))
    threading.Thread(target=elsewhere.serve_forever, daemon=True).start()
    other = f'http://127.0.0.1:{elsewhere.server_port}'
    nginx = Nginx(server.port, changes=[('http://127.0.0.1:8000', other)])
    shutil.copytree(HERE, f'{nginx.folder}/page')
    shutil.copytree(HERE, f'{folder}/page')
    own = f'https://127.0.0.1:{nginx.port}'
    page = open(f'{HERE}/index.html').read().replace('"/files/acme"', f'"{own}/files/acme"')
    open(f'{folder}/page/index.html', 'w').write(page)
    driver = browser()
    try:
        wait_for(elsewhere.server_port)
        drive(driver, nginx, f'{own}/', file, data, 'same origin', picture)
        drive(driver, nginx, f'{other}/', file, data, 'another origin', None)
        drive_large(driver, nginx, f'{own}/', large, open(large, 'rb').read())
    finally:
        driver.quit()
        nginx.stop()
        server.stop()
        shutil.rmtree(folder)


main()
