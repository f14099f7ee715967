// Sends a file to a tenant of tus-server, in parts at the same time, and goes on after a pause, a break or a reload.
// index.html says to which tenant, and at which server where that is another one than the page's own.
'use strict';

const CHUNK = 262144; // bytes of a PATCH with a checksum
const TRIES = 5; // without any progress
const endpoint = new URL(document.documentElement.dataset.endpoint, location);
const element = id => document.getElementById(id);

// Sends a request of tus, and gives its reply. Where that tells no success, the server names the reason in one word.
async function ask(method, url, fields, signal, body) {
    const reply = await fetch(url, { method, headers: { 'Tus-Resumable': '1.0.0', ...fields }, signal, body });
    if (reply.ok) return reply;
    throw Object.assign(new Error(`${reply.status} ${(await reply.text()).trim()}`), { status: reply.status });
}

const base64 = bytes => btoa(String.fromCharCode(...bytes));
const digest = async bytes => base64(new Uint8Array(await crypto.subtle.digest('SHA-1', bytes)));
const pause = milliseconds => new Promise(done => setTimeout(done, milliseconds));

// A file on its way: its parts, each with the bytes from `start` to `end`, the address of its upload, and how much was sent.
class Transfer {
    constructor(file, count, checked) {
        this.file = file;
        this.checked = checked;
        this.key = `tus ${endpoint} ${file.name} ${file.size} ${file.lastModified}`;
        this.metadata = `filename ${base64(new TextEncoder().encode(file.name))}`;
        // What an earlier page left in the browser's storage: the addresses of the parts.
        const urls = JSON.parse(localStorage.getItem(this.key)) ?? Array(count).fill(null);
        const cut = n => Math.floor(file.size * n / urls.length);
        this.parts = urls.map((url, n) => ({ url, start: cut(n), end: cut(n + 1), sent: 0 }));
    }

    // Sends what is missing, until all was sent or `stopping` is aborted. Gives the address of the whole upload.
    async run() {
        this.stopping = new AbortController();
        try {
            await Promise.all(this.parts.map(part => this.sendPart(part)));
            const url = this.parts.length === 1 ? this.parts[0].url : await this.join();
            localStorage.removeItem(this.key);
            return url;
        } finally {
            this.stopping.abort();
        }
    }

    // Sends a part, and tries again where that may help: after a break, a fault of the server, or another offset.
    async sendPart(part) {
        for (let tries = 0, before = 0; ; tries++) {
            try {
                return await this.sendRest(part);
            } catch (error) {
                const helps = error instanceof TypeError || error.status >= 500 || [409, 429, 460].includes(error.status);
                if (part.sent > before) tries = 0;
                if (this.stopping.signal.aborted || !helps || tries >= TRIES) throw error;
                before = part.sent;
                await pause(250 * 2 ** tries);
            }
        }
    }

    async sendRest(part) {
        const signal = this.stopping.signal;
        if (!part.url || !await this.find(part)) await this.create(part);
        while (part.start + part.sent < part.end) {
            const from = part.start + part.sent;
            const rest = this.file.slice(from, this.checked ? Math.min(from + CHUNK, part.end) : part.end);
            const bytes = this.checked ? await rest.arrayBuffer() : rest;
            const fields = { 'Content-Type': 'application/offset+octet-stream', 'Upload-Offset': part.sent };
            if (this.checked) fields['Upload-Checksum'] = `sha1 ${await digest(bytes)}`;
            const reply = await ask('PATCH', part.url, fields, signal, bytes);
            part.sent = Number(reply.headers.get('Upload-Offset'));
            this.tell();
        }
    }

    // Asks how much of a part is there. False where its upload is gone, or another one has its path since the server's start.
    async find(part) {
        try {
            const { headers } = await ask('HEAD', part.url, {}, this.stopping.signal);
            if (Number(headers.get('Upload-Length')) !== part.end - part.start || headers.get('Upload-Metadata') !== this.metadata) return false;
            part.sent = Number(headers.get('Upload-Offset'));
            this.tell();
            return true;
        } catch (error) {
            if (error.status === 404 || error.status === 410) return false;
            throw error;
        }
    }

    async create(part) {
        const fields = { 'Upload-Length': part.end - part.start, 'Upload-Metadata': this.metadata };
        if (this.parts.length > 1) fields['Upload-Concat'] = 'partial';
        const reply = await ask('POST', endpoint, fields, this.stopping.signal);
        part.url = new URL(reply.headers.get('Location'), endpoint).href;
        part.sent = 0;
        localStorage.setItem(this.key, JSON.stringify(this.parts.map(({ url }) => url)));
    }

    // Makes the whole of the parts, which are then no longer needed: their bytes are the whole's too.
    async join() {
        const paths = this.parts.map(({ url }) => new URL(url).pathname);
        const fields = { 'Upload-Concat': `final;${paths.join(' ')}`, 'Upload-Metadata': this.metadata };
        const reply = await ask('POST', endpoint, fields, this.stopping.signal);
        await Promise.allSettled(this.parts.map(({ url }) => ask('DELETE', url, {})));
        return new URL(reply.headers.get('Location'), endpoint).href;
    }

    tell() {
        const sent = this.parts.reduce((sum, part) => sum + part.sent, 0);
        element('progress').value = sent / (this.file.size || 1);
        element('told').value = `${sent} of ${this.file.size} bytes`;
    }
}

let transfer = null; // of the file that is chosen
let running = false;

async function go() {
    if (running) return transfer.stopping.abort();
    element('file').disabled = running = true;
    element('go').textContent = 'Pause';
    try {
        const url = await transfer.run();
        Object.assign(element('done'), { href: url, hidden: false });
        element('told').value = 'All bytes are there.';
        element('go').disabled = true;
    } catch (error) {
        element('told').value = error.name === 'AbortError' ? 'Paused.' : `It stopped: ${error.message}`;
    }
    element('file').disabled = running = false;
    element('go').textContent = 'Go on';
}

element('file').addEventListener('change', ({ target }) => {
    transfer = new Transfer(target.files[0], Number(element('parts').value), element('checked').checked);
    const known = transfer.parts.some(({ url }) => url);
    Object.assign(element('go'), { disabled: false, textContent: known ? 'Go on' : 'Upload' });
    element('done').hidden = true;
    element('told').value = known ? 'A part of it was sent before.' : 'Ready.';
});
element('go').addEventListener('click', go);
