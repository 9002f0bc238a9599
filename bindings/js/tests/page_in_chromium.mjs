// page_in_chromium.mjs PAGE FOLDER: the page in a headless Chromium, from file://, with files chosen and
// dropped that `slh` has signed; FOLDER gets these, and pictures. CHROMIUM names another browser.
import assert from 'node:assert/strict';
import { execFileSync } from 'node:child_process';
import { once } from 'node:events';
import { readFileSync, writeFileSync } from 'node:fs';
import { createServer } from 'node:http';
import { join, resolve } from 'node:path';
import { fileURLToPath, pathToFileURL } from 'node:url';
import { Chromium } from './chromium.mjs';
import { bent, fileOfPackage, fileOfRepository, widthOf } from './support.mjs';

const [html, folder] = process.argv.slice(2, 4).map((it) => resolve(it));
const url = pathToFileURL(html).href;
const at = (name) => join(folder, name);
const slh = (...words) => execFileSync(process.env.SLH, words, { cwd: folder });
const SETS = fileOfRepository('examples/sets.txt').split('\n').filter((it) => it.startsWith('SLH-'))
    .map((it) => it.split(' ')[0]);
const FAST = 'SLH-DSA-SHA2-128f';
const LARGE = 300 * 1024 * 1024;

const browser = await Chromium.start(process.env.CHROMIUM ?? 'chromium');
const page = await browser.page();
let count = 0;

const verdict = () => page.value(`document.getElementById('verdict').textContent`);
const isSettled = `!document.getElementById('verdict').textContent.startsWith('Verifying')`;

// The verdict that is wanted, which has to come and to stay.
async function expect(what, wanted, seconds = 60) {
    const text = JSON.stringify(wanted);
    await page.until(`document.getElementById('verdict').textContent.includes(${text})`, seconds)
        .catch(async () => assert.fail(`${what}: ${await verdict()}, and not ${wanted}`));
    await page.until(isSettled);
    assert.ok((await verdict()).includes(wanted), what);
    count++;
}

// Types into a field as a person does: the field has the value, and is told.
const type = (id, value) => page.value(`(() => { const it = document.getElementById('${id}');
    it.value = ${JSON.stringify(value)}; it.dispatchEvent(new Event('input')); })()`);

async function picture(name) {
    const { data } = await page.call('Page.captureScreenshot', { format: 'png' });
    writeFileSync(at(name), Buffer.from(data, 'base64'));
}

const lineOf = (pem, set) => {
    const der = Buffer.from(pem.split('\n').slice(1, -2).join(''), 'base64');
    return `${set} ${der.subarray(-2 * widthOf(set)).toString('hex')}\n`;
};

function makeFiles() {
    writeFileSync(at('other.txt'), 'another file\n');
    for (const set of SETS) {
        slh('keygen', '--set', set, set);
        writeFileSync(at(`${set}.txt`), `A file that is signed in ${set}.\n`);
        slh('sign', '--key', `${set}.key`, `${set}.txt`);
        writeFileSync(at(`${set}.line.pub`), lineOf(readFileSync(at(`${set}.pub`), 'utf8'), set));
    }
    const signature = readFileSync(at(`${FAST}.txt.sig`));
    writeFileSync(at('bent.sig'), bent(signature, 12345));
    writeFileSync(at('cut.sig'), signature.subarray(0, -1));
    writeFileSync(at('hex.sig'), signature.toString('hex').replace(/(.{72})/g, '$1\n'));
    writeFileSync(at('ed25519.pub'), `-----BEGIN PUBLIC KEY-----
MCowBQYDK2VwAyEAGb9ECWmEzf6FQbrBZ9w7lshQhqowtrbLDFw4rXAxZuE=
-----END PUBLIC KEY-----
`);
    const key = ['sign', '--key', `${FAST}.key`];
    writeFileSync(at('empty.txt'), '');
    slh(...key, 'empty.txt');
    slh(...key, '--context', 'example.org', '--output', 'context.sig', `${FAST}.txt`);
    slh(...key, '--prehash', 'sha512', '--output', 'digest.sig', `${FAST}.txt`);
    writeFileSync(at('large.bin'), Buffer.alloc(LARGE, 'large '));
    slh(...key, 'large.bin');
}

async function eachSet() {
    for (const set of SETS) {
        await page.open(url);
        await expect(`${set}, nothing`, 'Still wanted: the file, its signature, the public key.');
        await page.choose('#file', [at(`${set}.txt`)]);
        await page.choose('#signature', [at(`${set}.txt.sig`)]);
        await expect(`${set}, no key`, 'Still wanted: the public key.');
        await page.choose('#key', [at(`${set}.pub`)]);
        await expect(`${set}, chosen`, '✓ Accepted');
        await page.choose('#file', [at('other.txt')]);
        await expect(`${set}, another file`, '✗ Invalid');
        await page.choose('#file', [at(`${set}.txt`)]);
        await expect(`${set}, the file again`, '✓ Accepted');
        await type('text', '');
        await expect(`${set}, no text`, 'Still wanted: the public key.');
        await type('text', readFileSync(at(`${set}.line.pub`), 'utf8'));
        await expect(`${set}, a line`, '✓ Accepted');
        const about = await page.value(`[...document.querySelectorAll('dd')].map((it) => it.textContent).join(' ')`);
        assert.ok(about.includes(`${set}.txt`) && about.includes(` ${set} `), about);
    }
}

async function dropped() {
    await page.open(url);
    const all = [`${FAST}.txt`, `${FAST}.txt.sig`, `${FAST}.pub`].map(at);
    await page.drop('h1', all);
    await expect('three files dropped', '✓ Accepted');
    await picture('accepted.png');
    const cases = [
        ['bent.sig', '✗ Invalid'], ['cut.sig', `✗ Refused: not a signature of ${FAST}, which has 17088 bytes.`],
        ['hex.sig', '✓ Accepted'], [`${FAST}.key`, '✗ Refused: this is a SECRET key'],
        [`${FAST}.pub`, '✓ Accepted'], ['ed25519.pub', '✗ Refused: a key of another algorithm'],
        [`${FAST}.line.pub`, '✓ Accepted'], ['SLH-DSA-SHA2-192f.pub', '✗ Refused: not a signature of SLH-DSA-SHA2-192f'],
        [`${FAST}.pub`, '✓ Accepted'], ['SLH-DSA-SHA2-128s.txt.sig', '✗ Refused: not a signature'],
    ];
    for (const [name, wanted] of cases) {
        await page.drop('h1', [at(name)]);
        await expect(`${name} dropped`, wanted);
        if (name === 'bent.sig') await picture('invalid.png');
    }
    await page.drop('label[data-of=signature]', [at('other.txt')]);
    await expect('a text where the signature belongs', '✗ Refused: not a signature');
    await page.drop('label[data-of=signature]', [at('large.bin')]);
    await expect('a large signature', '✗ Refused: too large for a signature.');
    await page.drop('label[data-of=key]', [at('large.bin')]);
    await expect('a large key', '✗ Refused: too large for a key.');
}

async function contexts() {
    await page.open(url);
    await page.drop('h1', [`${FAST}.txt`, 'context.sig', `${FAST}.pub`].map(at));
    await expect('without its context', '✗ Invalid');
    await type('context', 'example.org');
    await expect('with its context', '✓ Accepted');
    await page.value(`document.querySelector('summary').click()`);
    await page.value(`document.getElementById('hex').click()`);
    await expect('no hexadecimal', '✗ Refused: the context is not hexadecimal.');
    await type('context', Buffer.from('example.org').toString('hex'));
    await expect('its context in hexadecimal', '✓ Accepted');
    await type('context', '00'.repeat(256));
    await expect('a long context', '✗ Refused: the context has more than 255 bytes.');
    await type('context', '');
    await page.drop('h1', [at('digest.sig')]);
    await expect('a signature of a digest', '✗ Invalid');
    await type('mode', 'sha512');
    await expect('the same by its digest', '✓ Accepted');
}

async function sizes() {
    await page.open(url);
    await page.drop('h1', ['empty.txt', 'empty.txt.sig', `${FAST}.pub`].map(at));
    await expect('an empty file', '✓ Accepted');
    await page.value(`(() => { window.seen = new Set(); const bar = document.getElementById('bar');
        new MutationObserver(() => { if (!document.getElementById('progress').hidden) seen.add(bar.value); })
            .observe(bar, { attributes: true }); })()`);
    await page.drop('h1', ['large.bin', 'large.bin.sig'].map(at));
    const start = Date.now();
    await page.until(`document.getElementById('verdict').textContent.startsWith('Verifying')`);
    await expect('a file of 300 MB', '✓ Accepted', 300);
    console.log(`300 MB in ${((Date.now() - start) / 1000).toFixed(1)} s`);
    assert.ok((await page.value('seen.size')) > 20, 'no progress');
    assert.ok(await page.value(`document.getElementById('progress').hidden`));
    // another file, given while the large one is read, is the one that the verdict is on
    await page.drop('h1', ['large.bin', 'large.bin.sig'].map(at));
    await page.until(`!document.getElementById('progress').hidden`);
    await page.drop('h1', ['empty.txt', 'empty.txt.sig'].map(at));
    await expect('another file meanwhile', '✓ Accepted');
    assert.ok((await page.value(`document.querySelector('dd').textContent`)).startsWith('empty.txt'));
}

// What keyboards and screen readers meet: each field can be reached, and has a name.
async function access() {
    await page.open(url);
    const reached = [];
    for (let i = 0; i < 5; i++) {
        await page.press('Tab');
        reached.push(await page.value('document.activeElement.id || document.activeElement.tagName'));
    }
    assert.deepEqual(reached, ['file', 'signature', 'key', 'text', 'SUMMARY']);
    await page.press('Enter', '\r');
    await page.until(`document.querySelector('details').open`);
    const { nodes } = await page.call('Accessibility.getFullAXTree');
    const named = (role) => nodes.filter((it) => !it.ignored && it.role?.value === role).map((it) => it.name?.value);
    assert.deepEqual(named('button').map((it) => it.split(' ')[0]), ['File', 'Signature', 'Public']);
    assert.deepEqual(named('textbox').map((it) => it.split(' ')[0]), ['Public', 'Context']);
    assert.equal(named('combobox').length, 1);
    assert.equal(named('status').length, 1);
    count++;
}

// The verdict's contrast, light and dark (WCAG 2.1: 4.5 for text).
async function contrasts() {
    for (const scheme of ['light', 'dark']) {
        await page.call('Emulation.setEmulatedMedia', { features: [{ name: 'prefers-color-scheme', value: scheme }] });
        await page.open(url);
        const ratios = await page.value(`(() => {
            const light = (text) => { const [r, g, b] = text.match(/[0-9.]+/g).slice(0, 3).map((it) => it / 255)
                .map((it) => it <= 0.03928 ? it / 12.92 : ((it + 0.055) / 1.055) ** 2.4);
                return 0.2126 * r + 0.7152 * g + 0.0722 * b; };
            const it = document.getElementById('verdict');
            return ['yes', 'no'].map((kind) => { it.className = kind; const style = getComputedStyle(it);
                const [a, b] = [light(style.color), light(style.backgroundColor)];
                return (Math.max(a, b) + 0.05) / (Math.min(a, b) + 0.05); }); })()`);
        for (const ratio of ratios) assert.ok(ratio >= 4.5, `${scheme}: ${ratio}`);
        await page.drop('h1', [`${FAST}.txt`, `${FAST}.txt.sig`, `${FAST}.pub`].map(at));
        await expect(`the page in ${scheme}`, '✓ Accepted');
        await picture(`${scheme}.png`);
    }
}

// No connection: nothing but the page's own file is asked for, and its policy stops a script that tries.
async function connections() {
    const asked = browser.events.filter((it) => it.method === 'Network.requestWillBeSent')
        .map((it) => it.params.request.url).filter((it) => it !== url && it !== 'about:blank');
    assert.deepEqual(asked, []);
    const wrong = browser.events.filter((it) => ['Runtime.exceptionThrown', 'Log.entryAdded'].includes(it.method));
    assert.deepEqual(wrong.map((it) => it.params), []);
    assert.equal(await page.value(`fetch('https://example.org').then(() => 'sent', (it) => it.name)`), 'TypeError');
    assert.equal(await page.value(`new Promise((go) => { addEventListener('securitypolicyviolation',
        (it) => go(it.effectiveDirective)); document.body.append(Object.assign(new Image(), { src: 'x.png' })); })`),
    'img-src');
    count++;
}

// A page that has a key already, and the module for 64-bit memories, where the browser takes it.
async function withKey() {
    const module = fileOfPackage('slh_dsa_verify.wasm');
    const isTaken = await page.value(`WebAssembly.validate(
        Uint8Array.from(atob('${module.toString('base64')}'), (it) => it.charCodeAt(0)))`);
    if (!isTaken) return console.log('no 64-bit memories');
    const maker = fileURLToPath(new URL('../page/make_page.mjs', import.meta.url));
    const wasm = join(process.env.SLH_PACKAGE, 'slh_dsa_verify.wasm');
    execFileSync(process.execPath, [maker, wasm, at('own.html'), at(`${FAST}.pub`)]);
    await page.open(pathToFileURL(at('own.html')).href);
    await expect('a page with a key', 'Still wanted: the file, its signature.');
    await page.drop('h1', [`${FAST}.txt`, `${FAST}.txt.sig`].map(at));
    await expect('its file', '✓ Accepted');
    await page.drop('h1', [at('bent.sig')]);
    await expect('its file with a bent signature', '✗ Invalid');
}

// The package on a site, whose policy allows its own scripts alone.
const TYPES = { js: 'text/javascript', wasm: 'application/wasm', html: 'text/html' };
const SITE = "<!DOCTYPE html><title>A site</title><body data-ready='yes'>";

async function onSite() {
    const asked = [];
    const server = createServer(({ url: path }, answer) => {
        asked.push(path);
        if (path === '/favicon.ico') return answer.writeHead(404).end();
        if (path === '/verify.html') return answer.end(readFileSync(html));
        answer.setHeader('Content-Security-Policy', "default-src 'self'; script-src 'self' 'wasm-unsafe-eval'");
        answer.setHeader('Content-Type', TYPES[path.split('.').pop()] ?? TYPES.html);
        answer.end(path === '/' ? SITE : fileOfPackage(path.slice(1)));
    });
    server.listen(0, '127.0.0.1');
    await once(server, 'listening');
    const site = `http://127.0.0.1:${server.address().port}`;
    await page.open(`${site}/verify.html`);
    await page.drop('h1', [`${FAST}.txt`, `${FAST}.txt.sig`, `${FAST}.pub`].map(at));
    await expect('the page on a site', '✓ Accepted');
    assert.deepEqual(asked, ['/verify.html']);
    await page.open(`${site}/`);
    const [text, signature, pem] = ['txt', 'txt.sig', 'pub'].map((it) => readFileSync(at(`${FAST}.${it}`)));
    const answers = await page.value(`import('/index.js').then(async (slh) => {
        const { set, publicKey } = slh.readPublicKey(${JSON.stringify(pem.toString())});
        const [text, signature] = [Uint8Array.of(${text.join()}), Uint8Array.of(${signature.join()})];
        const answer = (message, context) => slh.verify(set, publicKey, message, signature, { context })
            .then(() => 'accepted', (error) => error.name);
        return [await answer(text), await answer(new Blob([text])), await answer(new Blob([text]).stream()),
            await answer(text.subarray(1)), await answer(text, new Uint8Array(256))];
    })`);
    assert.deepEqual(answers, ['accepted', 'accepted', 'accepted', 'InvalidSignature', 'ContextTooLongError']);
    count += answers.length;
    server.closeAllConnections();
    server.close();
}

try {
    makeFiles();
    const parts = [eachSet, dropped, contexts, sizes, access, contrasts, connections, withKey, onSite];
    for (const part of parts) await part();
    console.log(`${count} verdicts, in ${browser.version}`);
} finally {
    await browser.close();
}
