// make_page.mjs FILE.wasm PAGE [KEY.pub]: puts the page, its style, its script and the module into one
// file, whose policy names the script and the style by their digests and allows nothing else. With
// a key, the page has its text.
import { createHash } from 'node:crypto';
import { readFileSync, writeFileSync } from 'node:fs';

const [wasm, page, key] = process.argv.slice(2);
const read = (name) => readFileSync(new URL(name, import.meta.url), 'utf8');
const put = (text, name, value) => text.split(`@${name}@`).join(value);

// The modules as one script: each before those that import it.
const SOURCES = ['../src/errors.js', '../src/sets.js', '../src/bytes.js', '../src/keys.js',
    '../src/verifier.js', 'page.js'];
const joined = SOURCES.map(read).join('\n')
    .replace(/^import [^;]*;\n/gm, '')
    .replace(/^export /gm, '');
const script = put(`'use strict';\n${joined}`, 'WASM', readFileSync(wasm).toString('base64'));
const style = read('style.css');

const sum = (text) => `'sha256-${createHash('sha256').update(text).digest('base64')}'`;
const policy = [
    "default-src 'none'",
    `script-src ${sum(script)} 'wasm-unsafe-eval'`,
    `style-src ${sum(style)}`,
    "base-uri 'none'",
    "form-action 'none'",
].join('; ');

const text = key === undefined ? '' : readFileSync(key, 'utf8').replace(/[<&]/g, '');
const parts = { POLICY: policy, STYLE: style, KEY: text, SCRIPT: script };
const made = Object.entries(parts).reduce((it, [name, value]) => put(it, name, value), read('verify.in.html'));
writeFileSync(page, made);
