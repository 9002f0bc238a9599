// The page: what is given, and the verdict on it.
import { bytesOfBase64, bytesOfHex, withoutBlanks } from '../src/bytes.js';
import { FormError, InvalidSignature, SlhDsaError } from '../src/errors.js';
import { readPublicKey, readSignature } from '../src/keys.js';
import { MessageVerifier } from '../src/verifier.js';

const WASM = '@WASM@';

// How much of a file is read at a time, and how much text or hexadecimal a small file has at most.
const READ_BYTES = 1 << 20;
const SMALL_BYTES = 1 << 18;

const byId = (id) => document.getElementById(id);
const places = [...document.querySelectorAll('.place')];
const given = { file: null, signature: null, key: null };

let module = null;
let run = 0;

function tell(kind, text, rows = []) {
    byId('verdict').className = kind;
    byId('verdict').textContent = text;
    byId('progress').hidden = true;
    byId('about').replaceChildren(...rows.flatMap(([name, value]) => {
        const [dt, dd] = [document.createElement('dt'), document.createElement('dd')];
        dt.textContent = name;
        dd.textContent = value;
        return [dt, dd];
    }));
}

function showPlaces() {
    for (const place of places) {
        const file = given[place.dataset.of];
        place.classList.toggle('full', file !== null);
        if (file !== null) {
            place.querySelector('.name').textContent = `${file.name}, ${file.size} bytes`;
        }
    }
}

// What is still wanted, in words.
function missing() {
    const names = [];
    if (given.file === null) names.push('the file');
    if (given.signature === null) names.push('its signature');
    if (byId('text').value.trim() === '') names.push('the public key');
    return names;
}

async function smallBytes(file, what) {
    if (file.size > SMALL_BYTES) throw new FormError(`too large for ${what}`);
    return new Uint8Array(await file.arrayBuffer());
}

function contextBytes() {
    const text = byId('context').value;
    if (!byId('hex').checked) return new TextEncoder().encode(text);
    const bytes = bytesOfHex(withoutBlanks(text));
    if (bytes === null) throw new FormError('the context is not hexadecimal');
    return bytes;
}

// The file's bytes into the verifier; false where something else was given meanwhile.
async function absorb(file, verifier, now) {
    for (let at = 0; at < file.size; at += READ_BYTES) {
        const piece = await file.slice(at, at + READ_BYTES).arrayBuffer();
        if (now !== run) return false;
        verifier.update(piece);
        byId('progress').hidden = file.size < 8 * READ_BYTES;
        byId('bar').value = Math.floor((100 * at) / file.size);
    }
    return true;
}

async function verdict(now) {
    const file = given.file;
    const { set, publicKey } = readPublicKey(byId('text').value);
    const [context, mode] = [contextBytes(), byId('mode').value];
    const signature = readSignature(await smallBytes(given.signature, 'a signature'), set);
    if (now !== run) return;
    const verifier = new MessageVerifier(module, set, publicKey, signature, { context, mode });
    if (!(await absorb(file, verifier, now))) return;
    const hex = Array.from(publicKey, (it) => it.toString(16).padStart(2, '0')).join('');
    const rows = [['file', `${file.name}, ${file.size} bytes`], ['set', set], ['key', hex]];
    try {
        verifier.finish();
        tell('yes', '✓ Accepted: the file was signed by this key.', rows);
    } catch (error) {
        if (!(error instanceof InvalidSignature)) throw error;
        tell('no', "✗ Invalid: the signature isn't one of this file by this key.", rows);
    }
}

// Looks at what is given, and tells the verdict.
async function update() {
    const now = ++run;
    showPlaces();
    const names = missing();
    if (names.length > 0) return tell('none', `Still wanted: ${names.join(', ')}.`);
    tell('none', 'Verifying ..');
    try {
        await verdict(now);
    } catch (error) {
        if (now !== run) return;
        const why = error instanceof SlhDsaError ? error.message
            : error instanceof DOMException ? `the file can't be read (${error.name})`
            : `this page failed (${error.message})`;
        tell('no', `✗ Refused: ${why}.`);
    }
}

// Takes a file for a place. A key's text is shown, to be read again from there.
async function put(of, file) {
    given[of] = file;
    if (of === 'key') {
        byId('text').value = '';
        try {
            byId('text').value = new TextDecoder().decode(await smallBytes(file, 'a key'));
        } catch (error) {
            run++;
            given.key = null;
            return tell('no', `✗ Refused: ${error.message}.`);
        }
    }
    return update();
}

// Where a dropped file goes: the place under it, or by its name.
function placeOf(file, place, count) {
    if (place && count === 1) return place.dataset.of;
    if (/\.sig$/i.test(file.name)) return 'signature';
    return /\.(pub|pem|key)$/i.test(file.name) ? 'key' : 'file';
}

function markPlaces(target) {
    for (const place of places) place.classList.toggle('over', place.contains(target));
}

function listen() {
    for (const place of places) {
        byId(place.dataset.of).addEventListener('change', ({ target }) => {
            if (target.files.length > 0) put(place.dataset.of, target.files[0]);
        });
    }
    byId('text').addEventListener('input', () => {
        given.key = null;
        byId('key').value = '';
        update();
    });
    for (const id of ['context', 'hex', 'mode']) byId(id).addEventListener('input', update);
    addEventListener('dragover', (event) => {
        event.preventDefault();
        markPlaces(event.target);
    });
    addEventListener('dragleave', () => markPlaces(null));
    addEventListener('drop', (event) => {
        event.preventDefault();
        markPlaces(null);
        const files = [...event.dataTransfer.files];
        const place = event.target.closest?.('.place');
        for (const file of files) put(placeOf(file, place, files.length), file);
    });
}

try {
    const bytes = bytesOfBase64(WASM);
    if (!WebAssembly.validate(bytes)) throw new Error('the browser is too old');
    module = new WebAssembly.Module(bytes);
    listen();
    document.body.dataset.ready = 'yes';
    update();
} catch (error) {
    document.body.dataset.ready = 'no';
    tell('no', `✗ This page can't verify here: ${error.message}.`);
}
