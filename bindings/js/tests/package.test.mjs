// The package under Node: known answers, messages in pieces, and errors by name.
import assert from 'node:assert/strict';
import { Readable } from 'node:stream';
import { test } from 'node:test';
import {
    bent, bytesOf, fileOfPackage, fileOfRepository, hexOf, knownAnswers, replies, slh, textBytes,
} from './support.mjs';

const answers = knownAnswers();
const fast = answers.find(({ set, mode }) => set.endsWith('128f') && mode === 'pure');
const withContext = answers.find(({ set, mode }) => set.endsWith('128f') && mode === 'sha256');
const invalid = { name: 'InvalidSignature', status: 1 };

// The two modules, where this engine takes them.
const modules = [];
for (const name of ['slh_dsa_verify.wasm', 'slh_dsa_verify32.wasm']) {
    let bytes = null;
    try {
        bytes = fileOfPackage(name);
    } catch (error) {
        assert.equal(error.code, 'ENOENT');
    }
    if (bytes !== null && WebAssembly.validate(bytes)) modules.push([name, await slh.load(bytes)]);
}

const call = ({ set, publicKey, message, signature, context, mode }, other = {}) => slh.verify(
    other.set ?? set, other.publicKey ?? publicKey, other.message ?? message,
    other.signature ?? signature, { context, mode, ...other.options });

test('there is a module, and it wants nothing of its host', () => {
    console.log(`modules: ${modules.map(([name]) => name).join(' ')}`);
    assert.ok(modules.length > 0);
    for (const [, module] of modules) assert.deepEqual(WebAssembly.Module.imports(module), []);
});

test('known answers of six sets in three modes, by each module', () => {
    assert.equal(answers.length, 18);
    for (const [, module] of modules) {
        for (const { set, mode, publicKey, context, message, signature } of answers) {
            const verifier = (bytes) => new slh.MessageVerifier(module, set, publicKey, bytes, { context, mode });
            assert.equal(verifier(signature).update(message).finish(), undefined);
            const last = signature.length - 1;
            for (const at of [0, last >> 1, last]) {
                assert.throws(() => verifier(bent(signature, at)).update(message).finish(), invalid);
            }
        }
    }
});

test('another message, context, mode, key or set is invalid', async () => {
    const others = [
        { message: textBytes('hello') }, { message: new Uint8Array(0) },
        { options: { context: textBytes('x') } }, { options: { mode: 'sha512' } },
        { publicKey: bent(fast.publicKey, 0) }, { publicKey: bent(fast.publicKey, 31) },
    ];
    for (const other of others) await assert.rejects(call(fast, other), invalid);
    await assert.rejects(call(withContext, { options: { context: undefined } }), invalid);
    await call(withContext);
    await call(fast, { options: { context: undefined, mode: undefined } });
});

test('a message of any form, cut anywhere, is the message', async () => {
    const { message } = fast;
    const asPieces = async function* (...pieces) {
        yield* pieces;
    };
    const empty = new Uint8Array(0);
    for (let at = 0; at <= message.length; at++) {
        await call(fast, { message: asPieces(message.subarray(0, at), empty, message.subarray(at)) });
    }
    const reader = () => new ReadableStream({
        start(controller) {
            for (const byte of message) controller.enqueue(Uint8Array.of(byte));
            controller.close();
        },
    });
    const forms = [message.buffer.slice(0), new DataView(message.buffer.slice(0)), new Blob([message]),
        reader(), { getReader: () => reader().getReader() }, Readable.from([Buffer.from(message)])];
    for (const form of forms) await call(fast, { message: form });
});

test('a long message in pieces is the message', () => {
    // 65536 bytes are written into the module's memory at a time
    const { set, publicKey } = fast;
    const message = new Uint8Array(200000).map((_, i) => i % 251);
    const seeds = ['01', '02', '03'].map((it) => it.repeat(16));
    const [, key] = replies([`${set} keygen ${seeds.join(' ')}`])[0].split(' ');
    const [, made] = replies([`${set} sign ${key} - ${hexOf(message)} none`])[0].split(' ');
    for (const length of [1, 4096, 65535, 65536, 65537, 200000]) {
        for (const [, module] of modules) {
            const begin = () => new slh.MessageVerifier(module, set, publicKey, bytesOf(made));
            const [verifier, other] = [begin(), begin()];
            for (let at = 0; at < message.length; at += length) {
                verifier.update(message.subarray(at, at + length));
                other.update(message.subarray(at, at + length));
            }
            verifier.finish();
            assert.throws(() => other.update(Uint8Array.of(0)).finish(), invalid);
        }
    }
});

test('refusals by name, in the order of the library', async () => {
    const refused = async (name, other) => {
        await assert.rejects(call(fast, other), (error) => {
            assert.equal(error.name, name);
            assert.ok(error instanceof slh.Refused && error instanceof slh.SlhDsaError);
            assert.ok(error instanceof slh[name]);
            return true;
        });
    };
    const short = fast.publicKey.subarray(1);
    const long = new Uint8Array(256);
    await refused('UnknownSetError', { set: 'SLH-DSA-SHAKE-128f', options: { mode: 'md5' } });
    await refused('UnknownSetError', { set: 'constructor' });
    await refused('UnknownModeError', { publicKey: short, options: { mode: 'md5' } });
    await refused('LengthError', { publicKey: short, options: { context: long } });
    await refused('LengthError', { signature: fast.signature.subarray(1), options: { context: long } });
    await refused('ContextTooLongError', { options: { context: long } });
    await refused('LengthError', { signature: new Uint8Array(0) });
    await refused('LengthError', { set: 'SLH-DSA-SHA2-128s' });
    await assert.rejects(call(fast, { options: { context: new Uint8Array(255) } }), invalid);
});

test('the statuses are those of slh_dsa.h', () => {
    const header = fileOfRepository('crates/slh_dsa_c/include/slh_dsa.h');
    const names = { InvalidSignature: 'INVALID', LengthError: 'LENGTH', ContextTooLongError: 'CONTEXT_TOO_LONG',
        MessageTooLongError: 'MESSAGE_TOO_LONG', UnknownSetError: 'UNKNOWN_SET',
        UnknownModeError: 'UNKNOWN_MODE', StateError: 'STATE' };
    for (const [name, status] of Object.entries(names)) {
        const [, number] = new RegExp(`SLH_DSA_${status} = ([0-9]+)`).exec(header);
        assert.equal(new slh[name]().status, Number(number));
    }
    const [, words] = /typedef struct slh_dsa_verifier \{\s*uint64_t words\[([0-9]+)\]/.exec(header);
    assert.equal(words, '93');
});

test('what is no bytes is a TypeError', async () => {
    for (const message of ['Hello', [72], null, undefined, 5, {}]) {
        await assert.rejects(slh.verify(fast.set, fast.publicKey, message, fast.signature), TypeError);
    }
    await assert.rejects(call(fast, { publicKey: 'aa' }), TypeError);
    await assert.rejects(call(fast, { signature: [] }), TypeError);
    await assert.rejects(call(fast, { options: { context: 'text' } }), TypeError);
    await assert.rejects(call(fast, { message: Readable.from(['Hello']) }), TypeError);
});

test('a verifier is used once, and a stream that fails fails the call', async () => {
    const verifier = await slh.verifier(fast.set, fast.publicKey, fast.signature);
    verifier.update(fast.message).finish();
    for (const again of [() => verifier.finish(), () => verifier.update(fast.message)]) {
        assert.throws(again, { name: 'StateError', status: 13 });
    }
    const failing = (async function* () {
        yield fast.message;
        throw new Error('the disk is gone');
    })();
    await assert.rejects(call(fast, { message: failing }), /the disk is gone/);
    // what isn't read to its end is closed
    const closed = [];
    const iterator = (async function* () {
        try {
            yield 'no bytes';
        } finally {
            closed.push('iterator');
        }
    })();
    const reader = { read: async () => ({ value: 'no bytes' }), cancel: async () => closed.push('reader') };
    for (const message of [iterator, { getReader: () => reader }]) {
        await assert.rejects(call(fast, { message }), TypeError);
    }
    assert.deepEqual(closed, ['iterator', 'reader']);
});

test('the arguments may change once a verifier has them', async () => {
    const [publicKey, signature] = [fast.publicKey.slice(), fast.signature.slice()];
    const verifier = await slh.verifier(fast.set, publicKey, signature);
    publicKey.fill(0);
    signature.fill(0);
    verifier.update(fast.message).finish();
});

test('keys as OpenSSL writes them, and as a line', () => {
    const blocks = fileOfRepository('examples/data/openssl_keys.pem').split(/(?=-----BEGIN )/);
    assert.equal(blocks.length, 12);
    const secret = { name: 'FormError', message: /SECRET/ };
    for (const [i, set] of slh.PARAMETER_SETS.entries()) {
        const [signing, verifying] = blocks.slice(2 * i, 2 * i + 2);
        // the last half of the signing key is the public key
        const der = Buffer.from(signing.split('\n').slice(1, -2).join(''), 'base64');
        const publicKey = new Uint8Array(der.subarray(-slh.publicKeyBytes(set)));
        assert.deepEqual(slh.readPublicKey(`text before\n${verifying}and behind`), { set, publicKey });
        assert.deepEqual(slh.readPublicKey(verifying.replaceAll('\n', '\r\n')), { set, publicKey });
        const line = `${set} ${Buffer.from(publicKey).toString('hex')}`;
        assert.deepEqual(slh.readPublicKey(`${line}\n`), { set, publicKey });
        assert.throws(() => slh.readPublicKey(signing), secret);
        const key = Buffer.from(der.subarray(-2 * publicKey.length)).toString('hex');
        assert.throws(() => slh.readPublicKey(`${set} ${key}`), secret);
        assert.throws(() => slh.readPublicKey(line.slice(0, -2)), { name: 'FormError' });
    }
});

test('texts that are no key, each with its reason', () => {
    const [pem] = fileOfRepository('examples/data/openssl_keys.pem').split(/(?=-----BEGIN )/).slice(1);
    const ed25519 = '-----BEGIN PUBLIC KEY-----\nMCowBQYDK2VwAyEAGb9ECWmEzf6FQbrBZ9w7lshQhqowtrbLDFw4rXAxZuE=\n-----END PUBLIC KEY-----\n';
    const cases = [
        ['', /neither a key/], ['SLH-DSA-SHA2-128f', /neither/], ['SLH-DSA-SHA2-128f 00 00', /neither/],
        ['slh-dsa-sha2-128f 00', /neither/], ['SLH-DSA-SHA2-128f 0g', /hexadecimal/],
        ['constructor 00', /neither/],
        [pem + pem, /more than one/], [pem.slice(0, -8), /end line/], [pem.replace('MDAw', 'MDA*'), /Base64/],
        [pem.replaceAll('PUBLIC KEY', 'CERTIFICATE'), /something else/], [ed25519, /another algorithm/],
        [pem.replace('MDAw', 'MDEw'), /not the bytes/],
    ];
    for (const [text, message] of cases) {
        assert.throws(() => slh.readPublicKey(text), { name: 'FormError', message, status: null });
    }
    assert.throws(() => slh.readPublicKey(new Uint8Array(1)), TypeError);
});

test('signatures as bytes and in hexadecimal', () => {
    const { set, signature } = fast;
    const digits = Buffer.from(signature).toString('hex').replace(/(.{72})/g, '$1\r\n');
    assert.equal(slh.readSignature(signature, set), signature);
    assert.deepEqual(slh.readSignature(textBytes(digits), set), signature);
    for (const other of [signature.subarray(1), textBytes(digits.slice(1)), new Uint8Array(0)]) {
        assert.throws(() => slh.readSignature(other, set), { name: 'FormError', message: /17088 bytes/ });
    }
});

test('the types name what the package exports', () => {
    const declared = [...fileOfPackage('index.d.ts').toString().matchAll(/^export (?:const|function|class) (\w+)/gm)];
    assert.deepEqual(declared.map(([, name]) => name).sort(), Object.keys(slh).sort());
    assert.deepEqual(slh.PARAMETER_SETS.map((set) => `${set} ${slh.publicKeyBytes(set) / 2} ${slh.signatureBytes(set)}`),
        fileOfRepository('examples/sets.txt').split('\n').filter((it) => it.startsWith('SLH-')));
});
