// SLH-DSA (FIPS 205) over SHA-2: verifying, by the proved code as WebAssembly.
import { MessageVerifier } from './verifier.js';

export {
    ContextTooLongError, FormError, InvalidSignature, LengthError, MessageTooLongError, Refused,
    SlhDsaError, StateError, UnknownModeError, UnknownSetError,
} from './errors.js';
export { readPublicKey, readSignature } from './keys.js';
export { PARAMETER_SETS, publicKeyBytes, signatureBytes } from './sets.js';
export { MessageVerifier };

// The module as it was made, and the one for engines without 64-bit memories.
const MODULES = ['slh_dsa_verify.wasm', 'slh_dsa_verify32.wasm'];

// A file of the package: read from the disk, or fetched from where this file was.
async function bytesOfFile(name) {
    const url = new URL(name, import.meta.url);
    if (url.protocol === 'file:') {
        const { readFile } = await import('node:fs/promises');
        return readFile(url);
    }
    const answer = await fetch(url);
    if (!answer.ok) throw new Error(`${url}: ${answer.status}`);
    return answer.arrayBuffer();
}

// \0asm, version 1, and the section of a memory of 64-bit addresses without a limit.
const SMALLEST = Uint8Array.of(0, 0x61, 0x73, 0x6d, 1, 0, 0, 0, 5, 3, 1, 4, 0);

async function compiled() {
    const name = MODULES[WebAssembly.validate(SMALLEST) ? 0 : 1];
    return WebAssembly.compile(await bytesOfFile(name));
}

let own = null;

/**
 * The compiled module: the package's own, which is read once, or the bytes of one of its two files,
 * where a bundler has them elsewhere.
 */
export async function load(bytes) {
    if (bytes !== undefined) return WebAssembly.compile(bytes);
    own ??= compiled();
    try {
        return await own;
    } catch (error) {
        own = null;
        throw error;
    }
}

// The pieces of a stream without an asynchronous iterator, as Safari has them.
async function* piecesOfReader(reader) {
    try {
        for (;;) {
            const { done, value } = await reader.read();
            if (done) return;
            yield value;
        }
    } finally {
        await reader.cancel().catch(() => {});
    }
}

// A message as an iterable of pieces.
function piecesOf(message) {
    if (ArrayBuffer.isView(message) || message instanceof ArrayBuffer) return [message];
    if (typeof Blob !== 'undefined' && message instanceof Blob) return piecesOf(message.stream());
    if (message?.[Symbol.asyncIterator]) return message;
    if (typeof message?.getReader === 'function') return piecesOfReader(message.getReader());
    throw new TypeError('message: bytes, a Blob or a stream of bytes is wanted');
}

/** A verifier for a message that comes in pieces. */
export async function verifier(set, publicKey, signature, options) {
    return new MessageVerifier(await load(), set, publicKey, signature, options);
}

/**
 * Verifies a signature of a message: bytes, a Blob, or a stream or an asynchronous iterable of
 * bytes, which is read to its end. Answers nothing where the signature is accepted, and is rejected
 * with InvalidSignature where it isn't.
 */
export async function verify(set, publicKey, message, signature, options) {
    const begun = await verifier(set, publicKey, signature, options);
    for await (const piece of piecesOf(message)) begun.update(piece);
    begun.finish();
}
