// The calls of the module, on its memory.
import { bytesOf } from './bytes.js';
import { StateError, errorOf } from './errors.js';
import { numberOfMode, numberOfSet } from './sets.js';

const MEMORY_PAGE = 65536;
// The words of slh_dsa_verifier, and how much of a message stands in the memory at a time.
const STATE_BYTES = 93 * 8;
const PIECE_BYTES = 65536;

// A memory with 64-bit addresses grows by a BigInt, and one with 32-bit addresses by a Number.
function grow(memory, pages) {
    try {
        memory.grow(BigInt(pages));
    } catch (error) {
        if (!(error instanceof TypeError)) throw error;
        memory.grow(pages);
    }
}

// An instance of the module, whose own memory ends where the room for arguments begins.
class Calls {
    constructor(module, room) {
        this.exports = new WebAssembly.Instance(module, {}).exports;
        this.end = this.exports.memory.buffer.byteLength;
        grow(this.exports.memory, Math.ceil(room / MEMORY_PAGE));
    }

    // Room for so many bytes, by 16: an address.
    room(length) {
        const at = this.end;
        this.end += 16 * Math.ceil((length + 1) / 16);
        return at;
    }

    write(at, bytes) {
        new Uint8Array(this.exports.memory.buffer, at, bytes.length).set(bytes);
    }

    // Bytes in room of their own: address and length, as a slice is passed.
    put(bytes) {
        const at = this.room(bytes.length);
        this.write(at, bytes);
        return [BigInt(at), BigInt(bytes.length)];
    }
}

function want(status) {
    if (status !== 0) throw errorOf(status);
}

/** A signature of a message that comes in pieces. Nothing is verified before `finish` returns. */
export class MessageVerifier {
    #calls;
    #state;
    #piece;
    #signature;

    constructor(module, set, publicKey, signature, options = {}) {
        const { context = new Uint8Array(0), mode = 'pure' } = options;
        const parts = [
            bytesOf(publicKey, 'publicKey'), bytesOf(context, 'context'),
            bytesOf(signature, 'signature'),
        ];
        const room = parts.reduce((sum, it) => sum + it.length + 16, STATE_BYTES + PIECE_BYTES + 64);
        const calls = new Calls(module, room);
        this.#state = BigInt(calls.room(STATE_BYTES));
        this.#piece = calls.room(PIECE_BYTES);
        const slices = parts.map((it) => calls.put(it));
        this.#signature = slices[2];
        want(calls.exports.slh_dsa_sha2_verify_begin(this.#state, numberOfSet(set),
            numberOfMode(mode), ...slices.flat()));
        this.#calls = calls;
    }

    /** Takes the next bytes of the message. */
    update(piece) {
        const bytes = bytesOf(piece, 'a piece of the message');
        const calls = this.#take();
        for (let at = 0; at < bytes.length; at += PIECE_BYTES) {
            const part = bytes.subarray(at, at + PIECE_BYTES);
            calls.write(this.#piece, part);
            want(calls.exports.slh_dsa_sha2_verify_update(this.#state, BigInt(this.#piece),
                BigInt(part.length)));
        }
        this.#calls = calls;
        return this;
    }

    /** Returns nothing where the signature is accepted, and throws InvalidSignature where it isn't. */
    finish() {
        const calls = this.#take();
        want(calls.exports.slh_dsa_sha2_verify_finish(this.#state, ...this.#signature));
    }

    // The instance, which a call that fails doesn't give back: the verifier is used up then.
    #take() {
        const calls = this.#calls;
        if (calls === null) throw new StateError();
        this.#calls = null;
        return calls;
    }
}
