// compare_with_program.mjs COUNT: random signatures, many of them bent, cut or of another call, and the
// replies of the program of lines to the same.
import assert from 'node:assert/strict';
import { randomBytes, randomInt } from 'node:crypto';
import { bytesOf, command, hexOf, replies, slh, widthOf } from './support.mjs';

const NAMES = { InvalidSignature: 'error invalid', LengthError: 'error length', ContextTooLongError: 'error context' };
const SETS = ['SLH-DSA-SHA2-128f', 'SLH-DSA-SHA2-192f', 'SLH-DSA-SHA2-256f'];
const MODES = ['pure', 'sha256', 'sha512'];
const one = (list) => list[randomInt(list.length)];

// Some bytes with one bit changed, one byte less or more, or as they are.
function disturbed(bytes, often) {
    if (bytes.length === 0 || randomInt(often) > 0) return bytes;
    const how = randomInt(4);
    if (how === 0) return bytes.subarray(1);
    if (how === 1) return Buffer.concat([bytes, randomBytes(1)]);
    const other = Buffer.from(bytes);
    other[randomInt(other.length)] ^= 1 << randomInt(8);
    return other;
}

async function answer({ set, mode, publicKey, context, message, signature }) {
    try {
        await slh.verify(set, publicKey, message, signature, { context, mode });
        return 'accepted';
    } catch (error) {
        return NAMES[error.name] ?? error.message;
    }
}

const counts = {};
for (let i = 0; i < Number(process.argv[2]); i++) {
    const [set, mode] = [one(SETS), one(MODES)];
    const seeds = [0, 1, 2].map(() => hexOf(randomBytes(widthOf(set))));
    const [, key, vk] = replies([`${set} keygen ${seeds.join(' ')}`])[0].split(' ');
    const context = randomBytes(one([0, 0, 1, 8, 255]));
    const message = randomBytes(one([0, 1, 55, 64, 111, 1000, 70000]));
    const line = [set, command('sign', mode), key, hexOf(context), hexOf(message), 'none'].join(' ');
    const [, made] = replies([line])[0].split(' ');
    const call = {
        set: randomInt(20) === 0 ? one(SETS) : set,
        mode: randomInt(10) === 0 ? one(MODES) : mode,
        publicKey: disturbed(bytesOf(vk), 10),
        context: randomInt(12) === 0 ? randomBytes(one([2, 256, 300])) : context,
        message: disturbed(message, 10),
        signature: disturbed(bytesOf(made), 4),
    };
    const wanted = replies([[call.set, command('verify', call.mode), hexOf(call.publicKey),
        hexOf(call.context), hexOf(call.message), hexOf(call.signature)].join(' ')])[0];
    assert.equal(await answer(call), wanted, JSON.stringify({ ...call, signature: hexOf(call.signature) }));
    counts[wanted] = (counts[wanted] ?? 0) + 1;
}
console.log(Object.entries(counts).map(([reply, count]) => `${count} ${reply}`).sort().join(', '));
