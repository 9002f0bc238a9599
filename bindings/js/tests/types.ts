// What the types take, and below what they don't: looked at by `tsc`, and never run.
import { InvalidSignature, MessageVerifier, load, readPublicKey, verifier, verify } from './index.js';

const { set, publicKey } = readPublicKey('');
const bytes: Promise<void> = verify(set, publicKey, publicKey, new ArrayBuffer(1));
const options = { mode: 'sha256', context: new Uint8Array(2) } as const;
verify('SLH-DSA-SHA2-128f', publicKey, new Blob([]), publicKey, options);
verify(set, publicKey, new Blob([]).stream(), publicKey, {});
async function* pieces() {
    yield new Uint8Array(1);
}
verify(set, publicKey, pieces(), publicKey);
verifier(set, publicKey, publicKey).then((it) => it.update(publicKey).finish());
load().then((module) => new MessageVerifier(module, set, publicKey, publicKey, options));
const status: number | null = new InvalidSignature().status;
export { bytes, status };

// @ts-expect-error another set
verify('SLH-DSA-SHAKE-128f', publicKey, publicKey, publicKey);
// @ts-expect-error a text
verify(set, publicKey, 'text', publicKey);
// @ts-expect-error another mode
verify(set, publicKey, publicKey, publicKey, { mode: 'md5' });
// @ts-expect-error nothing is answered
verify(set, publicKey, publicKey, publicKey).then((it) => it.valueOf());
