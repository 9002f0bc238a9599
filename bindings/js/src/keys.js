// Public keys and signatures as files have them. Nothing of this is proved.
import { bytesOfBase64, bytesOfHex, withoutBlanks } from './bytes.js';
import { FormError } from './errors.js';
import { PARAMETER_SETS, publicKeyBytes, signatureBytes } from './sets.js';

// SEQUENCE { OBJECT IDENTIFIER 2.16.840.1.101.3.4.3.x } but for its last byte x, which is 19 and the
// number of a set (RFC 9909)
const ALGORITHM = [0x30, 0x0b, 0x06, 0x09, 0x60, 0x86, 0x48, 0x01, 0x65, 0x03, 0x04, 0x03];
const FIRST = 20;

const SECRET = 'this is a SECRET key: give the public key, NAME.pub';
const OTHER_ALGORITHM = 'a key of another algorithm than SLH-DSA over SHA-2';
const OTHER_BYTES = 'not the bytes of a key of its set, and nothing else';

const refuse = (text) => {
    throw new FormError(text);
};

// A SubjectPublicKeyInfo: SEQUENCE { algorithm, BIT STRING of the key }.
function keyOfDer(der) {
    if (der.length < 18 || !ALGORITHM.every((it, i) => der[2 + i] === it)) refuse(OTHER_ALGORITHM);
    const set = PARAMETER_SETS[der[14] - FIRST];
    if (set === undefined) refuse(OTHER_ALGORITHM);
    const length = publicKeyBytes(set);
    const front = [0x30, length + 16];
    const middle = [0x03, length + 1, 0x00];
    const isWhole = der.length === length + 18 && front.every((it, i) => der[i] === it) &&
        middle.every((it, i) => der[15 + i] === it);
    if (!isWhole) refuse(OTHER_BYTES);
    return { set, publicKey: der.slice(18) };
}

function keyOfPem(text) {
    const block = /-----BEGIN ([^-]*)-----([^-]*)-----END ([^-]*)-----/.exec(text);
    if (!block || block[1] !== block[3]) refuse('the PEM block has no end line of its own');
    if (/PRIVATE KEY$/.test(block[1])) refuse(SECRET);
    if (block[1] !== 'PUBLIC KEY') refuse('PEM of something else than such a key');
    const der = bytesOfBase64(withoutBlanks(block[2]));
    return der ? keyOfDer(der) : refuse('what stands in the PEM block is not Base64');
}

function keyOfLine(text) {
    const [set, digits, ...others] = text.trim().split(/[ \t\r\n]+/);
    const length = publicKeyBytes(set);
    if (length === undefined || digits === undefined || others.length > 0) {
        refuse('neither a key in PEM nor a line SET KEY');
    }
    const publicKey = bytesOfHex(digits);
    if (publicKey === null) refuse('the key is not hexadecimal');
    if (publicKey.length === 2 * length) refuse(SECRET);
    if (publicKey.length !== length) refuse(OTHER_BYTES);
    return { set, publicKey };
}

/**
 * The public key of a text: PEM as OpenSSL 3.5 and `slh` write it, or the line `SET HEX`. Anything
 * else is a FormError, a secret key too.
 */
export function readPublicKey(text) {
    if (typeof text !== 'string') throw new TypeError('a key is read from a string');
    const begins = text.split('-----BEGIN ').length - 1;
    if (begins > 1) refuse('more than one PEM block');
    return begins === 1 ? keyOfPem(text) : keyOfLine(text);
}

/** The signature of a file's bytes: these, or what their hexadecimal digits stand for. */
export function readSignature(bytes, set) {
    const length = signatureBytes(set);
    if (bytes.length === length) return bytes;
    const signature = bytesOfHex(withoutBlanks(new TextDecoder('latin1').decode(bytes)));
    if (signature !== null && signature.length === length) return signature;
    return refuse(`not a signature of ${set}, which has ${length} bytes`);
}
