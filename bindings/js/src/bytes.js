// Bytes in the forms in which they come.

// What is given as bytes, as a Uint8Array over the same memory.
export function bytesOf(value, what) {
    if (ArrayBuffer.isView(value)) {
        return new Uint8Array(value.buffer, value.byteOffset, value.byteLength);
    }
    if (value instanceof ArrayBuffer) return new Uint8Array(value);
    throw new TypeError(`${what}: bytes are wanted, as a Uint8Array`);
}

// The bytes of hexadecimal digits, or null.
export function bytesOfHex(text) {
    if (text.length % 2 !== 0 || !/^[0-9a-fA-F]*$/.test(text)) return null;
    const bytes = new Uint8Array(text.length / 2);
    for (let i = 0; i < bytes.length; i++) bytes[i] = parseInt(text.slice(2 * i, 2 * i + 2), 16);
    return bytes;
}

// The bytes of Base64 with its padding (RFC 4648, section 4), or null.
export function bytesOfBase64(text) {
    if (text.length % 4 !== 0 || !/^[A-Za-z0-9+/]*={0,2}$/.test(text)) return null;
    return Uint8Array.from(atob(text), (it) => it.charCodeAt(0));
}

// A text without blanks and ends of lines.
export const withoutBlanks = (text) => text.replace(/[ \t\r\n]/g, '');
