// What the tests share. The folder of the package is SLH_PACKAGE, and SLH_PROGRAM the program of lines
// that signs for them.
import { spawnSync } from 'node:child_process';
import { createHash } from 'node:crypto';
import { readFileSync } from 'node:fs';
import { join, resolve } from 'node:path';
import { pathToFileURL } from 'node:url';

const folder = resolve(process.env.SLH_PACKAGE);

/** The package, from where it was built. */
export const slh = await import(pathToFileURL(join(folder, 'index.js')));

export const fileOfPackage = (name) => readFileSync(join(folder, name));
export const fileOfRepository = (name) => readFileSync(new URL(`../../../${name}`, import.meta.url), 'utf8');

export const bytesOf = (hex) => new Uint8Array(Buffer.from(hex === '-' ? '' : hex, 'hex'));
export const hexOf = (bytes) => (bytes.length === 0 ? '-' : Buffer.from(bytes).toString('hex'));
export const textBytes = (text) => new TextEncoder().encode(text);
export const widthOf = (set) => Number(set.slice(-4, -1)) / 8;

/** The same bytes with another bit. */
export function bent(bytes, at) {
    const other = Uint8Array.from(bytes);
    other[at] ^= 1;
    return other;
}

/** The replies of the program to lines. */
export function replies(lines) {
    const ran = spawnSync(process.env.SLH_PROGRAM, { input: `${lines.join('\n')}\n`, maxBuffer: 1 << 28 });
    if (ran.status !== 0) throw new Error(`the program ended with ${ran.status}`);
    return ran.stdout.toString().trimEnd().split('\n');
}

const SUFFIX = { pure: '', sha256: '-sha256', sha512: '-sha512' };
export const command = (name, mode) => `${name}${SUFFIX[mode]}`;

// What is signed in each mode, as examples/data/README.md tells.
const SIGNED = {
    pure: { context: '', message: 'Hello' },
    sha256: { context: 'Test context!', message: 'Hello, world!' },
    sha512: { context: '', message: 'abc' },
};

/**
 * The known answers: keys and signatures that the program makes, whose digests are those of the
 * signatures of another implementation.
 */
export function knownAnswers() {
    const rows = fileOfRepository('examples/data/known_answers.txt').split('\n')
        .filter((it) => it.startsWith('SLH-')).map((it) => it.split(' '));
    const keyLines = rows.map(([set]) => {
        const seeds = ['01', '02', '03'].map((it) => it.repeat(widthOf(set)));
        return `${set} keygen ${seeds.join(' ')}`;
    });
    const keys = replies(keyLines).map((it) => it.split(' '));
    const signatures = replies(rows.map(([set, mode], i) => {
        const { context, message } = SIGNED[mode];
        const counted = Uint8Array.from({ length: widthOf(set) }, (_, at) => at);
        const randomizer = mode === 'sha512' ? hexOf(counted) : 'none';
        return [set, command('sign', mode), keys[i][1], hexOf(textBytes(context)),
            hexOf(textBytes(message)), randomizer].join(' ');
    }));
    return rows.map(([set, mode, digest], i) => {
        const signature = bytesOf(signatures[i].split(' ')[1]);
        if (createHash('sha256').update(signature).digest('hex') !== digest) {
            throw new Error(`${set} ${mode}: the program makes another signature`);
        }
        return {
            set, mode, signature,
            publicKey: bytesOf(keys[i][2]),
            context: textBytes(SIGNED[mode].context),
            message: textBytes(SIGNED[mode].message),
        };
    });
}
