// The parameter sets (FIPS 205, section 11, table 2) and the modes, in the order of their numbers.

/** The names of the parameter sets. */
export const PARAMETER_SETS = Object.freeze(
    ['128s', '128f', '192s', '192f', '256s', '256f'].map((it) => `SLH-DSA-SHA2-${it}`),
);

const PUBLIC_KEY_BYTES = [32, 32, 48, 48, 64, 64];
const SIGNATURE_BYTES = [7856, 17088, 16224, 35664, 29792, 49856];
const MODES = ['pure', 'sha256', 'sha512'];

// The number of a set, from 1 on; 0, which no set has, for another name.
export const numberOfSet = (set) => PARAMETER_SETS.indexOf(set) + 1;

// The number of a mode; for another name -1, which the module takes for 2^32 - 1.
export const numberOfMode = (mode) => MODES.indexOf(mode);

/** How many bytes a public key of a set has; undefined for another name. */
export const publicKeyBytes = (set) => PUBLIC_KEY_BYTES[PARAMETER_SETS.indexOf(set)];

/** How many bytes a signature of a set has; undefined for another name. */
export const signatureBytes = (set) => SIGNATURE_BYTES[PARAMETER_SETS.indexOf(set)];
