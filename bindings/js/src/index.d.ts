// SLH-DSA (FIPS 205) over SHA-2: verifying, by the proved code as WebAssembly.

export type ParameterSet =
    | 'SLH-DSA-SHA2-128s'
    | 'SLH-DSA-SHA2-128f'
    | 'SLH-DSA-SHA2-192s'
    | 'SLH-DSA-SHA2-192f'
    | 'SLH-DSA-SHA2-256s'
    | 'SLH-DSA-SHA2-256f';

/** What was signed: the message, or its digest (FIPS 205, section 10.2.2). */
export type Mode = 'pure' | 'sha256' | 'sha512';

export interface Options {
    /** At most 255 bytes; none if it isn't there. */
    context?: BufferSource;
    /** 'pure' if it isn't there. */
    mode?: Mode;
}

export type Message = BufferSource | Blob | ReadableStream<BufferSource> | AsyncIterable<BufferSource>;

/** The names of the parameter sets, in the order of FIPS 205, table 2. */
export const PARAMETER_SETS: readonly ParameterSet[];

export function publicKeyBytes(set: ParameterSet): number;
export function signatureBytes(set: ParameterSet): number;

/**
 * Verifies a signature. Answers nothing where it is accepted, and is rejected with InvalidSignature
 * where it isn't. A stream is read to its end.
 */
export function verify(
    set: ParameterSet,
    publicKey: BufferSource,
    message: Message,
    signature: BufferSource,
    options?: Options,
): Promise<void>;

/** A verifier for a message that comes in pieces. */
export function verifier(
    set: ParameterSet,
    publicKey: BufferSource,
    signature: BufferSource,
    options?: Options,
): Promise<MessageVerifier>;

/** The compiled module: the package's own, or that of the bytes of one of its two files. */
export function load(bytes?: BufferSource): Promise<WebAssembly.Module>;

/** A signature of a message that comes in pieces. Nothing is verified before `finish` returns. */
export class MessageVerifier {
    constructor(
        module: WebAssembly.Module,
        set: ParameterSet,
        publicKey: BufferSource,
        signature: BufferSource,
        options?: Options,
    );
    /** Takes the next bytes of the message. */
    update(piece: BufferSource): this;
    /** Returns nothing where the signature is accepted, and throws InvalidSignature where it isn't. */
    finish(): void;
}

/** The public key of a text: PEM, or the line `SET HEX`. */
export function readPublicKey(text: string): { set: ParameterSet; publicKey: Uint8Array };

/** The signature of a file's bytes: these, or what their hexadecimal digits stand for. */
export function readSignature(bytes: Uint8Array, set: ParameterSet): Uint8Array;

/** The base of all of them. `status` is the number that slh_dsa.h has, or null. */
export class SlhDsaError extends Error {
    readonly status: number | null;
}
export class InvalidSignature extends SlhDsaError {}
export class Refused extends SlhDsaError {}
export class LengthError extends Refused {}
export class ContextTooLongError extends Refused {}
export class MessageTooLongError extends Refused {}
export class UnknownSetError extends Refused {}
export class UnknownModeError extends Refused {}
export class StateError extends Refused {}
export class FormError extends Refused {}
