// What the package throws, by the statuses of slh_dsa.h.

/** The base of all of them. `status` is the number that slh_dsa.h has, or null. */
export class SlhDsaError extends Error {
    static status = null;
    static text = 'SLH-DSA failed';

    constructor(text) {
        super(text === undefined ? new.target.text : text);
        this.name = new.target.name;
        this.status = new.target.status;
    }
}

/** The signature isn't one of this message, context and mode under this key. */
export class InvalidSignature extends SlhDsaError {
    static name = 'InvalidSignature';
    static status = 1;
    static text = "the signature isn't one of this message under this key";
}

/** The base of the refusals of an argument. */
export class Refused extends SlhDsaError {
    static name = 'Refused';
}

/** A key or a signature has a wrong length. */
export class LengthError extends Refused {
    static name = 'LengthError';
    static status = 5;
    static text = 'a key or a signature has a wrong length';
}

/** The context has more than 255 bytes. */
export class ContextTooLongError extends Refused {
    static name = 'ContextTooLongError';
    static status = 6;
    static text = 'the context has more than 255 bytes';
}

/** The message has more than 2^60 bytes. */
export class MessageTooLongError extends Refused {
    static name = 'MessageTooLongError';
    static status = 8;
    static text = 'the message has more than 2^60 bytes';
}

/** No parameter set has the name. */
export class UnknownSetError extends Refused {
    static name = 'UnknownSetError';
    static status = 9;
    static text = 'there is no such parameter set';
}

/** `mode` is none of 'pure', 'sha256' and 'sha512'. */
export class UnknownModeError extends Refused {
    static name = 'UnknownModeError';
    static status = 10;
    static text = 'there is no such mode';
}

/** A verifier was finished before. */
export class StateError extends Refused {
    static name = 'StateError';
    static status = 13;
    static text = 'the verifier was used up';
}

/** A text isn't one public key, or the bytes of a file aren't one signature. */
export class FormError extends Refused {
    static name = 'FormError';
}

const BY_STATUS = new Map(
    [InvalidSignature, LengthError, ContextTooLongError, MessageTooLongError, UnknownSetError,
        UnknownModeError, StateError].map((error) => [error.status, error]),
);

// The error of a status that isn't 0.
export function errorOf(status) {
    const Known = BY_STATUS.get(status);
    return Known ? new Known() : new SlhDsaError(`the module answers ${status}`);
}
