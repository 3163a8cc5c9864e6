// Exact fractions of whole numbers of any size, and their sums with a limit on what may stand in
// them.

/** A fraction in lowest terms; the denominator is at least 1. */
export class Fraction {
    /** @param {bigint} over @param {bigint} under both as they stand in the fraction */
    constructor(over, under) {
        this.over = over;
        this.under = under;
    }

    toString() {
        return this.under === 1n ? `${this.over}` : `${this.over}/${this.under}`;
    }
}

/** @param {bigint} number */
export const sizeOf = number => number < 0n ? -number : number;

/** The greatest common divisor of the sizes, and the other where one is 0.
 * @param {bigint} a @param {bigint} b */
export function commonDivisor(a, b) {
    let [left, right] = [sizeOf(a), sizeOf(b)];
    while (right !== 0n) {
        [left, right] = [right, left % right];
    }
    return left;
}

/** @param {bigint} number */
export const whole = number => new Fraction(number, 1n);
/** The fraction of which so many are 1.
 * @param {bigint} number above 0 */
export const part = number => new Fraction(1n, number);
export const ZERO = whole(0n);
export const ONE = whole(1n);

/** The fraction of a text that is one.
 * @param {string} text */
export function fractionOf(text) {
    const [over, under] = text.split("/");
    return new Fraction(BigInt(over), under === undefined ? 1n : BigInt(under));
}

/** @param {Fraction} a */
export const negative = a => new Fraction(-a.over, a.under);
/** @param {Fraction} a @param {Fraction} b */
export const isSame = (a, b) => a.over === b.over && a.under === b.under;
/** @param {Fraction} a @param {Fraction} b */
export const isAtMost = (a, b) => a.over * b.under <= b.over * a.under;
/** @param {Fraction} a */
export const isBelowZero = a => a.over < 0n;
/** @param {Fraction} a */
export const isAboveZero = a => a.over > 0n;

/** The greatest size of a number that the exchange's own check can hold. */
export const LIMIT = 2n ** 127n - 1n;

/** A step in which a number would be above the limit. */
export class Wide extends Error {
    /** @param {string} sign @param {Fraction} left @param {Fraction} right */
    constructor(sign, left, right) {
        super(`${left} ${sign} ${right}`);
    }
}

/** Sums and products. With a limit, the numbers that arise on the way to lowest terms must be
 * within it too: both cross products of a sum, their sum, and the denominator (Knuth, The Art of
 * Computer Programming, section 4.5.1). With a 0 nothing arises. */
export class Sums {
    /** @param {bigint | null} limit */
    constructor(limit) {
        this.limit = limit;
    }

    /** @param {bigint} number */
    fits(number) {
        return this.limit === null || sizeOf(number) <= this.limit;
    }

    /** @param {Fraction} a @param {Fraction} b */
    add(a, b) {
        if (a.over === 0n || b.over === 0n) {
            return a.over === 0n ? b : a;
        }
        const shared = commonDivisor(a.under, b.under);
        const left = a.over * (b.under / shared);
        const right = b.over * (a.under / shared);
        const over = left + right;
        const rest = commonDivisor(over, shared);
        const under = (a.under / shared) * (b.under / rest);
        if (!(this.fits(left) && this.fits(right) && this.fits(over) && this.fits(under))) {
            throw new Wide("+", a, b);
        }
        return new Fraction(over / rest, under);
    }

    /** @param {Fraction} a @param {Fraction} b */
    less(a, b) {
        return this.add(a, negative(b));
    }

    /** @param {Fraction} a @param {Fraction} b */
    times(a, b) {
        if (a.over === 0n || b.over === 0n) {
            return ZERO;
        }
        const first = commonDivisor(a.over, b.under);
        const second = commonDivisor(b.over, a.under);
        const over = (a.over / first) * (b.over / second);
        const under = (a.under / second) * (b.under / first);
        if (!(this.fits(over) && this.fits(under))) {
            throw new Wide("·", a, b);
        }
        return new Fraction(over, under);
    }
}
