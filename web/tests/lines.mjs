// Lines that the tests begin with: the examples of the repository.
import {dirname, join} from "node:path";
import {fileURLToPath} from "node:url";
import {readFileSync} from "node:fs";

const EXAMPLES = join(dirname(fileURLToPath(import.meta.url)), "../../examples");

/** The bytes of an example's replies. */
export const journal = name => readFileSync(join(EXAMPLES, `${name}.replies`));

/** The lines of an example that clear a batch. */
export const cleared = name =>
    journal(name).toString().split("\n").filter(line => line.includes('"reply":"cleared"'));

/** A text with one part changed, which must stand in it just once. */
export function changed(text, old, made) {
    const pieces = text.split(old);
    if (pieces.length !== 2) {
        throw new Error(`${old} stands ${pieces.length - 1} times`);
    }
    return pieces.join(made);
}
