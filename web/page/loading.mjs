// Asks anew what is wanted, one time for all that is wanted meanwhile, and again after a fault.
import {pause} from "./gateway.mjs";

// So long nothing is asked anew after it was, in milliseconds, and after a fault.
const REST = 250;
const AFTER_FAULT = 1000;

export class Loading {
    /** @param {() => Promise<void>} load @param {(fault: unknown) => void} onEnd is told the fault,
     * or null where there was none */
    constructor(load, onEnd) {
        this.load = load;
        this.onEnd = onEnd;
        this.isWanted = false;
        this.isLoading = false;
    }

    async want() {
        this.isWanted = true;
        if (this.isLoading) {
            return;
        }
        this.isLoading = true;
        while (this.isWanted) {
            this.isWanted = false;
            await this.tryOnce();
            await pause(REST);
        }
        this.isLoading = false;
    }

    async tryOnce() {
        try {
            await this.load();
            this.onEnd(null);
        } catch (fault) {
            this.onEnd(fault);
            await pause(AFTER_FAULT);
            this.isWanted = true;
        }
    }
}
