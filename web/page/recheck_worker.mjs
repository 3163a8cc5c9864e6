// Rechecks beside the page, so that a long certificate does not hold it up.
import {recheck} from "./recheck.mjs";

addEventListener("message", event => {
    const {says, sentence, steps} = recheck(event.data);
    postMessage({says, sentence, steps});
});
