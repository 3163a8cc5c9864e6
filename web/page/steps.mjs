// The steps of a recheck: each is a condition, what was summed, and what came of it. A page draws
// them as they are.

/** @typedef {{caption: string, head: string[], rows: string[][]}} Table */
/** @typedef {{holds: boolean, says: string, table: Table}} Shown */
/** @typedef {{condition: string, title: string} & Shown} Step */

/** @type {Table} */
export const NO_TABLE = {caption: "", head: [], rows: []};

/** @param {string} caption @param {string[]} head @param {string[][]} [rows]
 * @returns {Table} */
export const tableOf = (caption, head, rows = []) => ({caption, head, rows});

/** @param {boolean} holds */
export const holdsWord = holds => holds ? "holds" : "fails";

/** @param {string} says @param {Table} table
 * @returns {Shown} */
export const shown = (says, table) => ({holds: true, says, table});

/** @param {string} says @param {Table} table
 * @returns {Shown} */
export const refuted = (says, table) => ({holds: false, says, table});
