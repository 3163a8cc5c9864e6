// Fields and forms of the page.
import {element} from "./tables.mjs";

let count = 0;

/** A field with its name above it.
 * @param {string} name @param {HTMLElement} input */
export function field(name, input) {
    count += 1;
    input.id = input.id || `field-${count}`;
    return element("span", {class: "field"}, element("label", {for: input.id}, name), input);
}

/** @param {string} value @param {() => void} onInput @param {string} [kind] */
export function numberInput(value, onInput, kind = "short") {
    const input = document.createElement("input");
    input.value = value;
    input.className = kind;
    input.inputMode = "numeric";
    input.autocomplete = "off";
    input.addEventListener("input", onInput);
    return input;
}

/** @param {[value: string, told: string][]} options @param {() => void} onChange */
export function choice(options, onChange) {
    const select = document.createElement("select");
    setOptions(select, options);
    select.addEventListener("change", onChange);
    return select;
}

/** Sets what can be chosen; what was chosen stays so where it is still there. Where nothing is
 * new, the options stay, since they may be looked at.
 * @param {HTMLSelectElement} select @param {[value: string, told: string][]} options */
export function setOptions(select, options) {
    const there = Array.from(select.options, each => [each.value, each.text]);
    if (JSON.stringify(there) === JSON.stringify(options)) {
        return;
    }
    const chosen = select.value;
    select.replaceChildren(
        ...options.map(([value, told]) => element("option", {value}, told)));
    if (options.some(([value]) => value === chosen)) {
        select.value = chosen;
    }
}

/** @param {string} told @param {() => void} onClick @param {string} [kind] */
export function button(told, onClick, kind = "") {
    const made = element("button", kind ? {type: "button", class: kind} : {type: "button"}, told);
    made.addEventListener("click", onClick);
    return made;
}

/** A form whose fields make a line, which its button sends.
 * @param {string} title @param {string} word @param {[name: string, input: HTMLInputElement
 * | HTMLSelectElement][]} fields @param {(line: string) => void} onLine */
export function lineForm(title, word, fields, onLine) {
    const send = element("button", {}, title);
    const form = element("form", {class: "fields"},
        ...fields.map(([name, input]) => field(name, input)), send);
    form.addEventListener("submit", event => {
        event.preventDefault();
        onLine([word, ...fields.map(([, input]) => input.value.trim())].join(","));
    });
    return form;
}
