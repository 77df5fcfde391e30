/**
 * Links that carry a script, and files.
 * @module
 */

import { bytesOfText, textOfBytes } from './boxes.js';
import { several } from './codes.js';
import { element, find } from './dom.js';

const LONG_LINK = 8000;
/** The height of the steps within another page, and of each other part of the page, in pixels. */
const HEIGHT = 480;
/** @type {Record<string, number>} */
const HEIGHTS = { script: 165, output: 40, play: 250 };
/** The parts that are shown beside the step, and how to find and set whether they are. */
const VIEW = {
    tree: { id: 'tree-part', name: 'open', usual: false },
    each: { id: 'fold', name: 'checked', usual: true },
    all: { id: 'show-all', name: 'checked', usual: false },
};

/**
 * Bytes as letters, digits, minus signs and underlines.
 * @param {Uint8Array} bytes
 */
function packed(bytes) {
    let letters = '';
    for (const byte of bytes) letters += String.fromCharCode(byte);
    return btoa(letters).replaceAll('+', '-').replaceAll('/', '_').replaceAll('=', '');
}

/**
 * The bytes that were packed so.
 * @param {string} letters
 */
function unpacked(letters) {
    return Uint8Array.from(
        atob(letters.replaceAll('-', '+').replaceAll('_', '/')), (letter) => letter.charCodeAt(0));
}

/**
 * The content of the address: texts, limits, the step to show and how to show it, each if it is there.
 * @returns {{texts: {script: string, input: string}, limits: Record<string, string>, step: number | null, view: string
 * | null} | null} null if it contains no script
 * @throws {Error} if the script can't be read
 */
export function readLink() {
    const words = new URLSearchParams(window.location.hash.slice(1));
    if (!words.has('script')) return null;
    const [script, input] = ['script', 'input'].map((name) => textOfBytes(unpacked(words.get(name) ?? '')));
    const number = (/** @type {string} */ name) => (
        /^[0-9]{1,13}$/.test(words.get(name) ?? '') ? words.get(name) : null);
    /** @type {Record<string, string>} */
    const limits = {};
    for (const name of ['cells', 'steps']) if (number(name)) limits[name] = number(name);
    const step = number('step');
    return { texts: { script, input }, limits, step: step === null ? null : Number(step), view: words.get('view') };
}

/**
 * The parts that are shown beside the step now, in the form that a link uses: only those that differ from the default.
 */
function viewNow() {
    return Object.entries(VIEW).filter(([, { id, name, usual }]) => find(id)[name] !== usual)
        .map(([word]) => word).join('-');
}

/**
 * Makes the page show what a link says.
 * @param {string} view
 */
export function setView(view) {
    const words = view.split('-');
    for (const [word, { id, name, usual }] of Object.entries(VIEW)) {
        find(id)[name] = words.includes(word) ? !usual : usual;
    }
}

/**
 * What an address carries.
 * @param {{script: string, input: string}} texts
 * @param {number | null} step
 */
function carried({ script, input }, step) {
    const words = new URLSearchParams({ script: packed(bytesOfText(script)) });
    if (input) words.set('input', packed(bytesOfText(input)));
    for (const name of ['cells', 'steps']) words.set(name, find(name).value);
    if (step === null) return words;
    words.set('step', String(step));
    words.set('view', viewNow());
    return words;
}

/**
 * Copies the code that shows the steps of a script within another page, with the chosen parts of this page.
 * @param {{script: string, input: string}} texts
 * @param {number | null} step
 * @returns {Promise<string>} what is to be said of it
 */
export async function embedCode(texts, step) {
    const panels = [...document.querySelectorAll('[name="panel"]:checked')]
        .map((each) => /** @type {HTMLInputElement} */ (each).value);
    const place = new URL(`?embed=${panels.join(',')}`, window.location.href);
    place.hash = String(carried(texts, step));
    const height = panels.reduce((sum, panel) => sum + HEIGHTS[panel], HEIGHT);
    const code = `<iframe src="${place.href.replaceAll('&', '&amp;')}" title="A TRAC T-64 script, step by step" `
        + `width="100%" height="${height}"></iframe>`;
    try {
        await navigator.clipboard.writeText(code);
        return 'The code is copied. Put it into a page that can reach this one.';
    } catch {
        return `The browser lets nothing be copied. The code is: ${code}`;
    }
}

/**
 * Puts script, input, limits and step into the address, and copies that.
 * @param {{script: string, input: string}} texts
 * @param {number | null} step
 * @returns {Promise<string>} what is to be said of it
 */
export async function makeLink(texts, step) {
    const words = carried(texts, step);
    window.history.replaceState(window.history.state, '', `#${words}`);
    const { href } = window.location;
    const carries = step === null ? 'It carries the script.' : 'It carries the script and the step.';
    const long = href.length > LONG_LINK
        ? ` It is long, ${several(href.length, 'character')}: where it is cut, save the script as a file instead.` : '';
    try {
        await navigator.clipboard.writeText(href);
        return `The link is copied. ${carries}${long}`;
    } catch {
        return `The link stands in the address bar. ${carries}${long}`;
    }
}

/**
 * Has the browser save a file.
 * @param {string} name
 * @param {BlobPart} content
 */
export function saveFile(name, content) {
    const link = /** @type {HTMLAnchorElement} */ (element('a', ''));
    link.href = URL.createObjectURL(new Blob([content], { type: 'application/octet-stream' }));
    link.download = name;
    link.click();
    setTimeout(() => URL.revokeObjectURL(link.href), 60000);
}

/**
 * The text of a file that was chosen, as the boxes have it.
 * @param {File} file
 */
export async function openFile(file) {
    return textOfBytes(new Uint8Array(await file.arrayBuffer()));
}
