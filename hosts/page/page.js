/**
 * The page: its state, and what its controls do.
 * @module
 */

import { MOST_CELLS, provide } from '../js/trac.mjs';
import { Boxes, bytesOfText } from './boxes.js';
import { counted, plainText, several } from './codes.js';
import { element, find, limitIn } from './dom.js';
import { Guide } from './guide.js';
import { Lessons } from './lessons.js';
import {
    embedCode, makeLink, openFile, readLink, saveFile, setView,
} from './links.js';
import { Live, MOST_LIVE } from './live.js';
import { pause } from './machines.js';
import { Places } from './places.js';
import {
    amountWords, doneIn, fateWords, makeRun, sameStep, stringWords,
} from './runs.js';
import { Stepper } from './stepper.js';
import { traceOf } from './trace.js';
import { CallTree } from './tree.js';
import { View, isFault } from './view.js';
import { Warnings } from './warnings.js';

const MOST_STEPS = 1000000000000;
/** How many steps a script makes that comes by a link, before anyone asks for its run. */
const MOST_UNASKED = 10000000;
/** The cells of the largest block that is made again while the user types. */
const MOST_LIVE_CELLS = 2 ** 20;
const LOOK = 'trac-t64-look';
/** @typedef {import('./runs.js').Run} Run */

/**
 * What the page is doing: nothing yet; running; showing a run, or one of a script that was changed since.
 * @typedef {{kind: 'idle'} | {kind: 'running', stopping: AbortController}
 * | {kind: 'shown', run: Run} | {kind: 'stale', run: Run}} State
 */

/**
 * Shows a message beside the script.
 * @param {string} words
 */
function tell(words) {
    find('told').textContent = words;
}

/**
 * The limit in an input field, or null if it isn't in its range; then a message says so.
 * @param {string} id
 * @param {number} most
 */
function numberIn(id, most) {
    const number = limitIn(id, most);
    find(id).setAttribute('aria-invalid', String(!number));
    if (number) return number;
    tell(`${id === 'cells' ? 'Cells' : 'Steps'} must be a whole number from 1 to ${counted(most)}.`);
    find('settings').open = true;
    find(id).focus();
    return null;
}

/**
 * The limits of the fields, or null if one is out of its range.
 * @param {(id: string, most: number) => number | null} read
 */
function limitsIn(read) {
    const cells = read('cells', MOST_CELLS);
    const steps = cells && read('steps', MOST_STEPS);
    return steps ? { cells, steps } : null;
}

/**
 * Why something that was begun came to nothing, in words.
 * @param {unknown} error
 */
function failureWords(error) {
    return error instanceof RangeError ? 'This browser can’t give the memory for so many cells.' : String(error);
}

/**
 * Closes what is opened beside the script around an element, and puts the focus on its heading.
 * @param {EventTarget | null} target
 */
function closeAround(target) {
    const part = target instanceof Element ? target.closest('#written details[open]') : null;
    if (!part) return;
    part.removeAttribute('open');
    part.querySelector('summary').focus();
}

/** Unpacks the engine that the page contains. */
async function unpackEngine() {
    const packed = Uint8Array.from(atob(find('engine').textContent), (letter) => letter.charCodeAt(0));
    const { DecompressionStream: Unpacking } = /** @type {any} */ (window);
    const stream = new Blob([packed]).stream().pipeThrough(new Unpacking('gzip'));
    provide(await new Response(stream).arrayBuffer());
}

/** The page. */
class Page {
    constructor() {
        /** @type {State} */
        this.state = { kind: 'idle' };
        /**
         * Done when the engine is unpacked.
         * @type {Promise<void> | undefined}
         */
        this.unpacked = undefined;
        this.boxes = new Boxes(() => this.outdate());
        this.lessons = new Lessons((texts) => this.boxes.fill(texts));
        this.guide = new Guide(this.lessons.lesson, ({ name }) => this.openPart(name), () => this.boxes.save());
        this.view = new View();
        this.places = new Places(this.boxes, this.view.forms);
        this.places.onFault = () => this.run && this.showFate(this.run);
        this.stepper = new Stepper(this.view);
        this.tree = new CallTree((step) => this.stepper.go(step));
        this.warnings = new Warnings(
            (place) => this.selectCharacter(place), (places) => this.boxes.spot(places));
        this.live = new Live((signal) => this.showTyped(signal));
        this.stepper.onStep = () => this.showAround();
        this.listen();
    }

    /** The run that is shown, that of an older script too. */
    get run() {
        return 'run' in this.state ? this.state.run : null;
    }

    /** @param {State} state */
    become(state) {
        const wasStopped = document.activeElement === find('stop');
        this.state = state;
        const isRunning = state.kind === 'running';
        find('main').setAttribute('aria-busy', String(isRunning));
        find('stop').hidden = !isRunning;
        for (const id of ['run', 'through']) find(id).setAttribute('aria-disabled', String(isRunning));
        // how far a run is gone is not said aloud, but how it ends
        find('fate').setAttribute('aria-live', isRunning ? 'off' : 'polite');
        for (const id of ['machine', 'printed', 'suspicions']) {
            find(id).setAttribute('aria-busy', String(isRunning));
            find(id).classList.toggle('stale', state.kind === 'stale');
        }
        find('stale').hidden = state.kind !== 'stale';
        if (!isRunning) for (const id of ['machine', 'saves']) find(id).hidden = !this.run;
        if (wasStopped) find('run').focus();
    }

    /** Takes note that the script isn't any more the one whose run is shown or made. */
    outdate() {
        find('place').hidden = true;
        this.warnings.outdate();
        this.places.forget();
        this.live.stop();
        if (this.state.kind === 'shown') this.become({ kind: 'stale', run: this.state.run });
        else if (find('output').firstChild) find('printed').classList.add('stale');
    }

    /**
     * Runs the script of the boxes.
     * @param {number | null} step the one to show then, or the last one in front of it; null for the script's begin
     * @param {number} [most] after how many steps it is stopped
     * @param {boolean} [brings] whether the window is scrolled to the steps
     */
    async start(step, most = Infinity, brings = true) {
        if (this.state.kind === 'running' || find('run').disabled) return;
        const limits = limitsIn(numberIn);
        if (!limits) return;
        this.live.stop();
        tell('');
        this.leave();
        const stopping = new AbortController();
        this.become({ kind: 'running', stopping });
        find('fate').textContent = 'Running …';
        try {
            await this.make(limits, stopping.signal, step, most);
            if (step !== Infinity && brings) this.bringMachine();
        } catch (error) {
            this.become({ kind: 'idle' });
            this.view.output.forget();
            find('fate').textContent = failureWords(error);
        }
    }

    /** Steps through the script of the boxes, with the focus on Step unless it was moved meanwhile. */
    async startThrough() {
        const at = document.activeElement;
        await this.start(null);
        if (this.run && document.activeElement === at) find('step').focus({ preventScroll: true });
    }

    /**
     * Puts a part of the lesson into the boxes, and steps through it; what is running is stopped.
     * @param {string} name
     */
    async openPart(name) {
        this.lessons.choose(name);
        if (this.state.kind === 'running') this.state.stopping.abort();
        while (this.state.kind === 'running') await pause();
        this.start(null, Infinity, false);
    }

    /** Leaves the run that is shown. */
    leave() {
        this.stepper.close();
        this.tree.close();
        this.warnings.close();
        this.places.close();
        this.lessons.exercises.forgetVerdict();
        find('place').hidden = true;
        find('fate').className = '';
    }

    /**
     * @param {{cells: number, steps: number}} limits
     * @param {AbortSignal} signal
     * @param {number | null} step
     * @param {number} most
     */
    async make(limits, signal, step, most) {
        const { texts } = this.boxes;
        await this.unpacked;
        const run = await makeRun(texts, limits, signal, most, (done) => {
            find('fate').textContent = `Running: ${several(done, 'step')} …`;
        });
        this.show(run, step);
    }

    /**
     * Shows what comes of what is typed, if it takes few steps, and what is suspicious in it.
     * @param {AbortSignal} signal aborted where more is typed
     */
    async showTyped(signal) {
        const limits = limitsIn(limitIn);
        if (!limits || this.state.kind === 'running' || find('run').disabled) return;
        const { texts } = this.boxes;
        try {
            await this.unpacked;
            const isWanted = find('live').checked && limits.cells <= MOST_LIVE_CELLS;
            const run = isWanted ? await makeRun(texts, limits, signal, MOST_LIVE) : null;
            if (signal.aborted) return;
            if (!run || run.history.isCut) this.lookAround(texts, limits);
            else if (this.run) await this.showInstead(run, this.run, signal);
            else this.showResult(run);
        } catch {
            // nobody asked for this run: where there is no memory or no engine for it, Run says so
        }
    }

    /**
     * Shows a run in the place of that of an older script: at the same step where the same has been done up to it.
     * @param {Run} run
     * @param {Run} old
     * @param {AbortSignal} signal
     */
    async showInstead(run, old, signal) {
        const { step, end } = old.history;
        const same = step === end.step ? Infinity : await sameStep(step, doneIn(old), run, signal);
        if (signal.aborted) return;
        this.leave();
        this.show(run, same, true);
    }

    /**
     * Shows what a run printed whose steps nobody asked for.
     * @param {Run} run
     */
    showResult(run) {
        this.view.output.open(run.output);
        find('printed').classList.remove('stale');
        find('fate').setAttribute('aria-live', 'off');
        this.showFate(run);
        this.lookAround(run.texts, run.history.limits);
    }

    /**
     * Shows a run that was made.
     * @param {Run} run
     * @param {number | null} step
     * @param {boolean} [isTyped] whether nobody asked for it but by typing
     */
    show(run, step, isTyped = false) {
        const { script, input } = this.boxes.texts;
        const isSame = script === run.texts.script && input === run.texts.input;
        this.become({ kind: isSame ? 'shown' : 'stale', run });
        this.view.open(run.history, run.output);
        this.tree.open(run.history, run.input);
        this.places.forget();
        this.stepper.open(run.history, step);
        if (isTyped) find('fate').setAttribute('aria-live', 'off');
        this.showFate(run);
        if (!isTyped) this.check(run);
        if (isSame) this.lookAround(run.texts, run.history.limits);
    }

    /**
     * Has an exercise that is set look at a run.
     * @param {Run} run
     */
    check({ texts, output, history }) {
        const { exercises } = this.lessons;
        if (exercises.chosen) exercises.check(texts.script, plainText(output), history.end.fate);
    }

    /**
     * Lists what is suspicious in texts, and marks it in the boxes.
     * @param {{script: string, input: string}} texts
     * @param {{cells: number, steps: number}} limits
     */
    async lookAround({ script, input }, limits) {
        // the script of a part of the lesson is meant so, and a place would answer what is asked
        if (this.guide.at >= 0 && find('example').value) return;
        try {
            await pause();
            await this.warnings.look(script + input, limits);
        } catch {
            // a list that finds no memory is left away: the run itself is shown
        }
    }

    /** Scrolls to where both strings are in view, with the script if there is room for all. */
    bringMachine() {
        const [script, steps, strings] = ['written', 'machine', 'unscanned'].map(
            (id) => find(id).getBoundingClientRect());
        const room = window.innerHeight;
        if (strings.bottom - script.top <= room) {
            if (script.top < 0 || strings.bottom > room) find('written').scrollIntoView();
        } else if (steps.top < 0 || steps.top > room / 2) find('machine').scrollIntoView();
    }

    /**
     * Shows how a run ended.
     * @param {Run} run
     */
    showFate(run) {
        const { fate } = run.history.end;
        find('fate').className = isFault(fate) ? 'fault' : '';
        find('fate').replaceChildren(fateWords(run.history), element('small', '', amountWords(run)));
        const last = isFault(fate) ? stringWords(run) : '';
        for (const words of last ? [last, this.places.faultWords] : []) {
            if (words) find('fate').append(element('small', '', words));
        }
        find('place').hidden = !last || this.state.kind !== 'shown';
    }

    /** Shows what goes with the step that is reached. */
    showAround() {
        this.places.show(this.run, this.state.kind === 'shown');
        this.tree.show();
    }

    /** Goes to the step of a fault, and selects in the boxes what was being scanned there, or else its string. */
    selectPlace() {
        if (this.state.kind !== 'shown') return;
        this.places.forget();
        this.places.isSelecting = true;
        this.stepper.go(this.state.run.history.end.step);
    }

    /**
     * Selects a character of the texts, and marks it.
     * @param {number} place
     */
    selectCharacter(place) {
        const part = { from: place, to: place + 1 };
        this.boxes.mark({ ...part, isFault: true });
        this.boxes.select(part);
    }

    /** Fills the boxes with what the address carries, if it does, and runs it where it names a step. */
    fromLink() {
        try {
            const link = readLink();
            if (!link) return false;
            this.lessons.leave();
            this.boxes.fill(link.texts);
            for (const [id, value] of Object.entries(link.limits)) find(id).value = value;
            if (link.view !== null) setView(link.view);
            tell('The script is from the link. Run runs it.');
            if (link.step !== null) this.start(link.step, MOST_UNASKED);
        } catch {
            tell('The script of this link can’t be read.');
        }
        return true;
    }

    async link() {
        tell(await makeLink(this.boxes.texts, this.shownStep));
        this.boxes.save();
    }

    async embed() {
        tell(await embedCode(this.boxes.texts, this.shownStep));
    }

    /** The step that is shown of the script of the boxes, or null. */
    get shownStep() {
        return this.state.kind === 'shown' ? this.stepper.at : null;
    }

    /** Opens the file that was chosen. */
    async open() {
        const [file] = find('file').files;
        if (!file) return;
        find('file').value = '';
        this.lessons.leave();
        this.boxes.fill({ script: await openFile(file), input: '' });
        tell(`${file.name} is opened.`);
    }

    async saveTrace() {
        const { run } = this;
        if (!run) return;
        tell('Writing the trace …');
        const { history: { limits, end }, input } = run;
        try {
            saveFile('trace.txt', await traceOf(input, limits, end));
            tell('The trace is saved.');
        } catch (error) {
            tell(failureWords(error));
        }
    }

    /** @param {KeyboardEvent} event */
    onKey(event) {
        if (event.key === 'Enter' && (event.ctrlKey || event.metaKey)) {
            event.preventDefault();
            if (event.shiftKey) this.startThrough();
            else this.start(Infinity);
            return;
        }
        const { target } = event;
        if (event.key === 'Escape') {
            this.stepper.stopSearch();
            closeAround(target);
        }
        const isEdited = target instanceof Element && target.closest('textarea, input, select');
        if (isEdited || event.altKey || event.ctrlKey || event.metaKey || !this.run) return;
        const move = {
            ArrowLeft: event.shiftKey ? 'call-back' : 'back',
            ArrowRight: event.shiftKey ? 'call-step' : 'step',
            Home: 'first',
            End: 'last',
            s: 'step',
            n: 'over',
            f: 'finish',
        }[event.key];
        if (move) {
            event.preventDefault();
            this.stepper.press(move);
        } else if (event.key === 'p') find('play').click();
    }

    /** Ties the controls to what they do. */
    listen() {
        /** @type {Record<string, () => void>} */
        const acts = {
            run: () => this.start(Infinity),
            through: () => this.start(null),
            stop: () => this.state.kind === 'running' && this.state.stopping.abort(),
            link: () => this.link(),
            embed: () => this.embed(),
            place: () => this.selectPlace(),
            open: () => find('file').click(),
            save: () => saveFile('script.trac', bytesOfText(this.boxes.texts.script)),
            'save-output': () => this.run && saveFile('output.txt', this.run.output),
            'save-trace': () => this.saveTrace(),
        };
        for (const [id, act] of Object.entries(acts)) find(id).addEventListener('click', act);
        find('file').addEventListener('change', () => this.open());
        find('script').addEventListener('input', () => this.boxes.isFilling || this.lessons.leave());
        for (const id of ['script', 'input']) {
            find(id).addEventListener('input', () => this.boxes.isFilling || this.live.typed());
        }
        document.addEventListener('keydown', (event) => this.onKey(event));
        for (const [name, isWhole] of /** @type {const} */ ([['beforeprint', true], ['afterprint', false]])) {
            window.addEventListener(name, () => this.drawWhole(isWhole));
        }
        window.addEventListener('hashchange', () => this.fromLink());
    }

    /** What stands above a hand-out, in words. */
    get captionWords() {
        const name = find('example').value;
        const title = `${name ? `${name}: a` : 'A'} script in TRAC T-64`;
        if (!this.run) return `${title}.`;
        const { step, end, limits } = this.run.history;
        return `${title}, ${counted(step)} of ${several(end.step, 'step')} done in ${several(limits.cells, 'cell')}.`;
    }

    /**
     * Draws what is long in whole, for a hand-out, or again in part.
     * @param {boolean} isWhole
     */
    drawWhole(isWhole) {
        find('caption').textContent = this.captionWords;
        this.boxes.drawWhole(isWhole);
        for (const part of [this.view.output, this.view.forms]) {
            part.isWhole = isWhole;
            part.draw();
        }
    }

    /** Fills the boxes for the first time. */
    begin() {
        if (typeof WebAssembly === 'undefined' || !('DecompressionStream' in window)) {
            for (const id of ['run', 'through']) find(id).disabled = true;
            find('fate').textContent = 'This browser has no WebAssembly, or can’t unpack the engine, so it can’t '
                + 'run scripts here; they can be written, opened, saved and linked.';
        } else this.unpacked = unpackEngine();
        const panels = new URLSearchParams(window.location.search).get('embed');
        const isEmbedded = panels !== null;
        document.documentElement.classList.toggle('embed', isEmbedded);
        document.documentElement.dataset.panels = (panels ?? '').replaceAll(',', ' ');
        this.fillFirst();
        if (isEmbedded) this.start(readLink()?.step ?? null, MOST_UNASKED);
    }

    /**
     * Fills the boxes with what was kept, what the address carries, or the lesson's first part. An address with a
     * script opens no lesson: that would take the script out of it.
     */
    fillFirst() {
        const part = Guide.named();
        const isPart = part in this.lessons.lesson;
        if (this.boxes.load()) {
            this.lessons.recognise(this.boxes.texts);
            if (isPart && Guide.wasOpen) this.guide.show(part);
        } else if (!this.fromLink()) {
            if (isPart) this.guide.go(part);
            else this.lessons.choose(this.lessons.first);
        }
    }
}

/**
 * What a choice of the look says.
 * @param {string} id
 * @returns {string}
 */
function chosen(id) {
    return id === 'live' ? String(find(id).checked) : find(id).value;
}

/** Has the page look as it is wanted, and do so while one types, and keeps that. */
function listenLook() {
    const ids = ['size', 'scheme', 'live'];
    const look = () => {
        for (const id of ids) document.documentElement.dataset[id] = chosen(id);
    };
    try {
        Object.entries(JSON.parse(window.localStorage.getItem(LOOK) ?? '{}')).forEach(([id, value]) => {
            if (id === 'live') find(id).checked = value === 'true';
            else if (ids.includes(id)) find(id).value = value;
        });
    } catch {
        // without a place in the browser nothing is kept
    }
    for (const id of ids) {
        find(id).addEventListener('change', () => {
            look();
            try {
                window.localStorage.setItem(LOOK, JSON.stringify(
                    Object.fromEntries(ids.map((each) => [each, chosen(each)]))));
            } catch {
                // the look is that of this visit alone
            }
        });
    }
    look();
}

listenLook();
new Page().begin();
