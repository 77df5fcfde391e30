// Runs scripts by trac.mjs in the shell of SpiderMonkey, which has no Node and no browser around it: a line of JSON for
// each on standard input, and what it came to on standard output. NPM in the environment is the folder of the package.
const folder = os.getenv('NPM');
// The shell encodes no text; the scripts are bytes, and this file reads no text of the reports.
globalThis.TextDecoder = class {
    decode() {
        return '';
    }
};

const { provide, run } = await import(`${folder}/trac.mjs`);
provide(os.file.readFile(`${folder}/trac.wasm`, 'binary'));
for (let line = readline(); line !== null; line = readline()) {
    const { script, cells, steps } = JSON.parse(line);
    const { output, fate, peak, ...told } = await run(Uint8Array.from(script), { cells, steps });
    print(JSON.stringify({ output: [...output], fate, peak, steps: Number(told.steps) }));
}
