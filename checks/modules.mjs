// Calls the functions of modules, by Node's engine, as modules.c does. Its words are the files.
import { readFileSync } from 'node:fs';

const BUFFER = 256, PLACE = 4 * 65536;
const ARGUMENTS = [[0, 0n], [1, -1n], [0x7fffffff, 1n << 63n], [0x80000000, 1n], [0xffffffff, 0xffffffffn], [100, 10n]];
const hex = (number) => BigInt.asUintN(64, number).toString(16).padStart(16, '0');
for (const file of process.argv.slice(2)) {
  const { memory, stack, ...functions } = (await WebAssembly.instantiate(readFileSync(file))).instance.exports;
  const end = stack.value;
  for (const [name, call] of Object.entries(functions)) {
    for (const [a, b] of ARGUMENTS) {
      const buffer = new Uint8Array(memory.buffer, PLACE, BUFFER);
      buffer.forEach((_, i) => (buffer[i] = i * 37 + a));
      stack.value = end;
      try {
        const result = call(BigInt(PLACE), a, b);
        let hash = 14695981039346656037n;
        for (const byte of buffer) hash = BigInt.asUintN(64, (hash ^ BigInt(byte)) * 1099511628211n);
        console.log(`${name} ${hex(result)} ${hex(hash)}`);
      } catch (error) {
        if (!(error instanceof WebAssembly.RuntimeError)) throw error;
        console.log(`${name} trap`);
      }
    }
  }
}
