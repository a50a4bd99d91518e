// Runs a program for wasm32 with WASI: its words and its output are those of this command, and so is its exit status.
//
// usage: node --experimental-wasi-unstable-preview1 run.mjs PROGRAM [WORD..]
import { readFile } from 'node:fs/promises';
import { WASI } from 'node:wasi';

const [program, ...words] = process.argv.slice(2);
const wasi = new WASI({ version: 'preview1', args: [program, ...words], returnOnExit: true });
const { instance } = await WebAssembly.instantiate(await readFile(program), { wasi_snapshot_preview1: wasi.wasiImport });
process.exitCode = wasi.start(instance);
