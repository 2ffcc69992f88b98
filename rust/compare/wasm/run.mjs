// Prints the sum of drawn calls by a module: run.mjs MODULE SEED CASES
import { readFileSync } from "node:fs";

const [file, seed, cases] = process.argv.slice(2);
const module = new WebAssembly.Module(readFileSync(file));
const { sum } = new WebAssembly.Instance(module, {}).exports;
const answers = BigInt.asUintN(64, sum(BigInt(seed), BigInt(cases)));
console.log(`sum ${answers.toString(16).padStart(16, "0")}`);
