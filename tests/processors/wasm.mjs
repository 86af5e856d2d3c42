// Runs files of records in WebAssembly: node wasm.mjs PROGRAM FILE.. Ends with status 1 where a call differs.
import { readFileSync } from "node:fs";

const [program, ...files] = process.argv.slice(2);
const text = (at, length) => Buffer.from(exports.memory.buffer, at, length).toString();
const imports = {
  env: {
    panicked(file, length, line) {
      throw new Error(`panicked at ${text(file, length)}:${line}`);
    },
  },
};
const { instance: { exports } } = await WebAssembly.instantiate(readFileSync(program), imports);
const said = ["", "the answer differs", "a list differs", "the record is not read"];
let failures = 0;

for (const file of files) {
  const bytes = readFileSync(file);
  const name = file.split("/").pop();
  let calls = 0;
  let differ = 0;
  for (let at = 0; at < bytes.length; calls++) {
    const length = bytes.readUInt32LE(at);
    const record = bytes.subarray(at + 4, at + 4 + length);
    at += 4 + length;
    let outcome = 3;
    if (length <= exports.record_bytes()) {
      new Uint8Array(exports.memory.buffer, exports.record_at(), length).set(record);
      outcome = exports.run(length);
    }
    if (outcome !== 0) {
      console.log(`${name}: FAILED: call ${calls}, function ${record[0]}: ${said[outcome]}`);
      differ++;
    }
  }
  console.log(`${name}: ${calls} calls, ${differ} differ`);
  failures += differ + (calls === 0 ? 1 : 0);
}
process.exit(failures > 0 ? 1 : 0);
