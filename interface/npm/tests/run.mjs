// node run.mjs [TEST..]: the package as it is installed beside tests/, by the files that PKDER_CALLS, PKDER_PAIRS and
// PKDER_HEADER name; these tests, or all. The last line is "N passed, M failed".

import {load} from "pkder";

import * as asked from "./asked.mjs";
import * as calls from "./calls.mjs";
import * as header from "./header.mjs";
import * as memory from "./memory.mjs";
import * as program from "./program.mjs";
import * as rows from "./rows.mjs";
import * as standIn from "./stand_in.mjs";

const pkder = await load();
let passed = 0, failed = 0;
const tests = [asked, calls, header, memory, program, rows, standIn].flatMap(Object.entries);
const named = process.argv.slice(2);
for (const [name, test] of tests.filter(([name]) => named.length === 0 || named.includes(name))) {
    try {
        await test(pkder);
        passed += 1;
    } catch (why) {
        failed += 1;
        console.log(`${name}: ${why.stack.slice(0, 3000)}`);
    }
}
console.log(`${passed} passed, ${failed} failed`);
process.exitCode = failed === 0 && passed > 0 ? 0 : 1;
