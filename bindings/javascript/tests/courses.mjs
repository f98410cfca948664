// The exports of the module answer what the stored courses of an engine say: the crossing's numbers, through the same memory.
//
// Usage: node courses.mjs REPLAY MODULE COURSES; REPLAY is the reader of courses, which this runs in a process of its own.
import { execFileSync } from 'node:child_process';

console.log(execFileSync(process.execPath, process.argv.slice(2), { encoding: 'utf8' }).trim());
