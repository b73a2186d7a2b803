#!/usr/bin/env node
// Joins src/ into one file for each kind of user: bayeux.js for pages, also from disk, bayeux-module.js
// for `import`, and bayeux.cjs for `require`. It writes the version of the repository to package.json.
//
// usage: node build.mjs [--check]
//
// --check: writes nothing, and fails if a file is not as it would be written.
import { readFileSync, writeFileSync } from 'node:fs';
import { fileURLToPath } from 'node:url';

const here = (name) => new URL(name, import.meta.url);
const read = (name) => readFileSync(here(name), 'utf8');
// In this order, each file finds what it needs at once in those before it.
const FILES = ['errors', 'calls', 'transport', 'arguments', 'outbox', 'windows', 'session', 'events', 'client'];
const HEAD = '// The client of docs/CLIENT.md. build.mjs made this file from src/: do not edit it.\n';

/** Returns the file `src/NAME.js` without imports, exports and comments. */
function body(name) {
  const text = read(`src/${name}.js`)
    .replace(/^import [^;]*;\n/gm, '')
    .replace(/^export (?=(?:async )?(?:function|class|const|let) )/gm, '')
    .replace(/^ *(?:\/\/.*|\/\*\*[^]*?\*\/)\n/gm, '')
    .replace(/ +\/\/ .*$/gm, '')
    .replace(/\n{2,}/g, '\n');
  if (/^(?:import|export)\b/m.test(text)) throw new Error(`src/${name}.js has an import or export of another form`);
  return text;
}

/** Returns all of src/ as the statements of one function or module. */
export function joined() {
  const text = FILES.map(body).join('');
  const names = [...text.matchAll(/^(?:async )?(?:function|class|const|let) (\w+)/gm)].map(([, name]) => name);
  const twice = names.find((it, at) => names.indexOf(it) < at);
  if (twice) throw new Error(`two files of src/ define ${twice}`);
  return text;
}

/** Returns a script that defines BayeuxClient, and `more`, an expression, if it is given. */
export function script(more = '') {
  return `${HEAD}(() => {\n'use strict';\n${joined()}globalThis.BayeuxClient ??= BayeuxClient;\n${more && `${more};\n`}})();\n`;
}

/** Returns the content of each file that is built, by its name. */
function built() {
  const types = read('bayeux-module.d.ts');
  const own = { ...JSON.parse(read('package.json')), version: read('../../VERSION').trim() };
  return {
    'bayeux.js': script(),
    'bayeux-module.js': `${HEAD}${joined()}export { BayeuxClient, BayeuxClient as default, BayeuxError };\n`,
    'bayeux.cjs': `'use strict';\n${HEAD}${joined()}module.exports = { BayeuxClient, BayeuxError, default: BayeuxClient };\n`,
    'bayeux.d.cts': types,
    'package.json': `${JSON.stringify(own, null, 2)}\n`,
  };
}

if (process.argv[1] === fileURLToPath(import.meta.url)) {
  const stale = Object.entries(built()).filter(([name, text]) => {
    try {
      return read(name) !== text;
    } catch {
      return true;
    }
  });
  if (process.argv[2] !== '--check') stale.forEach(([name, text]) => writeFileSync(here(name), text));
  else if (stale.length > 0) {
    console.error(`run node build.mjs: ${stale.map(([name]) => name).join(', ')}`);
    process.exit(1);
  }
}
