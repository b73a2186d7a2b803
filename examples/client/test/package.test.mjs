// The package as another one uses it: what it has, what it defines, its types, and that it works with a real server.
import assert from 'node:assert/strict';
import { execFile, execFileSync, spawn } from 'node:child_process';
import { once } from 'node:events';
import { existsSync, mkdirSync, mkdtempSync, readFileSync, rmSync, symlinkSync, writeFileSync } from 'node:fs';
import { createRequire } from 'node:module';
import { tmpdir } from 'node:os';
import { join } from 'node:path';
import { after, before, describe, it } from 'node:test';
import { fileURLToPath } from 'node:url';
import { isDeepStrictEqual, promisify } from 'node:util';
import vm from 'node:vm';
import { gzipSync } from 'node:zlib';
import { BayeuxClient } from '../bayeux-module.js';

const FOLDER = fileURLToPath(new URL('..', import.meta.url));
const CLIENT = readFileSync(join(FOLDER, '../../docs/CLIENT.md'), 'utf8');
const has = (program) => (process.env.PATH ?? '').split(':').some((folder) => existsSync(join(folder, program)));
// The largest script for pages, compressed.
const MOST_BYTES = 12000;

const read = (name) => readFileSync(join(FOLDER, name), 'utf8');
let project; // a folder whose package has this one
// Runs a command in the project, and returns what it prints.
const run = (command, args) => execFileSync(command, args, { cwd: project, encoding: 'utf8', stdio: ['ignore', 'pipe', 'inherit'] });
before(() => {
  project = mkdtempSync(join(tmpdir(), 'gadzilk-'));
  writeFileSync(join(project, 'package.json'), '{ "type": "module" }');
  mkdirSync(join(project, 'node_modules'));
  symlinkSync(FOLDER, join(project, 'node_modules/gadzilk-client'));
});
after(() => rmSync(project, { recursive: true }));

const NO_COMPILER = 'there is no tsc (node-typescript)';
// Fails if the compiler finds errors in files of the project.
function compile(...args) {
  try {
    run('tsc', ['--noEmit', '--target', 'es2022', '--lib', 'es2022,dom,dom.iterable', '--module', 'nodenext', '--moduleResolution', 'nodenext', ...args]);
  } catch ({ stdout }) {
    // In JavaScript, one may look into data without a check.
    assert.deepEqual(stdout.split('\n').filter((it) => it && !/^\S+\.js\S+ error .* on type 'unknown'/.test(it)), []);
  }
}

describe('the package', () => {
  it('is built from its sources', () => {
    execFileSync('node', [join(FOLDER, 'build.mjs'), '--check']);
  });

  it('is packed with the files that it exports, and without tests', { skip: !has('npm') && 'there is no npm' }, () => {
    const [{ files }] = JSON.parse(run('npm', ['pack', FOLDER, '--dry-run', '--json', '--silent', '--offline', '--cache', join(project, 'cache')]));
    const paths = files.map(({ path }) => path);
    const { exports, main, module, types } = JSON.parse(read('package.json'));
    const namesIn = (it) => (typeof it === 'string' ? [it.replace('./', '')] : Object.values(it).flatMap(namesIn));
    assert.deepEqual(namesIn([main, module, types, exports]).filter((it) => !paths.includes(it)), []);
    assert.deepEqual(paths.filter((it) => /test|build/.test(it)), []);
  });

  it('can be imported and required, and defines nothing globally', async () => {
    const names = Object.getOwnPropertyNames(globalThis);
    const required = createRequire(join(project, 'x.cjs'))('gadzilk-client');
    assert.deepEqual(Object.keys(required).sort(), ['BayeuxClient', 'BayeuxError', 'default']);
    for (const file of ['bayeux-module.js', 'src/index.js']) {
      const imported = await import(join(FOLDER, file));
      assert.ok(imported.BayeuxClient.BayeuxError === imported.BayeuxError && imported.default === imported.BayeuxClient, file);
    }
    assert.deepEqual(Object.getOwnPropertyNames(globalThis), names);
  });

  it('as a script is small and defines only BayeuxClient, also twice, beside a page that has the same names', () => {
    const context = vm.createContext({ URL, EventTarget, Event });
    const before = Object.getOwnPropertyNames(context);
    vm.runInContext("const pause = 1, isMatch = 2, TRANSPORTS = 3, Session = 4, check = 5;", context);
    for (const _ of [1, 2]) vm.runInContext(read('bayeux.js'), context);
    const names = Object.getOwnPropertyNames(context).filter((it) => !before.includes(it));
    assert.deepEqual(names, ['BayeuxClient']);
    const { length } = gzipSync(read('bayeux.js'), { level: 9 });
    assert.ok(length < MOST_BYTES, `${length} bytes`);
  });

  it('has the members and options that the documents and the types have, and no others', () => {
    const client = new BayeuxClient('http://127.0.0.1/cometd');
    const members = [...Object.getOwnPropertyNames(client), ...Object.getOwnPropertyNames(BayeuxClient.prototype)].sort();
    const types = read('bayeux-module.d.ts');
    const bodyOf = (name) => new RegExp(`^export (?:class|interface) ${name}\\b.*{\n([^]*?)^}`, 'm').exec(types)[1];
    const namesOf = (text, pattern) => [...new Set([...text.matchAll(pattern)].map(([, name]) => name))].sort();
    assert.deepEqual(namesOf(bodyOf('BayeuxClient'), /^ {2}(?:readonly )?(\w+)\??[(:<]/gm), members);
    // The first cells of the table.
    const cells = CLIENT.match(/(?<=^\| )`[^|]*(?= \|)/gm).join(' ').replace('new BayeuxClient', 'constructor');
    assert.deepEqual(namesOf(cells, /`(\w+)/g), members);
    assert.throws(() => new BayeuxClient('http://127.0.0.1/', { no: 1 }), ({ message }) => {
      const options = message.split('expected one of ')[1].split(', ').sort();
      assert.deepEqual(namesOf(bodyOf('Options'), /^ {2}(\w+)\?:/gm), options);
      const list = CLIENT.slice(CLIENT.indexOf('### Options')).match(/(?<=^- )[^:]*/gm).join(' ');
      return isDeepStrictEqual(namesOf(list, /`(\w+)`/g).filter((it) => options.includes(it)), options);
    });
  });

  it('has types that a strict compiler takes, for modules and for CommonJS', { skip: !has('tsc') && NO_COMPILER }, () => {
    const uses = `
      import { BayeuxClient, BayeuxError, type State } from 'gadzilk-client';
      const client = new BayeuxClient('http://127.0.0.1/cometd', { headers: async () => ({ a: 'b' }), ext: { token: 1 }, queue: 3, timeout: 1, maxNetworkDelay: 1 });
      client.addEventListener('state', ({ state, why, error }) => { const it: State = state; const text: string = why; const code: BayeuxError['code'] | undefined = error?.code; const reason: string | undefined = error?.reason; void [it, text, code, reason]; });
      client.addEventListener('gap', ({ since }) => since.getTime(), { once: true });
      client.addEventListener('error', ({ error }) => { if (error.code === 'forbidden') throw error; });
      client.ongap = (since) => { since.toISOString(); };
      client.onleave = () => [{ channel: '/a', data: 1 }];
      client.headers = { a: 'b' };
      export async function use(): Promise<boolean> {
        await client.start();
        await client.subscribe<{ text: string }>('/a', ({ text }, channel) => { const it: string = text + channel; void it; }, { signal: new AbortController().signal });
        for await (const { channel, data } of client.events<number>('/a')) { const it: number = data; const name: string = channel; void [it, name]; }
        // @ts-expect-error: the state cannot be set
        client.state = 'connected';
        // @ts-expect-error: an option that is unknown
        new BayeuxClient('/cometd', { header: {} });
        // @ts-expect-error: data may be anything, so it has to be checked
        client.subscribe('/a', (data) => data.text);
        return client.stop([{ channel: '/a', data: null }]);
      }`;
    for (const name of ['uses.mts', 'uses.cts']) writeFileSync(join(project, name), uses);
    writeFileSync(join(project, 'page.ts'), `/// <reference types="gadzilk-client/bayeux.js" />\nconst client: BayeuxClient = new BayeuxClient('/cometd');\nclient.publish('/a', 1);\n`);
    compile('--strict', 'uses.mts', 'uses.cts', 'page.ts');
    // Node's types have few of the names of the DOM.
    writeFileSync(join(project, 'node.d.ts'), `
      declare class Event { readonly type: string }
      type Listener = (event: Event) => void;
      declare class EventTarget {
        addEventListener(type: string, listener: Listener, options?: { once?: boolean }): void;
        removeEventListener(type: string, listener: Listener, options?: { capture?: boolean }): void;
      }
      declare class URL {}
      interface AbortSignal {}`);
    writeFileSync(join(project, 'program.mts'), "import { BayeuxClient } from 'gadzilk-client';\nexport const it: string = new BayeuxClient('http://127.0.0.1/').url;\n");
    compile('--strict', '--lib', 'es2022', 'node.d.ts', 'program.mts');
  });

  it('has what the examples of the documents use, which a compiler takes', { skip: !has('tsc') && NO_COMPILER }, () => {
    const pages = `${CLIENT}\n${readFileSync(join(FOLDER, 'README.md'), 'utf8')}`;
    const examples = [...pages.matchAll(/^```(js|jsx|ts|vue)\n([^]*?)^```$/gm)].map(([, kind, text], at) => {
      const script = /(?<=^<script setup>)[^]*(?=^<\/script>)/m.exec(text)?.[0] ?? text;
      const own = /\bclient\b/.test(script) && !/(const|import) .*\bclient\b.* (=|from) /.test(script) ? "const client = new BayeuxClient('/cometd');\n" : '';
      const name = `example-${at}.${{ vue: 'js', ts: 'mts' }[kind] ?? kind}`;
      writeFileSync(join(project, name), `${own}${script}\nexport {};\n`);
      return name;
    });
    // What the examples take from elsewhere. `client` of another file has the type of the client.
    writeFileSync(join(project, 'bayeux.js'), "import { BayeuxClient } from 'gadzilk-client';\nexport const client = new BayeuxClient('/cometd');\n");
    writeFileSync(join(project, 'others.d.ts'), `/// <reference types="gadzilk-client/bayeux.js" />
      declare module 'react'; declare module 'vue'; declare module 'vite';
      declare namespace JSX { interface IntrinsicElements { [name: string]: any } }
      declare const Presence: any, defineProps: any, draw: any, show: any, text: string;`);
    assert.ok(examples.length > 8);
    compile('--allowJs', '--checkJs', '--jsx', 'preserve', '--skipLibCheck', 'others.d.ts', ...examples);
  });
});

// BAYEUXD: the path of a bayeuxd.
describe('with a server', { skip: !process.env.BAYEUXD && 'BAYEUXD names no server' }, () => {
  it('publishes the message of the example in docs/CLIENT.md, imported and required, and many others', async (context) => {
    const daemon = spawn(process.env.BAYEUXD, ['--listen', '127.0.0.1:0', '--no-callback-polling', '--sessions', '2'], { stdio: ['ignore', 'pipe', 'ignore'] });
    context.after(() => daemon.kill());
    const [, port] = /:(\d+)/.exec((await once(daemon.stdout, 'data'))[0]);
    const address = `http://127.0.0.1:${port}/cometd`;
    const text = CLIENT.match(/(?<=^```js\n)[^]*?(?=^```$)/gm).find((it) => it.includes("from 'gadzilk-client'"));
    const [own, ...rest] = text.replace('http://127.0.0.1:8087/cometd', address).split('\n');
    writeFileSync(join(project, 'example.mjs'), [own, ...rest].join('\n'));
    writeFileSync(join(project, 'example.cjs'), `const { BayeuxClient } = require('gadzilk-client');\n(async () => {${rest.join('\n')}})();`);
    const reader = new BayeuxClient(address);
    const events = reader.events('/chat/*');
    await reader.start();
    // Each opens the second session of a server that takes two.
    for (const name of ['example.mjs', 'example.cjs']) {
      const { stdout } = await promisify(execFile)('node', [name], { cwd: project });
      assert.equal(stdout, 'connecting \nconnected \nstopped \n');
      assert.deepEqual((await events.next()).value, { channel: '/chat/hall', data: { text: 'Hello' } });
    }
    // The events of many publishes arrive once and in order.
    const writer = new BayeuxClient(address);
    await writer.start();
    for (let number = 0; number < 1000; number++) writer.publish('/chat/many', number);
    assert.equal(await writer.stop([{ channel: '/chat/many', data: 'last' }]), true);
    const found = [];
    for await (const { data } of events) if (found.push(data) && data === 'last') break;
    assert.deepEqual(found, [...Array(1000).keys(), 'last']);
    assert.equal(await reader.stop(), true);
  });
});
