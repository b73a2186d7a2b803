#!/usr/bin/env node
import { spawn } from 'node:child_process';
import { once } from 'node:events';
import net from 'node:net';
import { fileURLToPath, pathToFileURL } from 'node:url';

const HELP = `Prints how many publishes a second clients get through to a server over a line of 20 ms, with up to 1,000 that have no
reply yet, and with one. The clients take turns.

usage: benches/clients/publishes.mjs BAYEUXD MODULE ..     (MODULE: the path of a client, such as bayeux-module.js)`;
// Milliseconds of a round trip, seconds of a measurement, how often each is made, and publishes without a reply.
const [DELAY, SECONDS, TURNS, MOST] = [20, 3, 3, 1000];

// Starts a relay that delays what passes by half of DELAY in each direction. Returns its port.
async function relayTo(server) {
  const copy = (from, to) => {
    // Timers of one length end in order, so the bytes keep theirs.
    const later = (action) => setTimeout(() => to.destroyed || action(), DELAY / 2);
    from.on('data', (data) => later(() => to.write(data)));
    from.on('error', () => to.destroy());
    from.on('close', () => later(() => to.destroy()));
  };
  const relay = net.createServer({ noDelay: true }, (client) => {
    const upstream = net.connect({ port: server, host: '127.0.0.1', noDelay: true });
    copy(client, upstream);
    copy(upstream, client);
  });
  await once(relay.listen(0, '127.0.0.1'), 'listening');
  return relay.address().port;
}

// Publishes with the client `module`, and prints how many publishes a second got a reply.
async function measure(module, url, most) {
  const { default: Client } = await import(pathToFileURL(module));
  const client = new Client(url);
  await client.start();
  let count = 0;
  for (let number = 0; number < most; number++) (async () => {
    for (;;) await client.publish('/bench/a', { number: count++ });
  })();
  setTimeout(() => process.exit(console.log(Math.round((count - most) / SECONDS)) ?? 0), 1000 * SECONDS);
}

// Returns the first line that a program prints. Its standard input ends with this process.
async function start(...args) {
  const { stdout } = spawn(args[0], args.slice(1), { stdio: ['pipe', 'pipe', 'inherit'] });
  for await (const data of stdout.iterator({ destroyOnReturn: false })) return String(data).trim();
  throw new Error(`${args.join(' ')}: ended too early`);
}

async function compare(program, modules) {
  const listening = await start(program, '--listen', '127.0.0.1:0', '--log-level', 'error', '--until-eof');
  const url = `http://127.0.0.1:${await relayTo(Number(/:(\d+)/.exec(listening)[1]))}/cometd`;
  for (const most of [MOST, 1]) {
    const rates = modules.map(() => []);
    for (let turn = 0; turn < TURNS; turn++) {
      for (const [at, module] of modules.entries()) rates[at].push(await start('node', fileURLToPath(import.meta.url), '--measure', module, url, String(most)));
    }
    for (const [at, module] of modules.entries()) console.log(`${most} without a reply, ${module}: ${rates[at].join(', ')} a second`);
  }
  process.exit();
}

const [first, ...rest] = process.argv.slice(2);
if (first === '--measure') await measure(rest[0], rest[1], Number(rest[2]));
else if (first === '--help' || rest.length === 0) process.exit(console.log(HELP) ?? (first === '--help' ? 0 : 2));
else await compare(first, rest);
