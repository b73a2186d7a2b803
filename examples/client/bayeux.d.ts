// The types of bayeux.js, a script that defines BayeuxClient for the whole page.
import type { BayeuxClient as Client } from './bayeux-module.js';

declare global {
  const BayeuxClient: typeof Client;
  type BayeuxClient = Client;
}
export {};
