// A Bayeux 1.0 client without dependencies, for web pages and node.
export { BayeuxClient, BayeuxClient as default } from './client.js';
export { BayeuxError } from './errors.js';
