// A queue of jobs with node-redis (Debian: node-redis, to be run with NODE_PATH=/usr/share/nodejs).
//
// usage: node node_redis.js PORT
//
// The server is `sr_server --listen 127.0.0.1:PORT --policy examples/policies/renderers.toml`, without a stream `jobs`.

const assert = require('assert');
const { setTimeout: sleep } = require('timers/promises');
const { createClient } = require('redis');

const KINDS = ['image', 'video', 'image', 'image', 'video', 'image'];
const OWN = { key: 'jobs', id: '0' };
const NEW = { key: 'jobs', id: '>' };

async function connect(port) {
  const client = createClient({ socket: { host: '127.0.0.1', port } });
  client.on('error', (error) => { throw error; });
  await client.connect();
  return client;
}

async function produce(jobs, kinds) {
  for (const [number, kind] of kinds.entries()) {
    await jobs.xAdd('jobs', '*', { kind, file: `${number}.raw` });
  }
}

// Does the jobs that are pending for it, recovered ones among them, then new ones. Ends when that many are done.
async function work(jobs, name, wanted) {
  let done = 0;
  let start = OWN;
  while (done < wanted) {
    const streams = await jobs.xReadGroup('render', name, start, { COUNT: 2, BLOCK: 5000 });
    const messages = streams?.[0].messages ?? [];
    for (const { id } of messages) done += await jobs.xAck('jobs', 'render', id);
    // its own pending entries until there are none, then new ones, and so on
    start = start === OWN && messages.length === 0 ? NEW : OWN;
  }
  return done;
}

// A blocked connection sends nothing else, so the worker has one of its own.
async function workWhileJobsCome(port, jobs) {
  const worker = await connect(port);
  const working = work(worker, 'gpu', KINDS.length);
  await sleep(200);
  await produce(jobs, KINDS);
  assert.equal(await working, KINDS.length);
  await worker.disconnect();
}

// Takes over one job of a worker that is gone.
async function claim(jobs, name) {
  const { messages } = await jobs.xAutoClaim('jobs', 'render', name, 0, '0-0', { COUNT: 1 });
  assert.equal(messages.length, 1);
  assert.equal(await jobs.xAck('jobs', 'render', messages[0].id), 1);
}

async function inspect(jobs) {
  const stream = await jobs.xInfoStream('jobs');
  assert.deepEqual([stream.length, stream.groups, stream.firstEntry.message.kind], [10, 1, 'image']);
  const [group] = await jobs.xInfoGroups('jobs');
  assert.deepEqual([group.name, group.consumers, group.pending], ['render', 3, 3]);
  const consumers = await jobs.xInfoConsumers('jobs', 'render');
  assert.deepEqual(consumers.map((it) => [it.name, it.pending]), [['cpu', 0], ['gpu', 0], ['old', 3]]);
  const { pending, consumers: owners } = await jobs.xPending('jobs', 'render');
  assert.deepEqual([pending, owners[0].name], [3, 'old']);
}

async function recover(jobs) {
  const plan = await jobs.sendCommand(['RECOVER.PLAN', 'jobs', 'render', 'DEAD', 'old']);
  const done = await jobs.sendCommand(['RECOVER.RUN', 'jobs', 'render', 'DEAD', 'old']);
  assert.deepEqual([plan[0], done[0], done[2].length], ['plan', 'done', 3]);
  assert.deepEqual(plan.slice(1), done.slice(1));
  assert((await jobs.sendCommand(['RECOVER.BOARD', 'jobs', 'render'])).startsWith('consumer '));
  assert.deepEqual(await jobs.xPendingRange('jobs', 'render', '-', '+', 10, { consumer: 'old' }), []);
  return done[1];
}

async function refused(jobs, ...words) {
  try {
    await jobs.sendCommand(words);
  } catch (error) {
    return error.message;
  }
  throw new Error(`${words} was not refused`);
}

async function main(port) {
  const jobs = await connect(port);
  assert.equal(await jobs.ping(), 'PONG');
  await jobs.xGroupCreate('jobs', 'render', '0', { MKSTREAM: true });
  await workWhileJobsCome(port, jobs);
  console.log('a waiting worker did 6 jobs');
  await produce(jobs, KINDS.slice(0, 4));
  assert.equal((await jobs.xReadGroup('render', 'old', NEW))[0].messages.length, 4);
  await claim(jobs, 'cpu');
  console.log('of 4 jobs of a worker that is gone, one was claimed');
  await inspect(jobs);
  console.log(`the other 3 were recovered, at a cost of ${await recover(jobs)}`);
  assert.equal(await work(jobs, 'gpu', 3), 3);
  assert.equal((await jobs.xPending('jobs', 'render')).pending, 0);
  console.log('and finished by the worker that got them');
  console.log('refused:', await refused(jobs, 'XADD', 'jobs'));
  console.log('refused:', await refused(jobs, 'NOSUCH'));
  // Commands that are sent in the same turn go out together.
  await Promise.all(Array.from({ length: 100 }, (_, number) => jobs.xAdd('jobs', '*', { kind: 'image', file: `${number}.raw` })));
  console.log(`the same connection went on: ${await jobs.xLen('jobs')} jobs in all`);
  await jobs.disconnect();
}

main(Number(process.argv[2])).catch((error) => {
  console.error(error);
  process.exit(1);
});
