<?php
// A queue of jobs with phpredis (Debian: php-redis).
//
// usage: php phpredis.php PORT
//
// The server is `sr_server --listen 127.0.0.1:PORT --policy examples/policies/renderers.toml`, without a stream `jobs`.
// With a second word `produce` it adds six jobs after 0.2 seconds: PHP has no threads, so the producer is another process.

const KINDS = ['image', 'video', 'image', 'image', 'video', 'image'];

function expect($found, $wanted): void
{
    if ($found !== $wanted) {
        throw new Exception('found ' . json_encode($found) . ', not ' . json_encode($wanted));
    }
}

function connect(int $port): Redis
{
    $jobs = new Redis();
    $jobs->connect('127.0.0.1', $port);
    $jobs->setOption(Redis::OPT_READ_TIMEOUT, 30); // longer than any BLOCK
    return $jobs;
}

function produce(Redis $jobs, array $kinds): void
{
    foreach ($kinds as $number => $kind) {
        $jobs->xAdd('jobs', '*', ['kind' => $kind, 'file' => "$number.raw"]);
    }
}

/** Does the jobs that are pending for it, recovered ones among them, then new ones. Ends when that many are done. */
function work(Redis $jobs, string $name, int $wanted): int
{
    $done = 0;
    $start = '0';
    while ($done < $wanted) {
        $entries = $jobs->xReadGroup('render', $name, ['jobs' => $start], 2, 5000)['jobs'] ?? [];
        foreach ($entries as $id => $job) {
            $done += $jobs->xAck('jobs', 'render', [$id]);
        }
        // its own pending entries until there are none, then new ones, and so on
        $start = $start === '0' && !$entries ? '>' : '0';
    }
    return $done;
}

function workWhileJobsCome(int $port, Redis $jobs): void
{
    $producer = proc_open([PHP_BINARY, __FILE__, (string) $port, 'produce'], [], $pipes);
    expect(work($jobs, 'gpu', count(KINDS)), count(KINDS));
    expect(proc_close($producer), 0);
}

/** Takes over one job of a worker that is gone. (phpredis 5 has no call for XAUTOCLAIM.) */
function claim(Redis $jobs, string $name): void
{
    $oldest = $jobs->xPending('jobs', 'render', '-', '+', 1)[0][0];
    expect(array_keys($jobs->xClaim('jobs', 'render', $name, 0, [$oldest], ['RETRYCOUNT' => 2])), [$oldest]);
    expect($jobs->xAck('jobs', 'render', [$oldest]), 1);
}

function inspect(Redis $jobs): void
{
    $stream = $jobs->xInfo('STREAM', 'jobs');
    expect([$stream['length'], $stream['groups']], [10, 1]);
    [$group] = $jobs->xInfo('GROUPS', 'jobs');
    expect([$group['name'], $group['consumers'], $group['pending']], ['render', 3, 3]);
    $consumers = $jobs->xInfo('CONSUMERS', 'jobs', 'render');
    expect(array_column($consumers, 'pending', 'name'), ['cpu' => 0, 'gpu' => 0, 'old' => 3]);
    expect($jobs->xPending('jobs', 'render')[3], [['old', '3']]);
}

function recover(Redis $jobs): int
{
    $plan = $jobs->rawCommand('RECOVER.PLAN', 'jobs', 'render', 'DEAD', 'old');
    $done = $jobs->rawCommand('RECOVER.RUN', 'jobs', 'render', 'DEAD', 'old');
    expect([$plan[0], $done[0], count($done[2])], ['plan', 'done', 3]);
    expect(array_slice($plan, 1), array_slice($done, 1));
    expect(str_starts_with($jobs->rawCommand('RECOVER.BOARD', 'jobs', 'render'), 'consumer '), true);
    expect($jobs->xPending('jobs', 'render', '-', '+', 10, 'old'), []);
    return $done[1];
}

/** phpredis answers false to an error, and keeps its text. */
function refused(Redis $jobs, string ...$words): string
{
    expect($jobs->rawCommand(...$words), false);
    $error = $jobs->getLastError();
    $jobs->clearLastError();
    return $error;
}

function main(int $port): void
{
    $jobs = connect($port);
    expect($jobs->ping(), true);
    expect($jobs->xGroup('CREATE', 'jobs', 'render', '0', true), true);
    workWhileJobsCome($port, $jobs);
    echo "a waiting worker did 6 jobs\n";
    produce($jobs, array_slice(KINDS, 0, 4));
    expect(count($jobs->xReadGroup('render', 'old', ['jobs' => '>'])['jobs']), 4);
    claim($jobs, 'cpu');
    echo "of 4 jobs of a worker that is gone, one was claimed\n";
    inspect($jobs);
    echo 'the other 3 were recovered, at a cost of ', recover($jobs), "\n";
    expect([work($jobs, 'gpu', 3), $jobs->xPending('jobs', 'render')[0]], [3, 0]);
    echo "and finished by the worker that got them\n";
    echo 'refused: ', refused($jobs, 'XADD', 'jobs'), "\n";
    echo 'refused: ', refused($jobs, 'NOSUCH'), "\n";
    $pipeline = $jobs->multi(Redis::PIPELINE);
    for ($number = 0; $number < 100; $number++) {
        $pipeline->xAdd('jobs', '*', ['kind' => 'image', 'file' => "$number.raw"]);
    }
    expect(count($pipeline->exec()), 100);
    echo 'the same connection went on: ', $jobs->xLen('jobs'), " jobs in all\n";
    $jobs->close();
}

if (($argv[2] ?? '') === 'produce') {
    usleep(200000);
    produce(connect((int) $argv[1]), KINDS);
} else {
    main((int) $argv[1]);
}
