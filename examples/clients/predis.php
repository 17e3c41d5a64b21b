<?php
// A queue of jobs with predis (Debian: php-predis).
//
// usage: php predis.php PORT
//
// The server is `sr_server --listen 127.0.0.1:PORT --policy examples/policies/renderers.toml`, without a stream `jobs`.
// With a second word `produce` it adds six jobs after 0.2 seconds: PHP has no threads, so the producer is another process.

require 'Predis/Autoloader.php';
Predis\Autoloader::register();

use Predis\Client;
use Predis\Command\RawCommand;

const KINDS = ['image', 'video', 'image', 'image', 'video', 'image'];

function expect($found, $wanted): void
{
    if ($found !== $wanted) {
        throw new Exception('found ' . json_encode($found) . ', not ' . json_encode($wanted));
    }
}

function connect(int $port): Client
{
    // the timeout, in seconds, is longer than any BLOCK
    return new Client(['host' => '127.0.0.1', 'port' => $port, 'read_write_timeout' => 30]);
}

/** Sends a command as words, since predis 1 has no calls for streams. The reply is as it came: lists, texts and numbers. */
function call(Client $jobs, ...$words)
{
    $reply = $jobs->executeRaw($words, $failed);
    if ($failed) {
        throw new Exception($reply);
    }
    return $reply;
}

/** A list of names, each with its value after it, as an array with these keys. */
function named(array $list): array
{
    return array_column(array_chunk($list, 2), 1, 0);
}

function produce(Client $jobs, array $kinds): void
{
    foreach ($kinds as $number => $kind) {
        call($jobs, 'XADD', 'jobs', '*', 'kind', $kind, 'file', "$number.raw");
    }
}

/** Does the jobs that are pending for it, recovered ones among them, then new ones. Ends when that many are done. */
function work(Client $jobs, string $name, int $wanted): int
{
    $done = 0;
    $start = '0';
    while ($done < $wanted) {
        $streams = call($jobs, 'XREADGROUP', 'GROUP', 'render', $name, 'COUNT', 2, 'BLOCK', 5000, 'STREAMS', 'jobs', $start);
        $entries = $streams[0][1] ?? [];
        foreach ($entries as [$id, $job]) {
            $done += call($jobs, 'XACK', 'jobs', 'render', $id);
        }
        // its own pending entries until there are none, then new ones, and so on
        $start = $start === '0' && !$entries ? '>' : '0';
    }
    return $done;
}

function workWhileJobsCome(int $port, Client $jobs): void
{
    $producer = proc_open([PHP_BINARY, __FILE__, (string) $port, 'produce'], [], $pipes);
    expect(work($jobs, 'gpu', count(KINDS)), count(KINDS));
    expect(proc_close($producer), 0);
}

/** Takes over one job of a worker that is gone. */
function claim(Client $jobs, string $name): void
{
    [, $entries] = call($jobs, 'XAUTOCLAIM', 'jobs', 'render', $name, 0, '0-0', 'COUNT', 1);
    expect(count($entries), 1);
    expect(call($jobs, 'XACK', 'jobs', 'render', $entries[0][0]), 1);
}

function inspect(Client $jobs): void
{
    $stream = named(call($jobs, 'XINFO', 'STREAM', 'jobs'));
    expect([$stream['length'], $stream['groups'], named($stream['first-entry'][1])['kind']], [10, 1, 'image']);
    [$group] = array_map('named', call($jobs, 'XINFO', 'GROUPS', 'jobs'));
    expect([$group['name'], $group['consumers'], $group['pending']], ['render', 3, 3]);
    $consumers = array_map('named', call($jobs, 'XINFO', 'CONSUMERS', 'jobs', 'render'));
    expect(array_column($consumers, 'pending', 'name'), ['cpu' => 0, 'gpu' => 0, 'old' => 3]);
    expect(call($jobs, 'XPENDING', 'jobs', 'render')[3], [['old', '3']]);
}

function recover(Client $jobs): int
{
    $plan = call($jobs, 'RECOVER.PLAN', 'jobs', 'render', 'DEAD', 'old');
    $done = call($jobs, 'RECOVER.RUN', 'jobs', 'render', 'DEAD', 'old');
    expect([$plan[0], $done[0], count($done[2])], ['plan', 'done', 3]);
    expect(array_slice($plan, 1), array_slice($done, 1));
    expect(str_starts_with(call($jobs, 'RECOVER.BOARD', 'jobs', 'render'), 'consumer '), true);
    expect(call($jobs, 'XPENDING', 'jobs', 'render', '-', '+', 10, 'old'), []);
    return $done[1];
}

/** The text of the error, which `executeRaw` answers without an exception. */
function refused(Client $jobs, string ...$words): string
{
    $text = $jobs->executeRaw($words, $failed);
    expect($failed, true);
    return $text;
}

function main(int $port): void
{
    $jobs = connect($port);
    expect((string) $jobs->ping(), 'PONG');
    expect(call($jobs, 'XGROUP', 'CREATE', 'jobs', 'render', '0', 'MKSTREAM'), 'OK');
    workWhileJobsCome($port, $jobs);
    echo "a waiting worker did 6 jobs\n";
    produce($jobs, array_slice(KINDS, 0, 4));
    expect(count(call($jobs, 'XREADGROUP', 'GROUP', 'render', 'old', 'STREAMS', 'jobs', '>')[0][1]), 4);
    claim($jobs, 'cpu');
    echo "of 4 jobs of a worker that is gone, one was claimed\n";
    inspect($jobs);
    echo 'the other 3 were recovered, at a cost of ', recover($jobs), "\n";
    expect([work($jobs, 'gpu', 3), call($jobs, 'XPENDING', 'jobs', 'render')[0]], [3, 0]);
    echo "and finished by the worker that got them\n";
    echo 'refused: ', refused($jobs, 'XADD', 'jobs'), "\n";
    echo 'refused: ', refused($jobs, 'NOSUCH'), "\n";
    $ids = $jobs->pipeline(function ($pipeline) {
        for ($number = 0; $number < 100; $number++) {
            $pipeline->executeCommand(RawCommand::create('XADD', 'jobs', '*', 'kind', 'image', 'file', "$number.raw"));
        }
    });
    expect(count(array_unique($ids)), 100);
    echo 'the same connection went on: ', call($jobs, 'XLEN', 'jobs'), " jobs in all\n";
    $jobs->disconnect();
}

if (($argv[2] ?? '') === 'produce') {
    usleep(200000);
    produce(connect((int) $argv[1]), KINDS);
} else {
    main((int) $argv[1]);
}
